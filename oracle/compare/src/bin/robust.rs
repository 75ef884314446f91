//! The robustness run: every call on random and damaged arguments, each of which ends at a page
//! without access or starts right behind one, as do output and scratch. A byte read or written out
//! of bounds ends the program at once; the last name printed is that of the call. Every answer is
//! compared with the Rust's, unless the library is run alone: then the digest of its answers, the last
//! column, is to be that of a run with the same cases and seed that was compared. Exit code 1 when there is a difference, 2 for a bad argument.

use compare::call::EachCase;
use compare::calls::CALLS;
use compare::lent::Standing;
use compare::library::COMPARED;
use compare::robust_cases::Maker;
use compare::run::{Tally, run_alone, run_cases};
use std::io::{Write, stdout};
use std::process::ExitCode;
use std::time::Instant;

const USAGE: &str = "usage: robust [--cases N] [--seed N] [--heap] [--alone]
  --cases N  so many cases, shared by all calls (1000000)
  --seed N   the seed of the cases (1)
  --heap     blocks of the heap of exactly their length in place of pages, for a run under valgrind
  --alone    the Rust is not asked; compare the digests with those of a run that asked it";

struct Arguments {
    cases: u64,
    seed: u64,
    standing: Standing,
    alone: bool,
}

fn main() -> ExitCode {
    let Some(arguments) = arguments(std::env::args().skip(1)) else {
        eprintln!("{USAGE}");
        return ExitCode::from(2);
    };
    let done = if arguments.alone {
        "run alone"
    } else {
        "compared"
    };
    println!("{done}: {COMPARED}, {}", place(arguments.standing));
    println!(
        "{:<29} {:>9} {:>9} {:>9} {:>11}  {:<16}  refusals: number*count",
        "call", "cases", "answered", "none", "differences", "digest"
    );
    let mut maker = Maker::new(arguments.seed);
    let start = Instant::now();
    let (mut total, mut differences, mut digest) = (0, 0, 0u64);
    for (number, call) in CALLS.iter().enumerate() {
        print!("{:<29} ", call.name);
        stdout().flush().expect("the output takes the table");
        let count = share(arguments.cases, number as u64);
        let generate = |each: &mut EachCase| maker.cases(call, count, each);
        let tally = if arguments.alone {
            run_alone(call, arguments.standing, generate)
        } else {
            run_cases(call, arguments.standing, generate)
        };
        print_row(&tally);
        total += tally.cases;
        differences += tally.differences;
        digest = digest.rotate_left(1) ^ tally.digest;
    }
    let seconds = start.elapsed().as_secs_f64();
    println!(
        "{seconds:.1} seconds, {:.0} cases a second",
        total as f64 / seconds
    );
    println!("{total} cases, {differences} differences, digest {digest:016X}");
    ExitCode::from(u8::from(differences > 0))
}

fn place(standing: Standing) -> &'static str {
    match standing {
        Standing::Guarded => "buffers between guard bytes",
        Standing::AtPages => "buffers at pages without access",
        Standing::Heap => "buffers in blocks of the heap",
    }
}

/// How many of all cases the call with this number gets.
fn share(cases: u64, number: u64) -> u64 {
    let calls = CALLS.len() as u64;
    cases / calls + u64::from(number < cases % calls)
}

/// The row of a call behind its name, and the smallest difference.
fn print_row(tally: &Tally) {
    let refused: Vec<String> = tally
        .refused
        .iter()
        .map(|(number, count)| format!("{number}*{count}"))
        .collect();
    println!(
        "{:>9} {:>9} {:>9} {:>11}  {:016X}  {}",
        tally.cases,
        tally.accepted,
        tally.none,
        tally.differences,
        tally.digest,
        refused.join(" ")
    );
    if let Some(smallest) = &tally.smallest {
        println!("the smallest difference: {smallest}");
    }
}

fn arguments(mut args: impl Iterator<Item = String>) -> Option<Arguments> {
    let mut arguments = Arguments {
        cases: 1_000_000,
        seed: 1,
        standing: Standing::AtPages,
        alone: false,
    };
    while let Some(arg) = args.next() {
        match arg.as_str() {
            "--alone" => arguments.alone = true,
            "--heap" => arguments.standing = Standing::Heap,
            "--cases" => arguments.cases = args.next()?.parse().ok()?,
            "--seed" => arguments.seed = args.next()?.parse().ok()?,
            _ => return None,
        }
    }
    Some(arguments)
}
