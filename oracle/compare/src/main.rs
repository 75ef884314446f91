//! The comparison at scale: prints the counts of each call, then the number of cases and of
//! differences. Exit code 1 when there is a difference or a class of cases is not met, 2 for a bad
//! argument.

use compare::call::Options;
use compare::calls::CALLS;
use compare::library::COMPARED;
use compare::run::{Tally, run};
use compare::section::Section;
use compare::{decimals, levels, strict, table};
use std::process::ExitCode;

const USAGE: &str = "usage: compare [--quick] [--only NAME,..] [--length N] [--alphabet-length N] \
[--pair-length N] [--count N] [--pairs N] [--seed N]
  --quick              all byte strings up to 2 bytes, all pairs of types up to 3 bytes, all values
                       up to 3 nodes, 1,000 random records, 5,000 random pairs and values
  --only NAME,..       these calls only, or the sections levels, decimals, strict and table; may stand
                       several times
  --length N           all byte strings up to N bytes (3)
  --alphabet-length N  all strings up to N bytes over the small alphabets (5)
  --pair-length N      all pairs of types up to N bytes, all values up to N nodes (4)
  --count N            N random records for each call, with their damaged copies (10000)
  --pairs N            N random pairs of short types, and of types near each other; N random values
                       (100000)
  --seed N             the seed of the random records (1)";

/// What stands behind the calls.
const SECTIONS: [&str; 4] = [levels::NAME, decimals::NAME, strict::NAME, table::NAME];

/// What is to be run.
struct Arguments {
    options: Options,
    /// The names of the calls; all calls when there is none.
    only: Vec<String>,
}

fn main() -> ExitCode {
    let Some(Arguments { options, only }) = arguments(std::env::args().skip(1)) else {
        eprintln!("{USAGE}");
        let names: Vec<&str> = CALLS.iter().map(|call| call.name).collect();
        let sections = SECTIONS.join(", ");
        eprintln!("calls: {}; sections: {sections}", names.join(", "));
        return ExitCode::from(2);
    };
    println!("compared with {COMPARED}");
    let wanted = |name| only.is_empty() || only.iter().any(|other| other == name);
    let mut cases = 0;
    let mut differences = 0;
    let mut add = |tally: &Tally| {
        if let Some(smallest) = &tally.smallest {
            println!(
                "{}: {} differences, the smallest: {smallest}",
                tally.name, tally.differences
            );
        }
        cases += tally.cases;
        differences += tally.differences;
    };
    let mut all_met = true;
    for call in CALLS.into_iter().filter(|call| wanted(call.name)) {
        let tally = run(&call, &options);
        println!("{tally}");
        add(&tally);
        if tally.decimals == Some(0) {
            println!("{}: NOT MET: decimals", tally.name);
            all_met = false;
        }
    }
    let mut add_section = |section: Section| {
        println!("{section}");
        add(&section.tally);
        for class in &section.missing {
            println!("{}: NOT MET: {class}", section.tally.name);
            all_met = false;
        }
    };
    if wanted(levels::NAME) {
        levels::run(&options).for_each(&mut add_section);
    }
    if wanted(decimals::NAME) {
        add_section(decimals::run(&options));
    }
    if wanted(strict::NAME) {
        strict::run(&options).for_each(&mut add_section);
    }
    if wanted(table::NAME) {
        table::run(&options).for_each(&mut add_section);
    }
    println!("{cases} cases, {differences} differences");
    ExitCode::from(u8::from(differences > 0 || !all_met))
}

fn arguments(mut args: impl Iterator<Item = String>) -> Option<Arguments> {
    let mut options = Options {
        length: 3,
        alphabet_length: 5,
        pair_length: 4,
        count: 10_000,
        pairs: 100_000,
        seed: 1,
    };
    let mut only = vec![];
    while let Some(arg) = args.next() {
        if arg == "--quick" {
            options.length = 2;
            options.alphabet_length = 4;
            options.pair_length = 3;
            options.count = 1_000;
            options.pairs = 5_000;
            continue;
        }
        let value = args.next()?;
        if arg == "--only" {
            only.extend(value.split(',').map(str::to_string));
            continue;
        }
        let number = value.parse::<u64>().ok()?;
        match arg.as_str() {
            "--length" => options.length = number as usize,
            "--alphabet-length" => options.alphabet_length = number as usize,
            "--pair-length" => options.pair_length = number as usize,
            "--count" => options.count = number as usize,
            "--pairs" => options.pairs = number as usize,
            "--seed" => options.seed = number,
            _ => return None,
        }
    }
    let is_call = |name: &String| CALLS.iter().any(|call| call.name == name);
    let known = |name: &String| is_call(name) || SECTIONS.contains(&&name[..]);
    only.iter()
        .all(known)
        .then_some(Arguments { options, only })
}
