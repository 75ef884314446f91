//! The speed of every exported function beside the Rust, for records of three sizes and for the
//! records of the sample week. The Rust has two parts: reading the arguments, answering and writing
//! its answer, and its answer alone on trees that were built before. An update of a context alone is
//! that of a copy of the tree, since the call leaves the context as it is. Beside them runs lean Rust
//! for the readers and a few calls, and an earlier library where one is linked. All run on the same
//! records in turn, accepted ones but for a section of refused ones and results over level 31; the
//! best of several rounds counts, so only the ratios in one run say something.

mod contexts;
mod data;
mod deep;
mod lean;
mod measure;
mod members;
mod others;
mod ours;
mod refused;
mod stock;
mod strict;
mod table;
mod texts;
mod types;
mod updates;
mod values;
mod week;

use compare::calls::CALLS;
use compare::library::COMPARED;
use std::process::ExitCode;
use stock::{SIZES, Stock};
use table::{PLACES, Table};

const USAGE: &str = "usage: bench [--only NAME,..]
  NAME is a call, a place, or CALL:PLACE";

fn main() -> ExitCode {
    let Some(only) = arguments(std::env::args().skip(1)) else {
        eprintln!("{USAGE}");
        let names: Vec<&str> = CALLS.iter().map(|call| call.name).collect();
        eprintln!("calls: {}", names.join(", "));
        eprintln!("places: {}", PLACES.join(", "));
        return ExitCode::from(2);
    };
    println!("measured: {COMPARED}");
    println!("bytes: the arguments together, on average");
    println!("from bytes: the time of the Rust that reads, answers and writes, divided by ours");
    println!("ready: the time of the Rust's answer on trees built before, divided by ours");
    println!("lean: the time of lean Rust on the same bytes, divided by ours");
    if table::HAS_BEFORE {
        println!("before: the time of the earlier library, divided by ours");
    }
    println!("growth: our ns a byte divided by those of the next smaller size");
    let stocks = SIZES.map(Stock::new);
    let mut table = Table::new(only);
    table.section("random records");
    for calls in [
        types::run,
        values::run,
        contexts::run,
        updates::run,
        texts::run,
        strict::run,
        members::run,
    ] {
        calls(&stocks, &mut table);
    }
    table.missing(CALLS.iter().map(|call| call.name));
    table.section("refused records");
    refused::run(&stocks, &mut table);
    table.section("other records");
    others::run(&stocks, &mut table);
    strict::run_others(&stocks, &mut table);
    table.section("updates near level 31");
    deep::run(&mut table);
    table.section("records of the sample week");
    week::run(&mut table);
    table.end();
    ExitCode::SUCCESS
}

/// What is to be measured: calls, places, or a call at a place; all when there is none.
fn arguments(mut args: impl Iterator<Item = String>) -> Option<Vec<String>> {
    let mut only = vec![];
    while let Some(arg) = args.next() {
        if arg != "--only" {
            return None;
        }
        only.extend(args.next()?.split(',').map(str::to_string));
    }
    let is_call = |name: &str| CALLS.iter().any(|call| call.name == name);
    let known = |name: &String| match name.split_once(':') {
        Some((call, place)) => is_call(call) && PLACES.contains(&place),
        None => is_call(name) || PLACES.contains(&&name[..]),
    };
    only.iter().all(known).then_some(only)
}
