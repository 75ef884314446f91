//! The cases of the check of a table, and those of the ported calls behind tables.

use crate::call::{Case, EachCase, Options};
use feel_cases::{
    Random, TABLE_FAULTS, TABLE_SHAPES, faulty_table, fixed_table, random_order, shaped_table,
};

/// Of so many tables in turn one is refused.
const REFUSED_EACH: usize = 12;

/// How many tables are taken in turn. Not a multiple of a small number, so that neighbours among the
/// cases get each of them.
const TURN: usize = 251;

/// Receives the tables one after the other.
pub type EachTable<'a> = dyn FnMut(&[u8]) + 'a;

/// Cases of one table.
pub fn one_table(options: &Options, each: &mut EachCase) {
    each_table(options, &mut |table| {
        each(Case {
            args: &[table],
            ..Case::default()
        })
    });
}

/// Tables of every shape and with every fault, every length up to some hundred bytes, and each table
/// that has one other bit or byte than a table that loads.
fn each_table(options: &Options, each: &mut EachTable) {
    let mut random = Random::new(options.seed);
    for length in 0..=300 {
        let mut table = fixed_table();
        table.resize(length, (length % 2) as u8);
        each(&table);
    }
    for shape in TABLE_SHAPES {
        let table = shaped_table(shape, &mut random);
        for place in 0..table.len() {
            let mut other = table.clone();
            for byte in [1 - table[place], 2, 0xFF] {
                other[place] = byte;
                each(&other);
            }
        }
    }
    for _ in 0..options.pairs / 20 {
        for shape in TABLE_SHAPES {
            each(&shaped_table(shape, &mut random));
        }
        for fault in TABLE_FAULTS {
            each(&faulty_table(fault, &mut random));
        }
        each(&random_order(&mut random));
    }
}

/// Some tables of every shape, and at times one with a fault.
fn in_turn(seed: u64) -> Vec<Vec<u8>> {
    let mut random = Random::new(seed);
    let table = |number: usize| match number % REFUSED_EACH {
        0 => {
            let fault = TABLE_FAULTS[number / REFUSED_EACH % TABLE_FAULTS.len()];
            faulty_table(fault, &mut random)
        }
        _ => shaped_table(TABLE_SHAPES[number % TABLE_SHAPES.len()], &mut random),
    };
    (0..TURN).map(table).collect()
}

/// The cases of a call without a table, each behind the next table.
pub fn behind_tables(
    generate: fn(&Options, &mut EachCase),
    options: &Options,
    each: &mut EachCase,
) {
    let tables = in_turn(options.seed);
    let mut turn = tables.iter().cycle();
    generate(options, &mut |case| {
        let table = turn.next().expect("no end");
        let args: Vec<&[u8]> = [&table[..]]
            .into_iter()
            .chain(case.args.iter().copied())
            .collect();
        each(Case {
            args: &args,
            ..case
        })
    });
}
