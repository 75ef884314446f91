//! The cases of the check of a table.

use super::Counter;
use super::classes::{Class, Classes};
use crate::call::Options;
use crate::table_cases::one_table;
use feel_cases::{Random, TABLE_FAULTS, TABLE_SHAPES, faulty_table, fixed_table, shaped_table};
use feel_form::calls::table_check;

pub fn classes() -> Classes {
    vec![
        (
            "every relation among four types",
            [None, Some(27), Some(28)].map(Class::Among).to_vec(),
        ),
        (
            "one bit turned",
            [None, Some(27), Some(28)].map(Class::Turned).to_vec(),
        ),
    ]
}

pub fn generate(options: &Options, counter: &mut Counter) {
    let times = (options.pairs / 100).max(3);
    for _ in 0..times {
        for shape in TABLE_SHAPES {
            let table = shaped_table(shape, &mut counter.random);
            counter.add(Class::Shape(shape));
            counter.made(&[&table], &[], Some(true));
        }
        for fault in TABLE_FAULTS {
            let table = faulty_table(fault, &mut counter.random);
            counter.add(Class::Fault(fault));
            counter.refused(&[&table], fault.refusal());
        }
        for _ in 0..10 {
            let table = counter.order();
            counter.case(&[&table], &[]);
        }
    }
    among_four((options.pairs / 2_000).max(1), counter);
    turned((options.pairs / 2_000).max(3), counter);
    one_table(options, &mut |case| counter.case(case.args, &[]));
}

/// Every relation among four of the types between Null and Any, the others as in the fixed table.
fn among_four(times: usize, counter: &mut Counter) {
    for _ in 0..times {
        let four = four(&mut counter.random);
        for bits in 0..1 << 12 {
            let mut table = fixed_table();
            let mut rest = bits;
            for row in four {
                for column in four.into_iter().filter(|column| *column != row) {
                    table[10 * row + column] = (rest & 1) as u8;
                    rest >>= 1;
                }
            }
            counter.add(Class::Among(table_check(&table).err()));
            counter.case(&[&table], &[]);
        }
    }
}

/// Four of the types between Null and Any.
fn four(random: &mut Random) -> [usize; 4] {
    let mut types = [1, 2, 3, 4, 5, 6, 7, 8];
    for place in 0..4 {
        types.swap(place, place + random.below(8 - place));
    }
    [types[0], types[1], types[2], types[3]]
}

/// Every table that differs from one that loads in one bit.
fn turned(times: usize, counter: &mut Counter) {
    for _ in 0..times {
        for shape in TABLE_SHAPES {
            let table = shaped_table(shape, &mut counter.random);
            for place in 0..table.len() {
                let mut other = table.clone();
                other[place] ^= 1;
                counter.add(Class::Turned(table_check(&other).err()));
                counter.case(&[&other], &[]);
            }
        }
    }
}
