//! The groups of the six calls over a table of simple types.

use crate::list::{Call, Case, Group};
use crate::pairs::arguments;

pub fn groups() -> Vec<Group> {
    let check = Call::TableCheck;
    let tables = |tables: Vec<Vec<u8>>| tables.into_iter().map(alone).collect();
    let mut groups = vec![
        Group::new(check, "tables that load", tables(loading())),
        Group::new(check, "length and bytes", tables(malformed())),
        Group::new(check, "no order", tables(no_orders())),
        Group::new(check, "no least common supertype", tables(two_above())),
    ];
    for (call, lent, lines, bad) in [
        (Call::TableIsConformant, 0, &TYPES[..], &BAD_TYPES[..]),
        (Call::TableCommonSupertype, 2, &BOUNDS, &BAD_TYPES[..1]),
        (Call::TableCommonSubtype, 2, &BOUNDS, &BAD_TYPES[..1]),
        (Call::TableValueIsConformant, 0, &VALUES, &BAD_VALUES[..]),
        (Call::TableValueLeastType, 2, &LEAST, &BAD_LEAST[..]),
    ] {
        let over = |table: &[(usize, usize)], lines: &[&str]| -> Vec<Case> {
            let case = |line: &&str| case(order(table), line, lent);
            lines.iter().map(case).collect()
        };
        groups.push(Group::new(
            call,
            "a date is a date and time",
            over(&DATES, lines),
        ));
        groups.push(Group::new(call, "over other tables", others(call, lent)));
        groups.push(Group::new(call, "refusals in order", over(&DATES, bad)));
        groups.push(Group::new(call, "the table first", refused(call, lent)));
        if lent > 0 {
            groups.push(Group::new(call, "scratch and output", buffers(call)));
        }
    }
    groups
}

/// Where the simple types stand in the order 20 to 29.
const ANY: usize = 0;
const NULL: usize = 9;

/// A date is a date and time.
const DATES: [(usize, usize); 1] = [(4, 6)];

/// One below two that are below a fourth.
const DIAMOND: [(usize, usize); 5] = [(1, 2), (1, 3), (2, 5), (3, 5), (1, 5)];

/// The fixed relation's table, and each first type conforms to the second.
fn order(pairs: &[(usize, usize)]) -> Vec<u8> {
    let mut table = vec![0; 100];
    for t in ANY..=NULL {
        for (row, column) in [(t, t), (NULL, t), (t, ANY)] {
            table[10 * row + column] = 1;
        }
    }
    for (row, column) in pairs {
        table[10 * row + column] = 1;
    }
    table
}

/// 21 to 28 one above the other.
fn chain() -> Vec<(usize, usize)> {
    let above = |below| (below + 1..NULL).map(move |above| (below, above));
    (1..NULL).flat_map(above).collect()
}

fn loading() -> Vec<Vec<u8>> {
    let tree = [(1, 3), (2, 3), (3, 7), (1, 7), (2, 7), (4, 6), (5, 6)];
    let between = [
        (1, 5),
        (2, 5),
        (5, 3),
        (5, 4),
        (1, 3),
        (1, 4),
        (2, 3),
        (2, 4),
    ];
    vec![
        order(&[]),
        order(&DATES),
        order(&chain()),
        order(&DIAMOND),
        order(&tree),
        order(&between),
    ]
}

/// Other lengths, and other bytes than 0 and 1.
fn malformed() -> Vec<Vec<u8>> {
    let mut tables = [0, 99, 101].map(|length| {
        let mut table = order(&DATES);
        table.resize(length, 1);
        table
    });
    let mut all = tables.to_vec();
    for (table, (place, byte)) in tables.iter_mut().zip([(0, 2), (46, 0xFF), (99, 2)]) {
        *table = order(&[]);
        table[place] = byte;
    }
    all.extend(tables);
    all
}

/// A table with these places turned.
fn turned(pairs: &[(usize, usize)], places: &[(usize, usize)]) -> Vec<u8> {
    let mut table = order(pairs);
    for (row, column) in places {
        table[10 * row + column] ^= 1;
    }
    table
}

fn no_orders() -> Vec<Vec<u8>> {
    vec![
        vec![0; 100],
        vec![1; 100],
        turned(&[], &[(3, 3)]),
        turned(&[], &[(NULL, 5)]),
        turned(&[], &[(8, ANY)]),
        turned(&DATES, &[(6, 4)]),
        turned(&[], &[(ANY, 1)]),
        turned(&[], &[(1, NULL)]),
        turned(&DIAMOND, &[(1, 5)]),
    ]
}

fn two_above() -> Vec<Vec<u8>> {
    let two = [(1, 3), (1, 4), (2, 3), (2, 4)];
    let more = [(3, 5), (4, 5), (1, 5), (2, 5)];
    // The last is no order besides, which is said first.
    vec![
        order(&two),
        order(&[two, more].concat()),
        turned(&two, &[(7, 7)]),
    ]
}

/// The table before the arguments of a line, with so much of everything lent.
fn case(table: Vec<u8>, line: &str, lent: usize) -> Case {
    Case {
        args: [vec![table], arguments(line)].concat(),
        lent: vec![400; lent],
    }
}

fn alone(table: Vec<u8>) -> Case {
    Case {
        args: vec![table],
        lent: vec![],
    }
}

const TYPES: [&str; 7] = [
    "24 | 26",
    "26 | 24",
    "2A 24 | 2A 26",
    "2D 01 26 24 | 2D 01 24 26",
    "2D 01 24 24 | 2D 01 26 26",
    "2D 00 26 | 2D 00 24",
    "2A 24 | 26",
];

const BOUNDS: [&str; 5] = [
    "24 | 26",
    "24 | 25",
    "2A 26 | 2A 24",
    "2D 01 24 24 | 2D 01 26 26",
    "2C 0200 0100 24 0200 2D 00 22 | 2C 0100 0100 26",
];

const VALUES: [&str; 6] = [
    "04 0000000000000000 | 26",
    "06 0000000000000000 | 24",
    "0A 0200 00 00 04 0000000000000000 | 2A 26",
    "0C 01 0000 24 0000 24 | 2D 01 26 26",
    "0C 00 0000 26 | 2D 00 24",
    "0E 24 | 26",
];

const LEAST: [&str; 4] = [
    "0A 0200 04 0000000000000000 06 0000000000000000",
    "09 0000 06 0000000000000000 04 0000000000000000",
    "0A 0300 04 0000000000000000 00 00 05 0000000000000000",
    "0B 0100 0700 04 0000000000000000",
];

/// Each refusal of a type, at the first place or the second.
const BAD_TYPES: [&str; 5] = [
    " | 2E",
    "24 | 2D 00",
    "2C 0200 0100 20 0100 20 | ",
    "24 | 2A2A2A2A2A2A2A2A2A2A2A2A2A2A2A2A2A2A2A2A2A2A2A2A2A2A2A2A2A2A2A2A22",
    "24 24 | 24",
];

const BAD_VALUES: [&str; 4] = [
    " | 2E",
    "0C 00 0000 | 24",
    "04 0000000000000000 | 2D 00",
    "04 0000000000000000 00 | 26",
];

const BAD_LEAST: [&str; 4] = [
    "",
    "0C 00 0000 24",
    "0A 0200 04 0000000000000000 0F",
    "0E 24",
];

/// One question over the fixed relation's table, one over a chain, one over a diamond.
fn others(call: Call, lent: usize) -> Vec<Case> {
    let lines = match call {
        Call::TableValueIsConformant => ["04 0000000000000000 | 26", "01 01 | 28", "01 01 | 25"],
        Call::TableIsConformant | Call::TableCommonSupertype | Call::TableCommonSubtype => {
            ["24 | 26", "21 | 28", "22 | 23"]
        }
        _ => [
            "0A 0200 04 0000000000000000 06 0000000000000000",
            "0A 0200 01 01 08 0000000000000000",
            "0A 0200 02 0100000000000000 03 0100",
        ],
    };
    let tables = [order(&[]), order(&chain()), order(&DIAMOND)];
    let both = tables.into_iter().zip(lines);
    both.map(|(table, line)| case(table, line, lent)).collect()
}

/// Each refusal of a table, beside arguments that are refused too.
fn refused(call: Call, lent: usize) -> Vec<Case> {
    let line = match call {
        Call::TableValueLeastType => "0F 0F",
        _ => "2E | 2E",
    };
    let tables = [malformed(), no_orders(), two_above()].map(|mut tables| tables.swap_remove(1));
    tables.map(|table| case(table, line, lent)).to_vec()
}

/// Scratch and output at the need, and each one short.
fn buffers(call: Call) -> Vec<Case> {
    let (line, scratch) = match call {
        Call::TableValueLeastType => ("0A 0100 01 01", 20),
        _ => ("2A 24 | 2A 26", 4),
    };
    let lengths = [
        [scratch, 2],
        [scratch - 1, 2],
        [scratch, 1],
        [scratch - 1, 1],
    ];
    let lent = |lent: [usize; 2]| Case {
        lent: lent.to_vec(),
        ..case(order(&DATES), line, 2)
    };
    lengths.map(lent).to_vec()
}
