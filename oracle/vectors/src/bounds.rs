//! The groups of `type_common_supertype`, `type_common_subtype` and `type_reduced`.

use crate::list::{Answer, Call, Case, Group, bytes};
use crate::pairs::arguments;

pub fn groups() -> Vec<Group> {
    let mut groups = vec![];
    for call in [Call::CommonSupertype, Call::CommonSubtype] {
        let group = |words, lines: &[&str]| Group::new(call, words, exact(call, lines));
        groups.extend([
            group("simple types", &SIMPLE),
            group("lists and ranges", &LISTS),
            group("contexts", &CONTEXTS),
            group("functions", &FUNCTIONS),
            group("functions without parameters", &PARAMETERLESS),
            Group::new(call, "level 32", deep(call)),
            Group::new(call, "scratch and output", buffers(call)),
            Group::new(call, "refusals in order", refusals()),
        ]);
    }
    let reduced = |words, cases| Group::new(Call::Reduced, words, cases);
    groups.extend([
        reduced("unchanged", exact(Call::Reduced, &UNCHANGED)),
        reduced("results become Any", exact(Call::Reduced, &CHANGED)),
        reduced("output", rooms()),
        reduced("refusals in order", refusals_of_reduced()),
    ]);
    groups
}

const SIMPLE: [&str; 7] = [
    "22 | 22", "22 | 23", "29 | 22", "22 | 29", "20 | 22", "22 | 20", "29 | 20",
];

const LISTS: [&str; 5] = [
    "2A 22 | 2A 23",
    "2B 22 | 2B 23",
    "2A 22 | 2B 22",
    "2A 29 | 2A 22",
    "2A 2B 22 | 2A 2A 22",
];

const CONTEXTS: [&str; 9] = [
    "2C 0100 0100 22 | 2C 0100 0200 23",
    "2C 0100 0200 23 | 2C 0100 0100 22",
    "2C 0200 0100 22 0200 23 | 2C 0200 0200 24 0300 25",
    "2C 0300 0100 22 0500 29 0700 23 | 2C 0300 0500 22 0600 21 0700 20",
    "2C 0000 | 2C 0100 0100 2D 00 22",
    "2C 0100 0100 2D 00 22 | 2C 0000",
    "2C 0200 FF00 22 0002 23 | 2C 0100 0001 24",
    "2C 0100 0100 2C 0100 0100 22 | 2C 0100 0100 2C 0100 0200 23",
    "2C 0100 0100 22 | 2A 22",
];

const FUNCTIONS: [&str; 8] = [
    "2D 01 22 22 | 2D 01 23 23",
    "2D 01 22 22 | 2D 01 20 22",
    "2D 01 29 22 | 2D 01 22 22",
    "2D 02 22 23 21 | 2D 02 22 24 29",
    "2D 01 22 22 | 2D 02 22 22 22",
    "2D 01 2D 01 22 20 20 | 2D 01 2D 01 23 20 20",
    "2D 01 2C 0100 0200 23 22 | 2D 01 2C 0100 0100 22 22",
    "2A 2D 01 22 2A 22 | 2A 2D 01 22 2A 23",
];

const PARAMETERLESS: [&str; 7] = [
    "2D 00 22 | 2D 00 22",
    "2D 00 22 | 2D 00 23",
    "2D 00 22 | 2D 01 22 22",
    "29 | 2A 2D 00 22",
    "2A 2D 00 22 | 20",
    "2D 01 2D 00 22 2D 00 22 | 2D 01 2D 00 23 2D 00 2A 22",
    "2C 0100 0100 2D 00 2C 0100 0100 22 | 2C 0100 0100 2D 00 22",
];

const UNCHANGED: [&str; 10] = [
    "20",
    "22",
    "29",
    "2A 22",
    "2B 2A 23",
    "2C 0000",
    "2C 0200 0100 22 FF01 29",
    "2D 00 20",
    "2D 01 22 22",
    "2D 02 22 2A 23 2C 0100 0100 24",
];

const CHANGED: [&str; 9] = [
    "2D 00 22",
    "2D 00 29",
    "2D 00 2D 00 22",
    "2D 00 2C 0200 0100 22 0200 2A 23",
    "2A 2D 00 22",
    "2B 2D 00 2A 22",
    "2C 0300 0100 2D 00 22 0200 23 0300 2D 00 2A 24",
    "2D 02 2D 00 22 23 24",
    "2D 01 2D 01 2D 00 22 2D 00 23 2D 00 2B 25",
];

/// Cases with exactly the scratch and the output that are wanted.
pub fn exact(call: Call, lines: &[&str]) -> Vec<Case> {
    let case = |line: &&str| around(call, line, 0, 0);
    lines.iter().map(case).collect()
}

/// A case with so much more or less scratch, and so much more or less output, than is wanted.
fn around(call: Call, line: &str, scratch: isize, room: isize) -> Case {
    let args = arguments(line);
    let sum: usize = args.iter().map(Vec::len).sum();
    let scratches = args.len() - 1;
    let lent = |scratch, room| [vec![scratch; scratches], vec![room]].concat();
    let ample = Case {
        args: args.clone(),
        lent: lent(sum, sum),
    };
    let Answer::Bytes(answer) = call.answer(&ample) else {
        panic!("refused: {line}");
    };
    let by = |length: usize, more| length.checked_add_signed(more).expect("a length");
    Case {
        args,
        lent: lent(by(sum, scratch), by(answer.len(), room)),
    }
}

/// Two types of the highest level.
fn deep(call: Call) -> Vec<Case> {
    let lists = "2A ".repeat(31);
    let parameters = |end: &str| format!("{}{end}{}", "2D 01 ".repeat(31), " 20".repeat(31));
    exact(
        call,
        &[
            &format!("{lists} 22 | {lists} 23"),
            &format!("{} | {}", parameters("22"), parameters("23")),
        ],
    )
}

/// Scratch and output at their need, one less, one more and none.
pub fn buffers(call: Call) -> Vec<Case> {
    let line = "2C 0200 0100 22 0200 23 | 2C 0200 0200 23 0300 24";
    let sum = 18;
    let mut cases = vec![];
    for (scratch, room) in [
        (0, 1),
        (0, -1),
        (-1, 0),
        (-1, -1),
        (-sum, 9),
        (-sum, -1),
        (30, 30),
    ] {
        cases.push(around(call, line, scratch, room));
    }
    // No output at all, with and without the scratch; a scratch as long as the answer.
    for line in ["22 | 22", "2D 01 22 22 | 2D 01 23 23"] {
        let answer = around(call, line, 0, 0).lent[1] as isize;
        cases.push(around(call, line, 0, -answer));
        cases.push(around(call, line, -1, -answer));
        let sum = arguments(line).concat().len() as isize;
        cases.push(around(call, line, answer - sum, 0));
    }
    cases
}

/// The first argument, the second, the scratch, the output.
fn refusals() -> Vec<Case> {
    let too_deep = format!("{} 22", "2A ".repeat(32));
    let cases = [
        (" | 22", 0, 0),
        ("22 | ", 0, 0),
        ("2E | 2C 0200 0100 20 0100 20", 40, 40),
        ("2C 0200 0100 20 0100 20 | 2E", 0, 40),
        (&format!("{too_deep} | "), 40, 0),
        (&format!("22 | {too_deep}"), 0, 0),
        ("22 22 | 2A", 3, 3),
        ("29 | 2A 22 22", 4, 4),
        ("2A 22 | 2A", 0, 0),
    ];
    let case = |(line, scratch, room): (&str, usize, usize)| Case {
        args: arguments(line),
        lent: vec![scratch, room],
    };
    cases.map(case).to_vec()
}

/// The output at its need, one less, one more, as long as the type, and none.
fn rooms() -> Vec<Case> {
    let mut cases = vec![];
    for line in ["22", "2D 00 2A 2A 22", "2C 0100 0100 2D 00 2A 22"] {
        for room in [-1, 1, 2, 50] {
            cases.push(around(Call::Reduced, line, 0, room));
        }
    }
    let none = Case {
        args: arguments("2A 22"),
        lent: vec![0],
    };
    cases.push(none);
    cases
}

fn refusals_of_reduced() -> Vec<Case> {
    let too_deep = format!("{} 22", "2A ".repeat(32));
    let faults = [
        "",
        "2E",
        "2D 00",
        "2D 00 2E",
        "2D 00 2C 0200 0100 20 0100 20",
        &too_deep,
        "2D 00 22 22",
    ];
    let case = |(place, fault): (usize, &str)| Case {
        args: vec![bytes(fault)],
        lent: vec![if place % 2 == 0 { 0 } else { 40 }],
    };
    faults.into_iter().enumerate().map(case).collect()
}
