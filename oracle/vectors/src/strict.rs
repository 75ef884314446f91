//! The groups of the five strict calls, and of the ported calls for the smallest records on which the
//! readings differ.

use crate::list::{Call, Case, Group, bytes};
use crate::pairs::{arguments, pairs};
use crate::{bounds, inferred};

pub fn groups() -> Vec<Group> {
    let type_calls = [Call::IsConformant, Call::StrictIsConformant];
    let value_calls = [Call::ValueIsConformant, Call::StrictValueIsConformant];
    let bound_calls = [
        Call::CommonSupertype,
        Call::StrictCommonSupertype,
        Call::CommonSubtype,
        Call::StrictCommonSubtype,
    ];
    let least_calls = [Call::ValueLeastType, Call::StrictValueLeastType];
    let smallest = "asked under both readings";
    let mut groups = vec![];
    groups.extend(type_calls.map(|call| Group::new(call, smallest, pairs(&SMALLEST_TYPES))));
    groups.extend(bound_calls.map(|call| {
        let cases = bounds::exact(call, &SMALLEST_BOUNDS);
        Group::new(call, smallest, cases)
    }));
    groups.extend(value_calls.map(|call| Group::new(call, smallest, pairs(&SMALLEST_VALUES))));
    groups.extend(least_calls.map(|call| {
        let cases = inferred::exact(call, &SMALLEST_LEAST);
        Group::new(call, smallest, cases)
    }));
    let without = "functions without parameters";
    let call = Call::StrictIsConformant;
    groups.push(Group::new(call, without, pairs(&TYPES)));
    groups.push(Group::new(call, "refusals in order", pairs(&BAD_TYPES)));
    for call in [Call::StrictCommonSupertype, Call::StrictCommonSubtype] {
        groups.push(Group::new(call, without, bounds::exact(call, &BOUNDS)));
        let buffers = bounds::buffers(call);
        groups.push(Group::new(call, "scratch and output", buffers));
        groups.push(Group::new(call, "refusals in order", lent(&BAD_TYPES, 2)));
    }
    let call = Call::StrictValueIsConformant;
    groups.push(Group::new(call, "function definitions", pairs(&VALUES)));
    groups.push(Group::new(call, "refusals in order", bad_values()));
    let call = Call::StrictValueLeastType;
    let cases = inferred::exact(call, &LEAST);
    groups.push(Group::new(call, "function definitions", cases));
    let buffers = inferred::buffers(call);
    groups.push(Group::new(call, "scratch and output", buffers));
    groups.push(Group::new(call, "refusals in order", bad_least()));
    groups
}

const SMALLEST_TYPES: [&str; 2] = ["2D 00 20 | 2D 00 21", "2D 00 22 | 2D 00 23"];

const SMALLEST_BOUNDS: [&str; 4] = [
    "29 | 2D 00 21",
    "20 | 2D 00 21",
    "2D 00 21 | 2D 00 21",
    "2D 00 22 | 2D 00 23",
];

/// A result inside the result, and a parameter each way round.
const SMALLEST_VALUES: [&str; 3] = [
    "0C 00 0000 2D 00 22 | 2D 00 2D 00 23",
    "0C 01 0000 20 0000 22 | 2D 01 20 20",
    "0C 01 0000 20 0000 20 | 2D 01 22 20",
];

const SMALLEST_LEAST: [&str; 1] = ["0C 00 0000 20"];

const TYPES: [&str; 11] = [
    "2D 00 22 | 2D 00 22",
    "2D 00 22 | 2D 00 20",
    "2D 00 29 | 2D 00 22",
    "2D 00 22 | 2D 01 22 22",
    "2A 2D 00 22 | 2A 2D 00 23",
    "2B 2D 00 2A 22 | 2B 2D 00 2A 20",
    "2C 0100 0100 2D 00 22 | 2C 0100 0100 2D 00 23",
    "2D 01 2D 00 20 22 | 2D 01 2D 00 22 22",
    "2D 01 2D 00 22 22 | 2D 01 2D 00 20 22",
    "2D 01 22 2D 00 22 | 2D 01 22 2D 00 23",
    "2D 00 2D 00 22 | 2D 00 2D 00 23",
];

const BOUNDS: [&str; 8] = [
    "2D 00 22 | 2D 00 20",
    "2D 00 22 | 2D 01 22 22",
    "2D 00 2A 22 | 2D 00 2A 23",
    "2A 2D 00 22 | 29",
    "2A 2D 00 22 | 20",
    "2C 0200 0100 2D 00 22 0200 24 | 2C 0200 0100 2D 00 23 0300 2D 00 25",
    "2D 01 2D 00 22 2D 00 22 | 2D 01 2D 00 23 2D 00 2A 22",
    "2D 00 2D 00 22 | 2D 00 2D 00 29",
];

const VALUES: [&str; 14] = [
    "0C 00 0000 22 | 2D 00 22",
    "0C 00 0000 22 | 2D 00 20",
    "0C 00 0000 22 | 2D 00 23",
    "0C 00 0000 22 | 20",
    "0C 00 0000 22 | 29",
    "0C 00 0000 22 | 2D 01 22 22",
    "0C 02 0000 21 0900 20 0300 23 | 2D 02 22 29 21",
    "0A 0200 00 00 0C 01 0000 22 0900 20 | 2A 2D 01 22 22",
    "0B 0100 0100 0C 00 0000 2D 00 22 | 2C 0100 0100 2D 00 2D 00 23",
    "09 02 00 0C 00 0000 2D 00 22 00 00 | 2B 2D 00 2D 00 20",
    "0D 00 | 2D 01 22 22",
    "0D 43 | 20",
    "0E 2D 00 22 | 2D 00 22",
    "0F | 20",
];

const LEAST: [&str; 13] = [
    "0C 02 3412 21 0900 22 0300 2A 23",
    "0A 0200 0C 00 0000 22 0C 00 0000 23",
    "0A 0300 00 00 0C 00 0000 22 00 00",
    "09 00 00 0C 00 0000 22 0C 00 0000 20",
    "0A 0200 0C 01 0000 22 0100 22 0C 01 0000 23 0100 23",
    "0A 0200 0C 00 0000 2D 00 22 0C 00 0000 2D 00 23",
    "0A 0200 0C 00 0000 22 0C 01 0000 22 0100 22",
    "0B 0200 0500 0C 00 0000 2D 00 22 0700 02 0100000000000000",
    "0A 0200 0C 00 0000 22 0D 00",
    "0A 0200 0C 00 0000 22 0E 22",
    "0B 0200 0100 0C 00 0000 22 0200 0F",
    "0D 43",
    "0A 0200 00 00 02 0100000000000000",
];

const TOO_DEEP: &str = "2A2A2A2A2A2A2A2A2A2A2A2A2A2A2A2A2A2A2A2A2A2A2A2A2A2A2A2A2A2A2A2A22";

/// Each refusal of a type, at the first place and at the second.
const BAD_TYPES: [&str; 6] = [
    " | 2E",
    "2D 00 | 22",
    "2C 0200 0100 20 0100 20 | ",
    "2D 00 22 | 2A2A2A2A2A2A2A2A2A2A2A2A2A2A2A2A2A2A2A2A2A2A2A2A2A2A2A2A2A2A2A2A22",
    "2D 00 22 | 2D 00 22 22",
    "29 | 2D 00 2E",
];

const BAD_VALUES: [&str; 5] = [
    "",
    "0C 00 0000",
    "0B 0200 0100 0F 0100 0F",
    "0C 00 0000 2A2A2A2A2A2A2A2A2A2A2A2A2A2A2A2A2A2A2A2A2A2A2A2A2A2A2A2A2A2A22",
    "0C 00 0000 22 22",
];

/// The same lines, with so much of everything lent.
fn lent(lines: &[&str], count: usize) -> Vec<Case> {
    let case = |line: &&str| Case {
        args: arguments(line),
        lent: vec![400; count],
    };
    lines.iter().map(case).collect()
}

/// Each refusal of a value, and of a type beside an accepted one.
fn bad_values() -> Vec<Case> {
    let types = [
        "",
        "2D 00",
        "2C 0200 0100 20 0100 20",
        TOO_DEEP,
        "2D 00 22 22",
    ];
    let mut lines: Vec<String> = BAD_VALUES.map(|v| format!("{v} | 2E")).to_vec();
    lines.extend(types.map(|t| format!("0C 00 0000 22 | {t}")));
    let lines: Vec<&str> = lines.iter().map(|line| &line[..]).collect();
    pairs(&lines)
}

fn bad_least() -> Vec<Case> {
    let case = |v: &str| Case {
        args: vec![bytes(v)],
        lent: vec![0, 0],
    };
    BAD_VALUES.map(case).to_vec()
}
