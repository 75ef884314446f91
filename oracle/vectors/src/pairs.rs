//! The groups of `type_is_conformant` and `type_instance_of`.

use crate::list::{Call, Case, Group, bytes};

pub fn groups() -> Vec<Group> {
    let conformant = |words, lines: &[&str]| Group::new(Call::IsConformant, words, pairs(lines));
    let instance = |words, lines: &[&str]| Group::new(Call::InstanceOf, words, pairs(lines));
    vec![
        conformant("simple types", &SIMPLE),
        conformant("lists and ranges", &LISTS),
        conformant("contexts", &CONTEXTS),
        conformant("functions", &FUNCTIONS),
        conformant("functions without parameters", &PARAMETERLESS),
        Group::new(Call::IsConformant, "level 32", deep()),
        Group::new(Call::IsConformant, "refusals in order", refusals()),
        instance("lists", &INSTANCE_LISTS),
        instance("contexts", &INSTANCE_CONTEXTS),
        instance("everything else", &INSTANCE_OTHERS),
        Group::new(Call::InstanceOf, "refusals in order", refusals()),
    ]
}

const SIMPLE: [&str; 9] = [
    "22 | 22", "22 | 23", "22 | 20", "20 | 22", "29 | 22", "22 | 29", "29 | 29", "20 | 20",
    "20 | 29",
];

const LISTS: [&str; 9] = [
    "2A 22 | 2A 22",
    "2A 22 | 2A 20",
    "2A 20 | 2A 22",
    "2A 22 | 2B 22",
    "2B 29 | 2B 22",
    "22 | 2A 22",
    "2A 22 | 29",
    "2A 2B 22 | 2A 2B 20",
    "2A 2B 22 | 2A 2A 22",
];

const CONTEXTS: [&str; 13] = [
    "2C 0000 | 2C 0000",
    "2C 0000 | 2C 0100 0100 20",
    "2C 0000 | 2C 0100 0100 29",
    "2C 0200 0100 22 0200 23 | 2C 0100 0200 23",
    "2C 0100 0100 22 | 2C 0200 0100 22 0200 23",
    "2C 0100 0200 23 | 2C 0200 0100 22 0200 23",
    "2C 0100 0100 22 | 2C 0100 0200 22",
    "2C 0100 0100 22 | 2C 0100 0100 20",
    "2C 0100 0100 20 | 2C 0100 0100 22",
    "2C 0200 0100 22 0200 23 | 2C 0200 0100 22 0200 24",
    "2C 0300 FF00 22 0001 23 0002 24 | 2C 0200 FF00 20 0002 24",
    "2C 0200 FF00 22 0002 23 | 2C 0200 FF00 22 0001 23",
    "2C 0000 | 2A 20",
];

const FUNCTIONS: [&str; 11] = [
    "2D 01 22 20 | 2D 01 29 20",
    "2D 01 29 20 | 2D 01 22 20",
    "2D 01 22 29 | 2D 01 22 23",
    "2D 01 22 20 | 2D 01 22 23",
    "2D 02 20 20 22 | 2D 02 22 23 20",
    "2D 02 20 22 22 | 2D 02 22 20 22",
    "2D 02 22 20 22 | 2D 02 20 22 22",
    "2D 01 22 22 | 2D 02 22 22 22",
    "2D 02 22 22 22 | 2D 01 22 22",
    "2D 01 2D 01 22 20 20 | 2D 01 2D 01 20 20 20",
    "2D 01 2D 01 20 20 20 | 2D 01 2D 01 22 20 20",
];

const PARAMETERLESS: [&str; 5] = [
    "2D 00 22 | 2D 00 23",
    "2D 00 2C 0000 | 2D 00 2A 2D 01 22 22",
    "2D 00 22 | 2D 01 22 22",
    "2D 01 22 22 | 2D 00 22",
    "2D 02 2D 00 22 22 2D 00 20 | 2D 02 2D 00 23 22 2D 00 29",
];

const INSTANCE_LISTS: [&str; 10] = [
    "2A 22 | 2A 22",
    "2A 22 | 2A 20",
    "2A 20 | 2A 22",
    "2A 29 | 2A 22",
    "2A 22 | 2A 23",
    "2A 2A 22 | 2A 2A 22",
    "2A 2A 22 | 2A 2A 20",
    "2A 2A 22 | 2A 20",
    "2A 2D 00 22 | 2A 2D 00 23",
    "2A 2C 0100 0100 29 | 2A 2C 0100 0100 22",
];

const INSTANCE_CONTEXTS: [&str; 14] = [
    "2C 0000 | 2C 0000",
    "2C 0100 0100 22 | 2C 0100 0100 22",
    "2C 0100 0100 29 | 2C 0100 0100 22",
    "2C 0100 0100 22 | 2C 0100 0100 29",
    "2C 0100 0100 22 | 2C 0100 0100 20",
    "2C 0100 0100 22 | 2C 0100 0100 23",
    "2C 0200 0100 22 0200 23 | 2C 0100 0200 23",
    "2C 0100 0200 23 | 2C 0200 0100 22 0200 23",
    "2C 0100 0100 22 | 2C 0000",
    "2C 0000 | 2C 0100 0100 29",
    "2C 0200 0100 29 0200 2A 29 | 2C 0200 0100 22 0200 2A 22",
    "2C 0200 FF00 29 0001 23 | 2C 0200 FF00 2A 22 0001 23",
    "2C 0100 0100 2D 00 22 | 2C 0100 0100 2D 00 23",
    "2C 0100 0100 2C 0100 0200 29 | 2C 0100 0100 2C 0100 0200 22",
];

const INSTANCE_OTHERS: [&str; 10] = [
    "22 | 22",
    "22 | 20",
    "20 | 20",
    "29 | 22",
    "2B 22 | 2B 22",
    "2B 22 | 2A 22",
    "2A 22 | 20",
    "2D 01 22 22 | 2D 01 22 22",
    "2C 0000 | 2A 20",
    "2A 20 | 2C 0000",
];

/// Two types of the highest level.
fn deep() -> Vec<Case> {
    let lists = "2A ".repeat(31);
    let parameters = |end: &str| format!("{}{end}{}", "2D 01 ".repeat(31), " 20".repeat(31));
    let (number, any) = (parameters("22"), parameters("20"));
    pairs(&[
        &format!("{lists} 22 | {lists} 20"),
        &format!("{lists} 20 | {lists} 22"),
        &format!("{number} | {any}"),
        &format!("{any} | {number}"),
    ])
}

/// The first argument is read before the second.
fn refusals() -> Vec<Case> {
    let too_deep = format!("{} 22", "2A ".repeat(32));
    pairs(&[
        " | 22",
        "22 | ",
        "2E | 2C 0200 0100 20 0100 20",
        "2C 0200 0100 20 0100 20 | 2E",
        &format!("{too_deep} | "),
        &format!("22 | {too_deep}"),
        "22 22 | 2A",
        "22 | 2A 22 22",
        "29 | 0F",
    ])
}

/// Two arguments, with `|` between them.
pub fn pairs(lines: &[&str]) -> Vec<Case> {
    let pair = |line: &&str| Case {
        args: arguments(line),
        lent: vec![],
    };
    lines.iter().map(pair).collect()
}

/// The arguments of a line, with `|` between them.
pub fn arguments(line: &str) -> Vec<Vec<u8>> {
    line.split('|').map(bytes).collect()
}
