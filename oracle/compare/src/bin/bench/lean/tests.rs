//! The lean Rust answers as the published Rust does, on the cases of the comparison, damaged records
//! among them.

use super::{
    check_type, check_value, context_get_entry, context_search_deep, strict_type_is_conformant,
    strict_value_is_conformant, table_check, table_type_is_conformant, table_value_is_conformant,
    type_instance_of, type_is_conformant, value_is_conformant, value_is_valid_range,
};
use compare::answer::Answer;
use compare::call::{Case, Options};
use compare::calls::CALLS;
use std::collections::BTreeSet;

/// At least so many cases for each call.
const LEAST: usize = 200_000;

const OPTIONS: Options = Options {
    length: 2,
    alphabet_length: 3,
    pair_length: 3,
    count: 2_000,
    pairs: 200_000,
    seed: 11,
};

/// Holds all cases of a call to the Rust. Every refusal of the call must be among the answers, and
/// so must both `yes` and `no`, or a part and none.
fn agree(name: &str, lean: fn(&[&[u8]]) -> Answer) {
    let call = CALLS.iter().find(|call| call.name == name).expect(name);
    let mut cases = 0;
    let mut refused = 0;
    let mut refusals = BTreeSet::new();
    let mut given = BTreeSet::new();
    (call.generate)(&OPTIONS, &mut |case: Case| {
        let expected = (call.expected)(Case {
            others: None,
            ..case
        });
        let answer = lean(case.args);
        assert_eq!(answer, expected.answer, "{name} {:02X?}", case.args);
        cases += 1;
        if answer.high() == 1 {
            refused += 1;
            refusals.insert(answer.low() as u8);
        } else {
            given.insert(answer.0);
        }
    });
    println!("{name}: {cases} cases, {refused} refused, 0 differences");
    assert!(cases >= LEAST, "{name}: {cases} cases");
    let all: Vec<u8> = refusals.into_iter().collect();
    assert_eq!(all, call.refusals, "{name}");
    // A table that loads has one answer.
    let least = if name == "table_check" { 1 } else { 2 };
    assert!(given.len() >= least, "{name}: {given:?}");
}

fn level(answer: Result<usize, u8>) -> Answer {
    answer.map_or_else(Answer::refused, |level| Answer::given(level as u32))
}

fn yes_or_no(answer: Result<bool, u8>) -> Answer {
    answer.map_or_else(Answer::refused, |yes| Answer::given(u32::from(yes)))
}

/// The part of the context as one number, or none.
fn part(c: &[u8], answer: Result<Option<&[u8]>, u8>) -> Answer {
    let given = |part: &[u8]| {
        let place = part.as_ptr().addr() - c.as_ptr().addr();
        Answer::given((place * 65_536 + part.len()) as u32)
    };
    answer.map_or_else(Answer::refused, |part| part.map_or(Answer::none(), given))
}

/// The numbers of names.
fn names(bytes: &[u8]) -> Vec<u16> {
    let name = |two: &[u8]| u16::from_le_bytes([two[0], two[1]]);
    bytes.chunks(2).map(name).collect()
}

#[test]
fn values_are_read() {
    agree("check_value", |args| level(check_value(args[0])));
}

#[test]
fn types_are_read() {
    agree("check_type", |args| level(check_type(args[0])));
}

#[test]
fn types_conform() {
    agree("type_is_conformant", |args| {
        yes_or_no(type_is_conformant(args[0], args[1]))
    });
}

#[test]
fn values_conform() {
    agree("value_is_conformant", |args| {
        yes_or_no(value_is_conformant(args[0], args[1]))
    });
}

#[test]
fn types_strictly_conform() {
    agree("strict_type_is_conformant", |args| {
        yes_or_no(strict_type_is_conformant(args[0], args[1]))
    });
}

#[test]
fn values_strictly_conform() {
    agree("strict_value_is_conformant", |args| {
        yes_or_no(strict_value_is_conformant(args[0], args[1]))
    });
}

#[test]
fn tables_are_checked() {
    agree("table_check", |args| yes_or_no(table_check(args[0])));
}

#[test]
fn types_conform_over_tables() {
    agree("table_type_is_conformant", |args| {
        yes_or_no(table_type_is_conformant(args[0], args[1], args[2]))
    });
}

#[test]
fn values_conform_over_tables() {
    agree("table_value_is_conformant", |args| {
        yes_or_no(table_value_is_conformant(args[0], args[1], args[2]))
    });
}

#[test]
fn ranges_are_valid() {
    agree("value_is_valid_range", |args| {
        yes_or_no(value_is_valid_range(args[0]))
    });
}

#[test]
fn types_are_instances() {
    agree("type_instance_of", |args| {
        yes_or_no(type_instance_of(args[0], args[1]))
    });
}

#[test]
fn entries_are_found() {
    agree("context_get_entry", |args| {
        part(args[0], context_get_entry(args[0], names(args[1])[0]))
    });
}

#[test]
fn paths_are_found() {
    agree("context_search_deep", |args| {
        part(args[0], context_search_deep(args[0], &names(args[1])))
    });
}
