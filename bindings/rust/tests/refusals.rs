//! Refusals of trees and of calls, and their words.

use hedvaste::{Refusal, Type, Value, bifs, contexts, intervals, names, types, values};
use std::mem::forget;

fn number<T: std::fmt::Debug>(answer: Result<T, Refusal>) -> u8 {
    answer.unwrap_err().number()
}

fn deep_value(levels: usize) -> Value {
    (1..levels).fold(Value::Irrelevant, |inner, _| Value::list([inner]))
}

fn deep_type(levels: usize) -> Type {
    (1..levels).fold(Type::Any, |inner, _| Type::list(inner))
}

#[test]
fn levels_end_at_31_and_32() {
    assert!(deep_value(31).to_bytes().is_ok());
    assert_eq!(number(deep_value(32).to_bytes()), 4);
    assert!(deep_type(32).to_bytes().is_ok());
    assert_eq!(number(deep_type(33).to_bytes()), 9);
    assert!(Value::FeelType(deep_type(30)).to_bytes().is_ok());
    assert_eq!(number(Value::FeelType(deep_type(31)).to_bytes()), 4);
    let inside = |levels| Value::function([(1, deep_type(levels))], 0, Type::Any);
    assert!(inside(30).to_bytes().is_ok());
    assert_eq!(number(inside(31).to_bytes()), 4);
}

#[test]
fn no_tree_is_too_deep_to_be_refused() {
    let value = deep_value(1_000_000);
    assert_eq!(number(value.to_bytes()), 4);
    let t = deep_type(1_000_000);
    assert_eq!(number(t.to_bytes()), 9);
    // To drop them would need a stack as deep.
    forget(value);
    forget(t);
}

#[test]
fn lengths_end_at_16384() {
    let items = |count| Value::list(vec![Value::Irrelevant; count]).to_bytes();
    assert!(items(16_381).is_ok());
    for count in [16_382, 65_535, 65_536, 100_000] {
        assert_eq!(number(items(count)), 1);
    }
    let entries = |count| Type::Context(vec![(1, Type::Any); count]).to_bytes();
    assert_eq!(number(entries(5_460)), 8);
    for count in [5_461, 65_536] {
        assert_eq!(number(entries(count)), 6);
    }
}

#[test]
fn exponents_end_at_18() {
    assert!(Value::decimal(i64::MAX, 18).to_bytes().is_ok());
    for exponent in 19..=255 {
        assert_eq!(number(Value::decimal(0, exponent).to_bytes()), 2);
        let inside = Value::list([Value::null(), Value::decimal(0, exponent)]);
        assert_eq!(number(inside.to_bytes()), 2);
    }
    assert_eq!(
        number(Value::from_bytes(&[0x10, 0, 0, 0, 0, 0, 0, 0, 0])),
        2
    );
}

#[test]
fn parameters_end_at_255() {
    let t = |count| Type::function(vec![Type::Any; count], Type::Any);
    assert!(t(255).to_bytes().is_ok());
    assert_eq!(number(t(256).to_bytes()), 7);
    let v = |count| Value::function(vec![(1, Type::Any); count], 0, Type::Any);
    assert!(v(255).to_bytes().is_ok());
    assert_eq!(number(v(256).to_bytes()), 2);
    assert_eq!(number(Value::FeelType(t(256)).to_bytes()), 2);
}

#[test]
fn names_twice_and_unknown_built_ins() {
    let twice = [
        (1, Value::Irrelevant),
        (2, Value::null()),
        (1, Value::null()),
    ];
    assert_eq!(number(Value::context(twice).to_bytes()), 3);
    let twice = [(1, Type::Any), (2, Type::Any), (1, Type::Null)];
    assert_eq!(number(Type::context(twice).to_bytes()), 8);
    assert_eq!(number(Value::BuiltInFunction(86).to_bytes()), 2);
}

#[test]
fn what_cannot_be_read_is_no_tree() {
    let faults: [(&[u8], u8); 6] = [
        (&[], 1),
        (&[0x10], 2),
        (&[0x0A, 1, 0], 2),
        (&[0x0B, 2, 0, 1, 0, 0x0F, 1, 0, 0x0F], 3),
        (&[0x0A, 1, 0].repeat(32), 4),
        (&[0x0F, 0x0F], 5),
    ];
    for (bytes, refusal) in faults {
        assert_eq!(number(Value::from_bytes(bytes)), refusal);
    }
    let faults: [(&[u8], u8); 6] = [
        (&[], 6),
        (&[0x00], 7),
        (&[0x2D, 1, 0x20], 7),
        (&[0x2C, 2, 0, 1, 0, 0x20, 1, 0, 0x20], 8),
        (&[0x2A; 33], 9),
        (&[0x20, 0x20], 10),
    ];
    for (bytes, refusal) in faults {
        assert_eq!(number(Type::from_bytes(bytes)), refusal);
    }
}

#[test]
fn refusals_of_calls() {
    let c = [0x0B, 1, 0, 1, 0, 0x0F];
    assert_eq!(number(contexts::search_deep(&c, &[1; 32])), 11);
    assert_eq!(number(contexts::len(&[0x0F])), 12);
    assert_eq!(number(values::least_type(&[0x0F])), 13);
    assert_eq!(number(types::get_value_checked(&[0x22], &[0x0F])), 15);
    assert_eq!(number(contexts::apply_entries(&c, &[1, 1], &[0x0F])), 16);
    let deep = deep_value(31).to_bytes().unwrap();
    assert_eq!(number(contexts::set_entry(&c, 1, &deep)), 17);
    assert_eq!(number(contexts::set_null_into(&c, 1, &mut [0; 6])), 18);
    assert_eq!(number(names::display(&[0x20], &[1, 0])), 19);
    assert_eq!(
        number(names::display(&[0x2C, 1, 0, 0, 0, 0x20], &[0, 0])),
        20
    );
    assert_eq!(number(intervals::undefined(255)), 2);
    assert_eq!(number(bifs::feel_type(255)), 2);
}

#[test]
fn a_refused_output_is_untouched() {
    let mut out = [7; 3];
    let refused = values::coerced_into(&[0x01, 1], &[0x2A, 0x21], &mut out);
    assert_eq!((number(refused), out), (18, [7; 3]));
}

#[test]
fn very_long_arguments_are_refused_for_their_length() {
    let long = vec![0x20; 1_000_000];
    assert_eq!(number(types::common_supertype(&long, &long)), 6);
    assert_eq!(number(types::reduced(&long)), 6);
    assert_eq!(number(values::least_type(&long)), 1);
    assert_eq!(number(values::coerced(&long, &long)), 1);
    assert_eq!(number(names::name_new(&long)), 19);
    assert_eq!(number(names::trim(&long)), 19);
}

#[test]
fn texts_that_are_no_table_and_no_parts() {
    assert_eq!(number(names::table(&["a", "a"])), 19);
    assert_eq!(number(names::table(&[" a"])), 19);
    assert_eq!(number(names::table(&["x".repeat(256)])), 19);
    assert_eq!(number(names::table(&vec!["x"; 65_536])), 19);
    assert_eq!(number(names::parts(&vec!["x"; 256])), 19);
    assert_eq!(number(names::parts(&["x".repeat(256)])), 19);
    assert_eq!(number(names::parts(&vec!["x".repeat(255); 65])), 19);
}

#[test]
fn every_refusal_has_the_words_of_the_header() {
    let header = include_str!("../../../include/feel.h");
    for number in (1..=20).chain(26..=28) {
        let line = header
            .lines()
            .find_map(|line| line.strip_prefix(&format!(" * {number:>4}  ")))
            .expect("a line of the table");
        let refusal = Refusal::new(number).unwrap();
        assert_eq!(refusal.to_string(), format!("refused {number}, {line}"));
    }
    let error: Box<dyn std::error::Error> = Box::new(Refusal::new(14).unwrap());
    assert_eq!(error.to_string(), "refused 14, scratch too short");
}
