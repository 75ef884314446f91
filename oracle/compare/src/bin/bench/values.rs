//! The calls over values, and the small questions on values, intervals and built-in functions.

use crate::data::{own_type, ranges};
use crate::lean;
use crate::measure::{Given, Measured, contest, nothing};
use crate::ours::{
    Both, Buffers, ByteBuild, Bytes, OfByte, One, OneScratch, ROOM, Two, TwoBuild, both,
    byte_build, of_byte, one, one_scratch, two, two_build,
};
use crate::stock::{Pair, Record, Size, Stock, feel_type, pairs, records, value};
use crate::table::Table;
use dsntk_feel::FeelType;
use dsntk_feel::bif::Bif;
use dsntk_feel::ranges::IntervalType;
use dsntk_feel::values::Value;
use feel_form::{BIFS, Reading, calls, least_type};

/// A value and a type.
pub type ValueAndType = Pair<Value, FeelType>;

/// A type and a value.
pub type TypeAndValue = Pair<FeelType, Value>;

pub fn run(stocks: &[Stock], table: &mut Table) {
    table.each("value_is_conformant", stocks, |stock| {
        conformance(&with_own_types(stock))
    });
    // The Rust has no least type: its part is the definition on its trees.
    table.each("value_least_type", stocks, |stock| {
        least_types(&data(stock))
    });
    table.each("value_type_of", stocks, |stock| types_of(&data(stock)));
    table.each("type_get_value_checked", stocks, |stock| {
        checked_retrieval(&by_own_types(stock))
    });
    table.each("type_get_conformant_value", stocks, |stock| {
        let function = both!(feel_type_get_conformant_value as TwoBuild);
        let rust = calls::get_conformant_value;
        let ready = |pair: &TypeAndValue| pair.a.tree.get_conformant_value(&pair.b.tree);
        built(&by_own_types(stock), function, rust, ready)
    });
    table.each("value_coerced", stocks, |stock| {
        coercion(&with_lists_of_own_types(stock))
    });
    questions(stocks, table);
    intervals(table);
    let positions: Vec<Byte<Bif>> = (0..).zip(BIFS).map(|(b, bif)| Byte(b, bif)).collect();
    let mut out = vec![0; ROOM];
    table.one("bif_feel_type", "", || {
        contest(
            &positions,
            both!(feel_bif_feel_type as ByteBuild),
            |f, b| byte_build(f, b.0, &mut out),
            |b| calls::bif_feel_type(b.0, ROOM),
            nothing(),
            Some(|b: &Byte<Bif>| b.1.feel_type()),
        )
    });
}

/// Data of the size.
pub fn data(stock: &Stock) -> Vec<Record<Value>> {
    records(stock.data().iter().cloned(), value)
}

/// Values with their least types.
pub fn with_own_types(stock: &Stock) -> Vec<ValueAndType> {
    let pair = |v: &Vec<u8>| [v.clone(), own_type(v)];
    pairs(stock.data().iter().map(pair), value, feel_type)
}

/// The same, the types first. It is the value that has the size.
fn by_own_types(stock: &Stock) -> Vec<TypeAndValue> {
    let turned = |Pair { a, b }| Pair { a: b, b: a };
    with_own_types(stock).into_iter().map(turned).collect()
}

/// Values with lists of their least types.
fn with_lists_of_own_types(stock: &Stock) -> Vec<ValueAndType> {
    let pair = |v: &Vec<u8>| [v.clone(), [&[0x2A], &own_type(v)[..]].concat()];
    pairs(stock.data().iter().map(pair), value, feel_type)
}

/// `value_is_conformant`.
pub fn conformance(pairs: &[ValueAndType]) -> Measured {
    judgement(
        pairs,
        both!(feel_value_is_conformant as Two),
        calls::value_is_conformant,
        lean::value_is_conformant,
        Value::is_conformant,
    )
}

/// A question on a value and a type from their bytes.
type Judge = fn(&[u8], &[u8]) -> Result<bool, u8>;

/// A question on a value and a type.
pub fn judgement(
    pairs: &[ValueAndType],
    function: Both<Two>,
    rust: Judge,
    lean: Judge,
    ready: fn(&Value, &FeelType) -> bool,
) -> Measured {
    contest(
        pairs,
        function,
        |f, Pair { a, b }| two(f, &a.bytes, &b.bytes),
        |Pair { a, b }| rust(&a.bytes, &b.bytes),
        Some(|pair: &ValueAndType| lean(&pair.a.bytes, &pair.b.bytes)),
        Some(|pair: &ValueAndType| ready(&pair.a.tree, &pair.b.tree)),
    )
}

/// `value_least_type`.
pub fn least_types(values: &[Record<Value>]) -> Measured {
    let function = both!(feel_value_least_type as OneScratch);
    of_values(values, function, calls::value_least_type, |v| {
        least_type(v, Reading::Ported)
    })
}

/// `value_type_of`.
pub fn types_of(values: &[Record<Value>]) -> Measured {
    let function = both!(feel_value_type_of as OneScratch);
    of_values(values, function, calls::value_type_of, Value::type_of)
}

/// A type of values, with scratch.
pub fn of_values<T>(
    values: &[Record<Value>],
    function: Both<OneScratch>,
    rust: fn(&[u8], usize, usize) -> Bytes,
    ready: fn(&Value) -> T,
) -> Measured {
    let mut buffers = Buffers::new();
    contest(
        values,
        function,
        |f, v| one_scratch(f, &v.bytes, &mut buffers),
        |v| rust(&v.bytes, 4 * ROOM, ROOM),
        nothing(),
        Some(|v: &Record<Value>| ready(&v.tree)),
    )
}

/// `type_get_value_checked`.
pub fn checked_retrieval(pairs: &[TypeAndValue]) -> Measured {
    let function = both!(feel_type_get_value_checked as TwoBuild);
    let ready = |pair: &TypeAndValue| pair.a.tree.get_value_checked(&pair.b.tree);
    built(pairs, function, calls::get_value_checked, ready)
}

/// `value_coerced`.
pub fn coercion(pairs: &[ValueAndType]) -> Measured {
    let function = both!(feel_value_coerced as TwoBuild);
    let ready = |pair: &ValueAndType| pair.a.tree.coerced(&pair.b.tree);
    built(pairs, function, calls::coerced, ready)
}

/// A call over two records that writes a value.
pub fn built<A, B, T>(
    pairs: &[Pair<A, B>],
    function: Both<TwoBuild>,
    rust: fn(&[u8], &[u8], usize) -> Bytes,
    ready: impl FnMut(&Pair<A, B>) -> T,
) -> Measured {
    let mut out = vec![0; ROOM];
    contest(
        pairs,
        function,
        |f, Pair { a, b }| two_build(f, &a.bytes, &b.bytes, &mut out),
        |Pair { a, b }| rust(&a.bytes, &b.bytes, ROOM),
        nothing(),
        Some(ready),
    )
}

/// A question on a value: the name, ours, the Rust from the bytes and on the tree.
type Question = (
    &'static str,
    Both<One>,
    fn(&[u8]) -> Result<bool, u8>,
    fn(&Value) -> bool,
);

const QUESTIONS: [Question; 9] = [
    (
        "value_is_invalid_coercion",
        both!(feel_value_is_invalid_coercion as One),
        calls::value_is_invalid_coercion,
        Value::is_invalid_coercion,
    ),
    (
        "value_is_valid_range",
        both!(feel_value_is_valid_range as One),
        calls::value_is_valid_range,
        Value::is_valid_range,
    ),
    (
        "value_is_null",
        both!(feel_value_is_null as One),
        calls::value_is_null,
        Value::is_null,
    ),
    (
        "value_is_true",
        both!(feel_value_is_true as One),
        calls::value_is_true,
        Value::is_true,
    ),
    (
        "value_is_false",
        both!(feel_value_is_false as One),
        calls::value_is_false,
        Value::is_false,
    ),
    (
        "value_is_number",
        both!(feel_value_is_number as One),
        calls::value_is_number,
        Value::is_number,
    ),
    (
        "value_is_string",
        both!(feel_value_is_string as One),
        calls::value_is_string,
        Value::is_string,
    ),
    (
        "value_is_list",
        both!(feel_value_is_list as One),
        calls::value_is_list,
        Value::is_list,
    ),
    (
        "value_is_range",
        both!(feel_value_is_range as One),
        calls::value_is_range,
        Value::is_range,
    ),
];

/// The questions, on values of every kind, and whether a range is valid, on ranges.
fn questions(stocks: &[Stock], table: &mut Table) {
    for (call, function, rust, ready) in QUESTIONS {
        table.each(call, stocks, |stock| {
            let Size { least, most, .. } = stock.size;
            let ranges: Vec<Record<Value>>;
            let values = match call {
                "value_is_valid_range" => {
                    ranges = records(self::ranges(least, most).into_iter(), value);
                    &ranges
                }
                _ => stock.values(),
            };
            contest(
                values,
                function,
                |f, v| one(f, &v.bytes),
                |v| rust(&v.bytes),
                nothing(),
                Some(|v: &Record<Value>| ready(&v.tree)),
            )
        });
    }
}

/// A byte, and what the Rust has for it.
struct Byte<T>(u8, T);

impl<T> Given for Byte<T> {
    fn length(&self) -> usize {
        1
    }
}

/// A question on an interval byte. It takes a few instructions, so both are asked in the same way:
/// by a C function that answers one number.
type IntervalQuestion = (
    &'static str,
    Both<OfByte>,
    OfByte,
    fn(&IntervalType) -> bool,
);

/// The number of the Rust's answer.
fn number(answer: Result<bool, u8>) -> u64 {
    match answer {
        Ok(yes) => u64::from(yes),
        Err(refusal) => 1 << 32 | u64::from(refusal),
    }
}

extern "C" fn rust_opened(i: u8) -> u64 {
    number(calls::interval_opened(i))
}

extern "C" fn rust_closed(i: u8) -> u64 {
    number(calls::interval_closed(i))
}

extern "C" fn rust_undefined(i: u8) -> u64 {
    number(calls::interval_undefined(i))
}

/// The questions on the four interval bytes.
fn intervals(table: &mut Table) {
    let bytes: Vec<Byte<IntervalType>> = (0..4).map(|i| Byte(i, interval(i))).collect();
    let questions: [IntervalQuestion; 3] = [
        (
            "interval_opened",
            both!(feel_interval_opened as OfByte),
            rust_opened,
            IntervalType::opened,
        ),
        (
            "interval_closed",
            both!(feel_interval_closed as OfByte),
            rust_closed,
            IntervalType::closed,
        ),
        (
            "interval_undefined",
            both!(feel_interval_undefined as OfByte),
            rust_undefined,
            IntervalType::undefined,
        ),
    ];
    for (call, function, rust, ready) in questions {
        table.one(call, "", || {
            contest(
                &bytes,
                function,
                |f, i| of_byte(f, i.0),
                |i| of_byte(rust, i.0),
                nothing(),
                Some(|i: &Byte<IntervalType>| ready(&i.1)),
            )
        });
    }
}

/// What an interval byte is read as at the start of a range.
fn interval(byte: u8) -> IntervalType {
    match value(vec![0x09, byte, 0, 0x00, 0, 0x00, 0]).tree {
        Value::Range(_, interval, _, _) => interval,
        _ => panic!("no range"),
    }
}
