//! Accepted records beside the usual ones: those of the answer no, single leaves, nulls, function
//! definitions, type values and decimal numbers.

use crate::data::{self, SET, accepts, for_decimals, own_type};
use crate::lean;
use crate::measure::{Measured, contest};
use crate::ours::{One, both, one};
use crate::stock::{Record, Size, Stock, feel_type, pairs, records, value};
use crate::table::Table;
use crate::types::{self, Types};
use crate::values::{self, ValueAndType};
use dsntk_feel::values::Value;
use feel_cases::{Kind, Random, Tree, ValueTree, decimal, near_number, random_draft};
use feel_form::calls;

pub fn run(stocks: &[Stock], table: &mut Table) {
    table.each_at("type_is_conformant", "no", stocks, |stock| {
        types::conformance(&unlike_types(stock.size))
    });
    table.each_at("value_is_conformant", "no", stocks, |stock| {
        values::conformance(&unlike_values(stock))
    });
    table.one_at("value_is_conformant", "leaf", || {
        values::conformance(&leaves())
    });
    table.each_at("value_is_conformant", "null", stocks, |stock| {
        values::conformance(&nulls(stock))
    });
    table.each_at("check_value", "definitions", stocks, |stock| {
        types::reading(&definitions(stock.size))
    });
    table.each_at("check_value", "type-values", stocks, |stock| {
        types::reading(&type_values(stock.size))
    });
    table.each_at("check_value", "decimals", stocks, |stock| {
        let function = for_decimals(both!(feel_check_value as One));
        types::reading_by(function, &decimals(stock.size))
    });
    table.one_at("value_is_valid_range", "decimals", || {
        validity(&ranges_of_numbers())
    });
}

/// `value_is_valid_range`.
fn validity(values: &[Record<Value>]) -> Measured {
    contest(
        values,
        for_decimals(both!(feel_value_is_valid_range as One)),
        |f, v| one(f, &v.bytes),
        |v| calls::value_is_valid_range(&v.bytes),
        Some(|v: &Record<Value>| lean::value_is_valid_range(&v.bytes)),
        Some(|v: &Record<Value>| v.tree.is_valid_range()),
    )
}

/// Lists of decimals, of the size.
fn decimals(Size { least, most, .. }: Size) -> Vec<Record<Value>> {
    let mut random = Random::new(7);
    let mut all = vec![];
    let mut bytes = 0;
    while bytes < SET {
        let count = (least + random.below(most - least - 9))
            .saturating_sub(3)
            .div_ceil(10);
        let mut v = vec![0x0A];
        v.extend((count as u16).to_le_bytes());
        for _ in 0..count {
            v.extend(any_decimal(&mut random));
        }
        bytes += v.len();
        all.push(v);
    }
    records(all.into_iter(), value)
}

/// Ranges of two numbers near each other, at least one of them a decimal.
fn ranges_of_numbers() -> Vec<Record<Value>> {
    let mut random = Random::new(7);
    let range = |_| {
        let start = any_decimal(&mut random);
        let end = match random.below(4) {
            0 => any_decimal(&mut random),
            _ => near_number(&start, &mut random),
        };
        let ends = match random.below(2) {
            0 => [start, end],
            _ => [end, start],
        };
        [&[0x09, 2, 2], &ends.concat()[..]].concat()
    };
    records((0..5_000).map(range), value)
}

/// A decimal with any exponent and any count of digits.
fn any_decimal(random: &mut Random) -> Vec<u8> {
    let coefficient = random.bits() as i64 >> random.below(64);
    decimal(coefficient, random.below(19) as u8)
}

/// Two contexts of types: the first entries conform, the last are a number and a string.
fn unlike_types(Size { least, most, .. }: Size) -> Vec<Types> {
    let around = |inner: &[u8], last| [&[0x2C, 2, 0, 0, 0], inner, &[1, 0, last]].concat();
    let pair = |[a, b]: [Vec<u8>; 2]| {
        let (a, b) = (around(&a, 0x22), around(&b, 0x23));
        assert_eq!(calls::is_conformant(&a, &b), Ok(false));
        [a, b]
    };
    let bytes = data::pairs(least - 8, most - 8).into_iter().map(pair);
    pairs(bytes, feel_type, feel_type)
}

/// Data with its least type, but the last entries are a boolean and number.
fn unlike_values(stock: &Stock) -> Vec<ValueAndType> {
    let pair = |v: &Vec<u8>| {
        let t = with_last(&own_type(v), &[0x22]);
        let v = with_last(v, &[0x01, 1]);
        assert_eq!(calls::value_is_conformant(&v, &t), Ok(false));
        [v, t]
    };
    pairs(stock.data().iter().map(pair), value, feel_type)
}

/// A context or its type, whose names count from 0 on, with one entry more.
pub fn with_last(context: &[u8], child: &[u8]) -> Vec<u8> {
    let count = u16::from_le_bytes([context[1], context[2]]);
    let (name, count) = (count.to_le_bytes(), (count + 1).to_le_bytes());
    [&context[..1], &count, &context[3..], &name, child].concat()
}

/// Single leaves of data with their own types.
fn leaves() -> Vec<ValueAndType> {
    let mut random = Random::new(7);
    let pair = |_| {
        let command = 1 + random.below(8) as u8;
        let operands = match command {
            0x01 => vec![random.below(2) as u8],
            0x03 => vec![random.byte(), 0],
            _ => random.bits().to_le_bytes().to_vec(),
        };
        [[vec![command], operands].concat(), vec![0x20 + command]]
    };
    pairs((0..5_000).map(pair), value, feel_type)
}

/// Null with types of the size.
fn nulls(stock: &Stock) -> Vec<ValueAndType> {
    let pair = |t: &Record<_>| [vec![0x00, 0], t.bytes.clone()];
    pairs(stock.types().iter().map(pair), value, feel_type)
}

/// Function definitions of the size.
pub fn definitions(Size { least, most, .. }: Size) -> Vec<Record<Value>> {
    let mut random = Random::new(7);
    let mut all = vec![];
    let mut bytes = 0;
    while bytes < SET {
        let mut small = || Tree::random(6, 1 + random.below(10.max(most / 60)), &mut random);
        let result = small();
        let mut parameters = vec![];
        let mut length = 4 + result.bytes().len();
        while length < least && parameters.len() < 255 {
            let parameter = small();
            length += 2 + parameter.bytes().len();
            parameters.push((parameters.len() as u16, parameter));
        }
        if (least..=most).contains(&length) {
            bytes += length;
            all.push(ValueTree::Definition(7, parameters, result).bytes());
        }
    }
    records(all.into_iter(), value)
}

/// Type values of the size.
fn type_values(Size { least, most, .. }: Size) -> Vec<Record<Value>> {
    let mut random = Random::new(7);
    let mut all = vec![];
    let mut bytes = 0;
    while bytes < SET {
        let t = random_draft(Kind::Type, &mut random).bytes;
        let v = [vec![0x0E], t].concat();
        if (least..=most).contains(&v.len()) && accepts(Kind::Value, &v) {
            bytes += v.len();
            all.push(v);
        }
    }
    records(all.into_iter(), value)
}
