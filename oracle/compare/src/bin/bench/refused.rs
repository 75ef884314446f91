//! Refused records: cut one byte short, for the readers and for either argument of both
//! conformances, and with names that do not ascend near the end, for the readers.

use crate::data::{SET, accepts, random};
use crate::lean;
use crate::measure::{Given, Measured, Refusal, contest, nothing};
use crate::ours::{Both, One, Two, both, one, two};
use crate::stock::{Pair, Size, Stock};
use crate::table::Table;
use crate::values::with_own_types;
use feel_cases::{Kind, random_draft};
use feel_form::{calls, read_type, read_value};

/// The arguments of a call that refuses them.
type Args<const N: usize> = [Vec<u8>; N];

impl<const N: usize> Given for Args<N> {
    fn length(&self) -> usize {
        self.iter().map(Vec::len).sum()
    }
}

pub fn run(stocks: &[Stock], table: &mut Table) {
    table.each_at("check_value", "cut", stocks, |stock| {
        let cases: Vec<_> = stock.values().iter().map(|v| [cut(&v.bytes)]).collect();
        unread_values(&cases)
    });
    table.each_at("check_value", "unordered", stocks, |stock| {
        unread_values(&unordered(Kind::Value, stock.size))
    });
    table.each_at("check_type", "cut", stocks, |stock| {
        let cases: Vec<_> = stock.types().iter().map(|t| [cut(&t.bytes)]).collect();
        unread_types(&cases)
    });
    table.each_at("check_type", "unordered", stocks, |stock| {
        unread_types(&unordered(Kind::Type, stock.size))
    });
    for (place, cut) in [FIRST, SECOND] {
        table.each_at("type_is_conformant", place, stocks, |stock| {
            let pairs = stock.near_types().iter();
            let cases: Vec<_> = pairs.map(|pair| cut(bytes(pair))).collect();
            let function = both!(feel_type_is_conformant as Two);
            let (rust, lean) = (calls::is_conformant, lean::type_is_conformant);
            unjudged(&cases, function, rust, lean)
        });
        table.each_at("value_is_conformant", place, stocks, |stock| {
            let pairs = with_own_types(stock);
            let cases: Vec<_> = pairs.iter().map(|pair| cut(bytes(pair))).collect();
            let function = both!(feel_value_is_conformant as Two);
            let (rust, lean) = (calls::value_is_conformant, lean::value_is_conformant);
            unjudged(&cases, function, rust, lean)
        });
    }
}

/// Which argument is cut short.
type Which = (&'static str, fn([&[u8]; 2]) -> Args<2>);

const FIRST: Which = ("first-cut", |[a, b]| [cut(a), b.to_vec()]);

const SECOND: Which = ("second-cut", |[a, b]| [a.to_vec(), cut(b)]);

fn bytes<A, B>(pair: &Pair<A, B>) -> [&[u8]; 2] {
    [&pair.a.bytes, &pair.b.bytes]
}

/// The record without its last byte.
fn cut(record: &[u8]) -> Vec<u8> {
    record[..record.len() - 1].to_vec()
}

/// Records of the size that are accepted but for one name in their last quarter, which is that of
/// the entry before it.
fn unordered(kind: Kind, Size { least, most, .. }: Size) -> Vec<Args<1>> {
    let mut random = random();
    let mut records = vec![];
    let mut bytes = 0;
    while bytes < SET {
        let draft = random_draft(kind, &mut random);
        let mut record = draft.bytes;
        let neighbours = draft.names.iter().flat_map(|places| places.windows(2));
        let Some(&[first, second]) = neighbours.max_by_key(|two| two[1]) else {
            continue;
        };
        let is_late = 4 * second >= 3 * record.len();
        let fits = (least..=most).contains(&record.len());
        if is_late && fits && accepts(kind, &record) {
            record.copy_within(first..first + 2, second);
            bytes += record.len();
            records.push([record]);
        }
    }
    records
}

/// `check_value`, refused.
fn unread_values(cases: &[Args<1>]) -> Measured {
    contest(
        cases,
        both!(feel_check_value as One),
        |f, [v]| one(f, v),
        |[v]| Refusal::of(read_value(v)),
        Some(|[v]: &Args<1>| Refusal::of(lean::check_value(v))),
        nothing(),
    )
}

/// `check_type`, refused.
fn unread_types(cases: &[Args<1>]) -> Measured {
    contest(
        cases,
        both!(feel_check_type as One),
        |f, [t]| one(f, t),
        |[t]| Refusal::of(read_type(t)),
        Some(|[t]: &Args<1>| Refusal::of(lean::check_type(t))),
        nothing(),
    )
}

/// A conformance, refused.
fn unjudged(
    cases: &[Args<2>],
    function: Both<Two>,
    rust: fn(&[u8], &[u8]) -> Result<bool, u8>,
    lean: fn(&[u8], &[u8]) -> Result<bool, u8>,
) -> Measured {
    contest(
        cases,
        function,
        |f, [a, b]| two(f, a, b),
        |[a, b]| Refusal::of(rust(a, b)),
        Some(|[a, b]: &Args<2>| Refusal::of(lean(a, b))),
        nothing(),
    )
}
