//! The calls over a table of simple types: over the fixed relation's table, on the records of the
//! ported calls, and over one in which a date is a date and time. The hundred bytes of a table are not
//! counted, so that a row has the bytes of the ported one; the list at the end has the ratio.

use crate::lean;
use crate::measure::{Given, Measured, contest, nothing};
use crate::ours::{
    Both, Buffers, One, ROOM, Three, ThreeScratch, TwoScratch, both_table, one, three,
    three_scratch, two_scratch,
};
use crate::stock::{Pair, Record, Stock};
use crate::table::Table;
use crate::types::Types;
use crate::values::{ValueAndType, data, with_own_types};
use dsntk_feel::FeelType;
use dsntk_feel::values::Value;
use feel_cases::{fixed_table, table_with};
use feel_form::{
    Reading, calls, common_subtype, common_supertype, conforms, least_type, value_conforms,
};

/// A date is a date and time; 21 to 28 one above the other; one below two that are below a fourth.
const DATES: [(usize, usize); 1] = [(4, 6)];
const CHAIN: [(usize, usize); 7] = [(1, 2), (2, 3), (3, 4), (4, 5), (5, 6), (6, 7), (7, 8)];
const DIAMOND: [(usize, usize); 4] = [(1, 2), (1, 3), (2, 5), (3, 5)];

/// A table, which is its own case.
struct Hundred(Vec<u8>);

impl Given for Hundred {
    fn length(&self) -> usize {
        self.0.len()
    }
}

/// What the Rust answers from the bytes of a table and two types.
type Bytes3 = fn(&[u8], &[u8], &[u8], usize, usize) -> Result<Vec<u8>, u8>;

pub fn run(stocks: &[Stock], table: &mut Table) {
    for (place, hundred) in [
        ("fixed", fixed_table()),
        ("dates", table_with(&DATES)),
        ("chain", table_with(&CHAIN)),
        ("diamond", table_with(&DIAMOND)),
    ] {
        table.one_at("table_check", place, || {
            contest(
                &[Hundred(hundred)],
                both_table!(feel_table_check as One),
                |f, hundred| one(f, &hundred.0),
                |hundred| calls::table_check(&hundred.0),
                Some(|hundred: &Hundred| lean::table_check(&hundred.0)),
                nothing(),
            )
        });
    }
    for (place, hundred) in [("fixed", fixed_table()), ("dates", table_with(&DATES))] {
        over(place, &hundred, stocks, table);
    }
}

/// The five calls over this table.
fn over(place: &'static str, hundred: &[u8], stocks: &[Stock], table: &mut Table) {
    let loaded = feel_form::Table::read(hundred).expect("it loads");
    let reading = Reading::Table(loaded);
    table.each_at("table_type_is_conformant", place, stocks, |stock| {
        contest(
            stock.near_types(),
            both_table!(feel_table_type_is_conformant as Three),
            |f, Pair { a, b }| three(f, hundred, &a.bytes, &b.bytes),
            |Pair { a, b }| calls::table_is_conformant(hundred, &a.bytes, &b.bytes),
            Some(|pair: &Types| {
                lean::table_type_is_conformant(hundred, &pair.a.bytes, &pair.b.bytes)
            }),
            Some(|pair: &Types| conforms(&pair.a.tree, &pair.b.tree, reading)),
        )
    });
    // The Rust has no bounds: its part is the definition on its trees.
    table.each_at("table_type_common_supertype", place, stocks, |stock| {
        let function = both_table!(feel_table_type_common_supertype as ThreeScratch);
        let rust = calls::table_common_supertype;
        bound(hundred, stock.near_types(), function, rust, |a, b| {
            common_supertype(a, b, reading)
        })
    });
    table.each_at("table_type_common_subtype", place, stocks, |stock| {
        let function = both_table!(feel_table_type_common_subtype as ThreeScratch);
        let rust = calls::table_common_subtype;
        bound(hundred, stock.near_types(), function, rust, |a, b| {
            common_subtype(a, b, reading)
        })
    });
    table.each_at("table_value_is_conformant", place, stocks, |stock| {
        contest(
            &with_own_types(stock),
            both_table!(feel_table_value_is_conformant as Three),
            |f, Pair { a, b }| three(f, hundred, &a.bytes, &b.bytes),
            |Pair { a, b }| calls::table_value_is_conformant(hundred, &a.bytes, &b.bytes),
            Some(|pair: &ValueAndType| {
                lean::table_value_is_conformant(hundred, &pair.a.bytes, &pair.b.bytes)
            }),
            Some(|pair: &ValueAndType| value_conforms(&pair.a.tree, &pair.b.tree, reading)),
        )
    });
    let mut buffers = Buffers::new();
    table.each_at("table_value_least_type", place, stocks, |stock| {
        contest(
            &data(stock),
            both_table!(feel_table_value_least_type as TwoScratch),
            |f, v| two_scratch(f, hundred, &v.bytes, &mut buffers),
            |v| calls::table_value_least_type(hundred, &v.bytes, 4 * ROOM, ROOM),
            nothing(),
            Some(|v: &Record<Value>| least_type(&v.tree, reading)),
        )
    });
}

/// A bound of two types over this table.
fn bound(
    hundred: &[u8],
    pairs: &[Types],
    function: Both<ThreeScratch>,
    rust: Bytes3,
    ready: impl Fn(&FeelType, &FeelType) -> FeelType,
) -> Measured {
    let mut buffers = Buffers::new();
    contest(
        pairs,
        function,
        |f, Pair { a, b }| three_scratch(f, [hundred, &a.bytes, &b.bytes], &mut buffers),
        |Pair { a, b }| rust(hundred, &a.bytes, &b.bytes, 4 * ROOM, ROOM),
        nothing(),
        Some(|pair: &Types| ready(&pair.a.tree, &pair.b.tree)),
    )
}
