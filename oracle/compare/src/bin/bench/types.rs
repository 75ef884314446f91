//! The readers, and the calls over types.

use crate::lean;
use crate::measure::{Measured, contest, nothing};
use crate::ours::{
    Both, Buffers, Bytes, One, OneBuild, ROOM, Two, TwoScratch, both, one, one_build, two,
    two_scratch,
};
use crate::stock::{Pair, Record, Stock};
use crate::table::Table;
use dsntk_feel::FeelType;
use dsntk_feel::values::Value;
use feel_form::{Reading, calls, common_subtype, common_supertype, read_type, read_value, reduced};

/// A pair of types.
pub type Types = Pair<FeelType, FeelType>;

pub fn run(stocks: &[Stock], table: &mut Table) {
    table.each("check_value", stocks, |stock| reading(stock.values()));
    table.each("check_type", stocks, |stock| {
        contest(
            stock.types(),
            both!(feel_check_type as One),
            |f, t| one(f, &t.bytes),
            |t| read_type(&t.bytes).map(|(_, level)| level),
            Some(|t: &Record<_>| lean::check_type(&t.bytes)),
            nothing(),
        )
    });
    table.each("type_is_conformant", stocks, |stock| {
        conformance(stock.near_types())
    });
    table.each("type_instance_of", stocks, |stock| {
        question(
            stock.near_types(),
            both!(feel_type_instance_of as Two),
            calls::instance_of,
            lean::type_instance_of,
            FeelType::instance_of,
        )
    });
    // The Rust has no bounds and no reduced form: its part is the definition on its trees.
    table.each("type_common_supertype", stocks, |stock| {
        supertypes(stock.near_types())
    });
    table.each("type_common_subtype", stocks, |stock| {
        let function = both!(feel_type_common_subtype as TwoScratch);
        let rust = calls::common_subtype;
        bound(stock.near_types(), function, rust, |a, b| {
            common_subtype(a, b, Reading::Ported)
        })
    });
    let mut out = vec![0; ROOM];
    table.each("type_reduced", stocks, |stock| {
        contest(
            stock.types(),
            both!(feel_type_reduced as OneBuild),
            |f, t| one_build(f, &t.bytes, &mut out),
            |t| calls::reduced(&t.bytes, ROOM),
            nothing(),
            Some(|t: &Record<FeelType>| reduced(&t.tree)),
        )
    });
    let calls: [OneType; 2] = [
        (
            "type_is_simple_built_in_type",
            both!(feel_type_is_simple_built_in_type as One),
            calls::is_simple_built_in_type,
            FeelType::is_simple_built_in_type,
        ),
        (
            "type_is_null",
            both!(feel_type_is_null as One),
            calls::is_null,
            FeelType::is_null,
        ),
    ];
    for (call, function, rust, ready) in calls {
        table.each(call, stocks, |stock| {
            contest(
                stock.types(),
                function,
                |f, t| one(f, &t.bytes),
                |t| rust(&t.bytes),
                nothing(),
                Some(|t: &Record<FeelType>| ready(&t.tree)),
            )
        });
    }
}

/// `check_value`.
pub fn reading(values: &[Record<Value>]) -> Measured {
    reading_by(both!(feel_check_value as One), values)
}

/// The same by these functions.
pub fn reading_by(function: Both<One>, values: &[Record<Value>]) -> Measured {
    contest(
        values,
        function,
        |f, v| one(f, &v.bytes),
        |v| read_value(&v.bytes).map(|(_, level)| level),
        Some(|v: &Record<Value>| lean::check_value(&v.bytes)),
        nothing(),
    )
}

/// `type_is_conformant`.
pub fn conformance(pairs: &[Types]) -> Measured {
    question(
        pairs,
        both!(feel_type_is_conformant as Two),
        calls::is_conformant,
        lean::type_is_conformant,
        FeelType::is_conformant,
    )
}

/// A question on two types from their bytes.
type Question = fn(&[u8], &[u8]) -> Result<bool, u8>;

/// A question on two types.
pub fn question(
    pairs: &[Types],
    function: Both<Two>,
    rust: Question,
    lean: Question,
    ready: fn(&FeelType, &FeelType) -> bool,
) -> Measured {
    contest(
        pairs,
        function,
        |f, Pair { a, b }| two(f, &a.bytes, &b.bytes),
        |Pair { a, b }| rust(&a.bytes, &b.bytes),
        Some(|pair: &Types| lean(&pair.a.bytes, &pair.b.bytes)),
        Some(|pair: &Types| ready(&pair.a.tree, &pair.b.tree)),
    )
}

/// `type_common_supertype`.
pub fn supertypes(pairs: &[Types]) -> Measured {
    let function = both!(feel_type_common_supertype as TwoScratch);
    bound(pairs, function, calls::common_supertype, |a, b| {
        common_supertype(a, b, Reading::Ported)
    })
}

/// A bound of two types.
pub fn bound(
    pairs: &[Types],
    function: Both<TwoScratch>,
    rust: fn(&[u8], &[u8], usize, usize) -> Bytes,
    ready: fn(&FeelType, &FeelType) -> FeelType,
) -> Measured {
    let mut buffers = Buffers::new();
    contest(
        pairs,
        function,
        |f, Pair { a, b }| two_scratch(f, &a.bytes, &b.bytes, &mut buffers),
        |Pair { a, b }| rust(&a.bytes, &b.bytes, 4 * ROOM, ROOM),
        nothing(),
        Some(|pair: &Types| ready(&pair.a.tree, &pair.b.tree)),
    )
}

/// A question on one type: the name, ours, the Rust from the bytes and on the tree.
type OneType = (
    &'static str,
    Both<One>,
    fn(&[u8]) -> Result<bool, u8>,
    fn(&FeelType) -> bool,
);
