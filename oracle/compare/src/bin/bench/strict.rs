//! The strict calls: on the records of the ported ones, and on types with parameterless functions and
//! on function definitions, where the readings differ.

use crate::data::accepts;
use crate::lean;
use crate::measure::Measured;
use crate::others::definitions;
use crate::ours::{OneScratch, Two, TwoScratch, both_strict};
use crate::stock::{Record, Stock, feel_type, pairs, value};
use crate::table::Table;
use crate::types::{Types, bound, question};
use crate::values::{ValueAndType, data, judgement, of_values, with_own_types};
use dsntk_feel::values::Value;
use feel_cases::{Kind, Tree};
use feel_form::{
    Reading, calls, common_subtype, common_supertype, conforms, least_type, value_conforms,
};

pub fn run(stocks: &[Stock], table: &mut Table) {
    table.each("strict_type_is_conformant", stocks, |stock| {
        conformance(stock.near_types())
    });
    // The Rust has no strict call: its part is the definition on its trees.
    table.each("strict_type_common_supertype", stocks, |stock| {
        let function = both_strict!(feel_strict_type_common_supertype as TwoScratch);
        let rust = calls::strict_common_supertype;
        bound(stock.near_types(), function, rust, |a, b| {
            common_supertype(a, b, Reading::Strict)
        })
    });
    table.each("strict_type_common_subtype", stocks, |stock| {
        let function = both_strict!(feel_strict_type_common_subtype as TwoScratch);
        let rust = calls::strict_common_subtype;
        bound(stock.near_types(), function, rust, |a, b| {
            common_subtype(a, b, Reading::Strict)
        })
    });
    table.each("strict_value_is_conformant", stocks, |stock| {
        value_conformance(&with_own_types(stock))
    });
    table.each("strict_value_least_type", stocks, |stock| {
        least_types(&data(stock))
    });
}

pub fn run_others(stocks: &[Stock], table: &mut Table) {
    table.each_at(
        "strict_type_is_conformant",
        "parameterless",
        stocks,
        |stock| conformance(&parameterless(stock)),
    );
    table.each_at(
        "strict_value_is_conformant",
        "definitions",
        stocks,
        |stock| value_conformance(&with_function_types(stock)),
    );
    table.each_at("strict_value_least_type", "definitions", stocks, |stock| {
        least_types(&definitions(stock.size))
    });
}

/// `strict_type_is_conformant`.
fn conformance(pairs: &[Types]) -> Measured {
    question(
        pairs,
        both_strict!(feel_strict_type_is_conformant as Two),
        calls::strict_is_conformant,
        lean::strict_type_is_conformant,
        |a, b| conforms(a, b, Reading::Strict),
    )
}

/// `strict_value_is_conformant`.
fn value_conformance(pairs: &[ValueAndType]) -> Measured {
    judgement(
        pairs,
        both_strict!(feel_strict_value_is_conformant as Two),
        calls::strict_value_is_conformant,
        lean::strict_value_is_conformant,
        |v, t| value_conforms(v, t, Reading::Strict),
    )
}

/// `strict_value_least_type`.
fn least_types(values: &[Record<Value>]) -> Measured {
    let function = both_strict!(feel_strict_value_least_type as OneScratch);
    of_values(values, function, calls::strict_value_least_type, |v| {
        least_type(v, Reading::Strict)
    })
}

/// Types near each other, as the usual ones, with a parameterless function for each list.
fn parameterless(stock: &Stock) -> Vec<Types> {
    let changed = |t: &[u8]| without_lists(Tree::of(t)).bytes();
    let both = |pair: &Types| [changed(&pair.a.bytes), changed(&pair.b.bytes)];
    let fits = |pair: &[Vec<u8>; 2]| pair.iter().all(|t| accepts(Kind::Type, t));
    let bytes = stock.near_types().iter().map(both).filter(fits);
    pairs(bytes, feel_type, feel_type)
}

fn without_lists(tree: Tree) -> Tree {
    let inside = |child: Box<Tree>| Box::new(without_lists(*child));
    match tree {
        Tree::Simple(_) => tree,
        Tree::One(0x2A, inner) => Tree::Function(vec![], inside(inner)),
        Tree::One(command, inner) => Tree::One(command, inside(inner)),
        Tree::Context(entries) => {
            let entry = |(name, child)| (name, without_lists(child));
            Tree::Context(entries.into_iter().map(entry).collect())
        }
        Tree::Function(parameters, result) => {
            let parameters = parameters.into_iter().map(without_lists).collect();
            Tree::Function(parameters, inside(result))
        }
    }
}

/// Function definitions with their function types.
fn with_function_types(stock: &Stock) -> Vec<ValueAndType> {
    let definitions = definitions(stock.size).into_iter();
    let pair = |v: Record<Value>| {
        let t = calls::value_type_of(&v.bytes, usize::MAX, usize::MAX);
        [v.bytes, t.expect("accepted")]
    };
    pairs(definitions.map(pair), value, feel_type)
}
