//! The Rust's answers of the calls over a table of simple types, the table being the first argument,
//! with the checks of the theorems where the case asks for them.

use crate::call::{Case, Checks, Expected};
use crate::theorems;
use crate::type_answers::{bytes, checks, yes_or_no};
use feel_form::{Reading, Table, calls};

pub fn check(case: Case) -> Expected {
    yes_or_no(calls::table_check(case.args[0]), Checks::default)
}

pub fn is_conformant(case: Case) -> Expected {
    let [table, a, b] = three(case);
    let theorems = |others| theorems::of_conformance(a, b, others, over(table));
    yes_or_no(
        calls::table_is_conformant(table, a, b),
        checks(case, theorems),
    )
}

pub fn common_supertype(case: Case) -> Expected {
    let [table, a, b] = three(case);
    let answer = calls::table_common_supertype(table, a, b, case.scratch, case.output);
    let theorems = |others| theorems::of_supertype(a, b, others, over(table));
    bytes(answer, checks(case, theorems))
}

pub fn common_subtype(case: Case) -> Expected {
    let [table, a, b] = three(case);
    let answer = calls::table_common_subtype(table, a, b, case.scratch, case.output);
    let theorems = |others| theorems::of_subtype(a, b, others, over(table));
    bytes(answer, checks(case, theorems))
}

pub fn value_is_conformant(case: Case) -> Expected {
    let [table, v, t] = three(case);
    let theorems = |others| theorems::of_value_conformance(v, t, others, over(table));
    yes_or_no(
        calls::table_value_is_conformant(table, v, t),
        checks(case, theorems),
    )
}

pub fn value_least_type(case: Case) -> Expected {
    let [table, v] = [case.args[0], case.args[1]];
    let answer = calls::table_value_least_type(table, v, case.scratch, case.output);
    let theorems = |others| theorems::of_least_type(v, others, over(table));
    bytes(answer, checks(case, theorems))
}

fn three<'a>(case: Case<'a>) -> [&'a [u8]; 3] {
    [case.args[0], case.args[1], case.args[2]]
}

/// The reading over a table that was loaded before.
fn over(table: &[u8]) -> Reading {
    Reading::Table(Table::read(table).expect("loaded before"))
}
