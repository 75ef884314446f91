//! The Rust's answers of the calls over values, with the checks of the theorems where the case asks
//! for them. Those over a table of simple types stand in [crate::table_answers].

use crate::call::{Case, Checks, Expected};
use crate::theorems;
use crate::type_answers::{bytes, checks, two, yes_or_no};
use feel_form::{Reading, calls};

pub fn is_conformant(case: Case, reading: Reading) -> Expected {
    let [v, t] = two(case);
    let call = match reading {
        Reading::Strict => calls::strict_value_is_conformant,
        _ => calls::value_is_conformant,
    };
    let theorems = |others| theorems::of_value_conformance(v, t, others, reading);
    yes_or_no(call(v, t), checks(case, theorems))
}

pub fn least_type(case: Case, reading: Reading) -> Expected {
    let v = case.args[0];
    let call = match reading {
        Reading::Strict => calls::strict_value_least_type,
        _ => calls::value_least_type,
    };
    let answer = call(v, case.scratch, case.output);
    let theorems = |others| theorems::of_least_type(v, others, reading);
    bytes(answer, checks(case, theorems))
}

pub fn type_of(case: Case) -> Expected {
    let v = case.args[0];
    let answer = calls::value_type_of(v, case.scratch, case.output);
    bytes(
        answer,
        checks(case, |others| theorems::of_type_of(v, others)),
    )
}

pub fn get_value_checked(case: Case) -> Expected {
    let [t, v] = two(case);
    let answer = calls::get_value_checked(t, v, case.output);
    bytes(answer, checks(case, |_| theorems::of_retrieval(t, v)))
}

pub fn get_conformant_value(case: Case) -> Expected {
    let [t, v] = two(case);
    let answer = calls::get_conformant_value(t, v, case.output);
    bytes(
        answer,
        checks(case, |_| theorems::of_conformant_value(t, v)),
    )
}

pub fn coerced(case: Case) -> Expected {
    let [v, t] = two(case);
    let answer = calls::coerced(v, t, case.output);
    bytes(answer, checks(case, |_| theorems::of_coercion(v, t)))
}

/// The answer of a question on a value.
pub fn value_is(case: Case, question: fn(&[u8]) -> Result<bool, u8>) -> Expected {
    yes_or_no(question(case.args[0]), Checks::default)
}

/// The answer of a question on an interval byte.
pub fn interval_is(case: Case, question: fn(u8) -> Result<bool, u8>) -> Expected {
    yes_or_no(question(case.args[0][0]), Checks::default)
}

pub fn bif_feel_type(case: Case) -> Expected {
    bytes(
        calls::bif_feel_type(case.args[0][0], case.output),
        Checks::default,
    )
}
