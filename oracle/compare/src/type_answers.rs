//! The Rust's answers of the calls over types, with the checks of the theorems where the case asks
//! for them. Those over a table of simple types stand in [crate::table_answers].

use crate::answer::Answer;
use crate::call::{Case, Checks, Expected};
use crate::theorems;
use feel_form::{Reading, calls};

pub fn is_conformant(case: Case, reading: Reading) -> Expected {
    let [a, b] = two(case);
    let call = match reading {
        Reading::Strict => calls::strict_is_conformant,
        _ => calls::is_conformant,
    };
    let theorems = |others| theorems::of_conformance(a, b, others, reading);
    yes_or_no(call(a, b), checks(case, theorems))
}

pub fn instance_of(case: Case) -> Expected {
    let [a, b] = two(case);
    yes_or_no(calls::instance_of(a, b), Checks::default)
}

pub fn is_simple_built_in_type(case: Case) -> Expected {
    yes_or_no(
        calls::is_simple_built_in_type(case.args[0]),
        Checks::default,
    )
}

pub fn is_null(case: Case) -> Expected {
    yes_or_no(calls::is_null(case.args[0]), Checks::default)
}

pub fn common_supertype(case: Case, reading: Reading) -> Expected {
    let [a, b] = two(case);
    let call = match reading {
        Reading::Strict => calls::strict_common_supertype,
        _ => calls::common_supertype,
    };
    let answer = call(a, b, case.scratch, case.output);
    let theorems = |others| theorems::of_supertype(a, b, others, reading);
    bytes(answer, checks(case, theorems))
}

pub fn common_subtype(case: Case, reading: Reading) -> Expected {
    let [a, b] = two(case);
    let call = match reading {
        Reading::Strict => calls::strict_common_subtype,
        _ => calls::common_subtype,
    };
    let answer = call(a, b, case.scratch, case.output);
    let theorems = |others| theorems::of_subtype(a, b, others, reading);
    bytes(answer, checks(case, theorems))
}

pub fn reduced(case: Case) -> Expected {
    let t = case.args[0];
    let answer = calls::reduced(t, case.output);
    bytes(
        answer,
        checks(case, |others| theorems::of_reduced(t, others)),
    )
}

pub fn two<'a>(case: Case<'a>) -> [&'a [u8]; 2] {
    [case.args[0], case.args[1]]
}

/// The checks of an accepted case: of these theorems, if it brings other types.
pub fn checks<'a>(
    case: Case<'a>,
    theorems: impl FnOnce(&'a [&'a [u8]]) -> Checks,
) -> impl FnOnce() -> Checks {
    move || case.others.map(theorems).unwrap_or_default()
}

pub fn yes_or_no(answer: Result<bool, u8>, theorems: impl FnOnce() -> Checks) -> Expected {
    match answer {
        Ok(yes) => Expected {
            answer: Answer::given(yes.into()),
            output: vec![],
            checks: theorems(),
        },
        Err(refusal) => refused(refusal),
    }
}

pub fn bytes(answer: Result<Vec<u8>, u8>, theorems: impl FnOnce() -> Checks) -> Expected {
    match answer {
        Ok(output) => Expected {
            answer: Answer::given(output.len() as u32),
            output,
            checks: theorems(),
        },
        Err(refusal) => refused(refusal),
    }
}

pub fn refused(refusal: u8) -> Expected {
    Expected {
        answer: Answer::refused(refusal),
        output: vec![],
        checks: Checks::default(),
    }
}
