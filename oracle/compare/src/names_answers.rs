//! The Rust's answers of the calls over texts, with the checks of the theorems where the case asks
//! for them.

use crate::answer::Answer;
use crate::call::{Case, Checks, Expected};
use crate::context_answers::Build;
use crate::type_answers::{bytes, checks, yes_or_no};
use feel_form::names;

/// The answer of a call that writes a text.
pub fn built(case: Case, call: Build) -> Expected {
    bytes(call(case.args, case.output), Checks::default)
}

pub fn display(args: &[&[u8]], room: usize) -> Result<Vec<u8>, u8> {
    names::display(args[0], args[1], room)
}

pub fn name_new(args: &[&[u8]], room: usize) -> Result<Vec<u8>, u8> {
    names::name_new(args[0], room)
}

pub fn trim(args: &[&[u8]], room: usize) -> Result<Vec<u8>, u8> {
    names::trim(args[0], room)
}

pub fn from_str(case: Case) -> Expected {
    let s = case.args[0];
    let command = names::from_str(s);
    Expected {
        answer: command.map_or_else(Answer::none, |command| Answer::given(command.into())),
        output: vec![],
        checks: checks(case, |_| of_a_type_name(s))(),
    }
}

pub fn is_built_in_type_name(case: Case) -> Expected {
    let s = case.args[0];
    let answer = names::is_built_in_type_name(s);
    yes_or_no(Ok(answer), checks(case, |_| of_a_type_name(s)))
}

pub fn trimmed(case: Case) -> Expected {
    let answer = trim(case.args, case.output);
    bytes(answer, checks(case, |_| of_trim(case.args[0])))
}

/// A name is built in exactly when it is known, and it is what its type is shown as.
fn of_a_type_name(s: &[u8]) -> Checks {
    let mut checks = Checks::default();
    let command = names::from_str(s);
    checks.check(
        names::is_built_in_type_name(s) == command.is_some(),
        "known and not built in, or built in and unknown",
    );
    if let Some(command) = command {
        checks.check(
            names::display(&[command], &[0, 0], s.len()) == Ok(s.to_vec()),
            "the type is shown as another name",
        );
    }
    checks
}

/// What is trimmed is trimmed unchanged, and is the name of the one part.
fn of_trim(s: &[u8]) -> Checks {
    let mut checks = Checks::default();
    let once = names::trim(s, s.len());
    let twice = once.clone().and_then(|once| names::trim(&once, s.len()));
    checks.check(twice == once, "what is trimmed is trimmed again");
    if s.is_ascii() && s.len() <= 255 {
        let part = [&[1, s.len() as u8], s].concat();
        checks.check(
            names::name_new(&part, s.len()) == once,
            "the name of one part is not what is trimmed",
        );
    }
    checks
}
