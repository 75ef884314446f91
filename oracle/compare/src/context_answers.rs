//! The Rust's answers of the calls over contexts, with the checks of the theorems where the case
//! asks for them.

use crate::answer::Answer;
use crate::call::{Case, Checks, Expected};
use crate::context_theorems;
use crate::type_answers::{bytes, checks, refused, yes_or_no};
use feel_form::contexts::{self, Part};

/// A call over these arguments with room: its bytes, or the refusal.
pub type Build = fn(&[&[u8]], usize) -> Result<Vec<u8>, u8>;

/// The theorems of a call over these arguments.
pub type Theorems = fn(&[&[u8]]) -> Checks;

pub fn get_entry(case: Case) -> Expected {
    part(contexts::get_entry(case.args[0], name(case.args[1])))
}

pub fn search_deep(case: Case) -> Expected {
    let answer = contexts::search_deep(case.args[0], &path(case.args[1]));
    let theorems = checks(case, |_| context_theorems::of_search(case.args));
    Expected {
        checks: answer.map_or_else(|_| Checks::default(), |_| theorems()),
        ..part(answer)
    }
}

pub fn get_first(case: Case) -> Expected {
    part(contexts::get_first(case.args[0]))
}

pub fn contains_entry(case: Case) -> Expected {
    let answer = contexts::contains_entry(case.args[0], name(case.args[1]));
    yes_or_no(answer, Checks::default)
}

pub fn contains_deep(case: Case) -> Expected {
    let answer = contexts::contains_deep(case.args[0], &path(case.args[1]));
    yes_or_no(answer, Checks::default)
}

pub fn is_context(case: Case) -> Expected {
    let answer = contexts::is_context(case.args[0], name(case.args[1]));
    yes_or_no(answer, Checks::default)
}

pub fn is_empty(case: Case) -> Expected {
    yes_or_no(contexts::is_empty(case.args[0]), Checks::default)
}

pub fn len(case: Case) -> Expected {
    match contexts::len(case.args[0]) {
        Ok(count) => given(Answer::given(count as u32)),
        Err(refusal) => refused(refusal),
    }
}

/// The answer of a call that writes a context.
pub fn updated(case: Case, call: Build, theorems: Theorems) -> Expected {
    let answer = call(case.args, case.output);
    bytes(answer, checks(case, |_| theorems(case.args)))
}

pub fn create_entries(args: &[&[u8]], room: usize) -> Result<Vec<u8>, u8> {
    contexts::create_entries(args[0], &path(args[1]), args[2], room)
}

pub fn apply_entries(args: &[&[u8]], room: usize) -> Result<Vec<u8>, u8> {
    contexts::apply_entries(args[0], &path(args[1]), args[2], room)
}

pub fn zip(args: &[&[u8]], room: usize) -> Result<Vec<u8>, u8> {
    contexts::zip(args[0], args[1], room)
}

pub fn overwrite(args: &[&[u8]], room: usize) -> Result<Vec<u8>, u8> {
    contexts::overwrite(args[0], args[1], room)
}

pub fn move_entry(args: &[&[u8]], room: usize) -> Result<Vec<u8>, u8> {
    contexts::move_entry(args[0], name(args[1]), name(args[2]), room)
}

pub fn set_entry(args: &[&[u8]], room: usize) -> Result<Vec<u8>, u8> {
    contexts::set_entry(args[0], name(args[1]), args[2], room)
}

pub fn remove_entry(args: &[&[u8]], room: usize) -> Result<Vec<u8>, u8> {
    contexts::remove_entry(args[0], name(args[1]), room)
}

pub fn set_null(args: &[&[u8]], room: usize) -> Result<Vec<u8>, u8> {
    contexts::set_null(args[0], name(args[1]), room)
}

/// The name that two bytes spell.
pub fn name(arg: &[u8]) -> u16 {
    u16::from_le_bytes([arg[0], arg[1]])
}

/// The names of a path.
pub fn path(arg: &[u8]) -> Vec<u16> {
    arg.chunks_exact(2).map(name).collect()
}

fn part(answer: Result<Option<Part>, u8>) -> Expected {
    match answer {
        Ok(Some(part)) => given(Answer::given(part.number() as u32)),
        Ok(None) => given(Answer::none()),
        Err(refusal) => refused(refusal),
    }
}

fn given(answer: Answer) -> Expected {
    Expected {
        answer,
        output: vec![],
        checks: Checks::default(),
    }
}
