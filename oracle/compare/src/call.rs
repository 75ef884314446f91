//! What the comparison knows of one call.

use crate::answer::Answer;
use crate::lent::Lent;

/// How much is to be generated.
pub struct Options {
    /// All byte strings up to this length.
    pub length: usize,
    /// All strings over the small alphabets up to this length.
    pub alphabet_length: usize,
    /// All pairs of types up to this length, and all values up to so many nodes.
    pub pair_length: usize,
    /// This many random records, each with its damaged copies.
    pub count: usize,
    /// This many random pairs of short types, as many of types near each other, and about as many
    /// random values.
    pub pairs: usize,
    /// The seed of the random records.
    pub seed: u64,
}

/// The arguments of one case, and the sizes of the buffers lent with them. A name has two bytes, a
/// path two for each name, little endian.
#[derive(Debug, Clone, Copy, Default)]
pub struct Case<'a> {
    pub args: &'a [&'a [u8]],
    /// Further types for the checks of the theorems, which the call does not get; none where
    /// nothing is to be checked.
    pub others: Option<&'a [&'a [u8]]>,
    pub scratch: usize,
    pub output: usize,
}

/// Receives the cases one after the other.
pub type EachCase<'a> = dyn FnMut(Case) + 'a;

/// What the Rust answers.
pub struct Expected {
    pub answer: Answer,
    /// The bytes at the front of the output; all bytes after them must be untouched.
    pub output: Vec<u8>,
    /// What was asked of the Rust's own answer.
    pub checks: Checks,
}

/// Checks of the Rust's own answer: how many held, and the first that did not.
#[derive(Debug, Default)]
pub struct Checks {
    pub held: u64,
    pub failed: Option<&'static str>,
}

impl Checks {
    /// Counts a check; `fault` says what is wrong where it does not hold.
    pub fn check(&mut self, holds: bool, fault: &'static str) {
        if holds {
            self.held += 1;
        } else {
            self.failed.get_or_insert(fault);
        }
    }
}

/// What the low word of an answer is.
#[derive(Debug, Clone, Copy, PartialEq, Eq)]
pub enum Gives {
    /// A level, and the record was accepted; the checks are that it is written back.
    Level,
    /// 0 no, 1 yes; the checks are of theorems.
    YesOrNo,
    /// The length written; the checks are of theorems.
    Length,
    /// How many there are; the checks are of theorems.
    Count,
    /// The place and the length of a part, or none; the checks are of theorems.
    Part,
    /// The command of a type, or unknown; the checks are of theorems.
    Command,
}

/// A call: its name, its cases, and the two sides to be compared.
pub struct Call {
    pub name: &'static str,
    pub gives: Gives,
    /// The refusals it can give.
    pub refusals: &'static [u8],
    pub generate: fn(&Options, &mut EachCase),
    pub expected: fn(Case) -> Expected,
    pub actual: fn(&mut Lent) -> Answer,
}
