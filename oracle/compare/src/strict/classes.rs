//! What is counted in the section.

use feel_cases::{End, Holder, Step, ValueStep};
use std::cmp::Ordering;
use std::fmt;

/// A way into a type, of up to three steps from the outside.
pub type Way = [Option<Step>; 3];

/// A way into a value, of up to two steps from the outside.
pub type ValueWay = [Option<ValueStep>; 2];

/// Sorts of classes with a title.
pub type Classes = Vec<(&'static str, Vec<Class>)>;

#[derive(Debug, Clone, Copy, PartialEq, Eq, PartialOrd, Ord)]
pub enum Class {
    /// The way to a parameterless function, and what stands beside it.
    Way(Way, End),
    /// The same at the end of one step taken again and again, the types of this level.
    Deep(Step, usize, End),
    /// A record of about 16,384 bytes, and which of its kinds.
    Long(usize),
    /// A function definition at the end of a way into a value, beside a type; the way into its
    /// function type, and what stands there.
    Definition(ValueWay, Way, End),
    /// Two function definitions in one value, at the end of a way; the way into their function types,
    /// and what stands there.
    Two(Holder, ValueWay, Way, End),
    /// A value with this command at the end of a way, beside a type with this one.
    Other(ValueWay, u8, u8),
    /// A value with this command, which has no least type, at the end of a way, beside a function
    /// definition.
    NoLeast(ValueWay, u8),
    /// Random records near each other.
    Random(usize),
    /// The argument at this place is damaged.
    Damaged(usize),
    /// Scratch and output beside what is wanted.
    Buffers(Ordering, Ordering),
    Verdict(Verdict),
}

/// What a call under another reading says beside the ported one.
#[derive(Debug, Clone, Copy, PartialEq, Eq, PartialOrd, Ord)]
pub enum Verdict {
    Yes,
    No,
    NoForYes,
    YesForNo,
    Same,
    AsLong,
    Longer,
    Shorter,
    BytesFor13,
}

pub const VERDICTS: [Verdict; 9] = [
    Verdict::Yes,
    Verdict::No,
    Verdict::NoForYes,
    Verdict::YesForNo,
    Verdict::Same,
    Verdict::AsLong,
    Verdict::Longer,
    Verdict::Shorter,
    Verdict::BytesFor13,
];

impl Verdict {
    /// Of both answers; none where the strict call refuses.
    pub fn of(
        strict: &Result<Vec<u8>, u8>,
        ported: &Result<Vec<u8>, u8>,
        is_question: bool,
    ) -> Option<Verdict> {
        let strict = strict.as_ref().ok()?;
        let Ok(ported) = ported else {
            return Some(Verdict::BytesFor13);
        };
        Some(match (&strict[..], &ported[..]) {
            ([1], [1]) if is_question => Verdict::Yes,
            ([0], [0]) if is_question => Verdict::No,
            ([0], _) if is_question => Verdict::NoForYes,
            (_, _) if is_question => Verdict::YesForNo,
            (strict, ported) if strict == ported => Verdict::Same,
            _ => match strict.len().cmp(&ported.len()) {
                Ordering::Equal => Verdict::AsLong,
                Ordering::Greater => Verdict::Longer,
                Ordering::Less => Verdict::Shorter,
            },
        })
    }

    /// Whether the answers differ.
    pub fn is_other(self) -> bool {
        !matches!(self, Verdict::Yes | Verdict::No | Verdict::Same)
    }
}

impl fmt::Display for Verdict {
    fn fmt(&self, f: &mut fmt::Formatter<'_>) -> fmt::Result {
        f.write_str(match self {
            Verdict::Yes => "yes by both",
            Verdict::No => "no by both",
            Verdict::NoForYes => "no for its yes",
            Verdict::YesForNo => "yes for its no",
            Verdict::Same => "the same bytes",
            Verdict::AsLong => "other bytes, as many",
            Verdict::Longer => "more bytes",
            Verdict::Shorter => "fewer bytes",
            Verdict::BytesFor13 => "bytes for its refusal 13",
        })
    }
}

/// All ways of up to so many steps out of these, at most three.
pub fn ways<S: Copy, const N: usize>(steps: &[S], most: usize) -> Vec<[Option<S>; N]> {
    let mut all = vec![[None; N]];
    let mut from = 0;
    for length in 0..most {
        let last = all.len();
        for place in from..last {
            for step in steps {
                let mut way = all[place];
                way[length] = Some(*step);
                all.push(way);
            }
        }
        from = last;
    }
    all
}

#[cfg(test)]
mod tests {
    use super::*;
    use feel_cases::STEPS;

    #[test]
    fn every_way_is_there_once() {
        let all: Vec<Way> = ways(&STEPS, 3);
        assert_eq!(all.len(), 1 + 6 + 36 + 216);
        let distinct: std::collections::BTreeSet<&Way> = all.iter().collect();
        assert_eq!(distinct.len(), all.len());
    }
}
