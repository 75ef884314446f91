//! The calls over one record that read it and answer its level: their cases, and the Rust's answer.

use crate::answer::Answer;
use crate::call::{Case, Checks, EachCase, Expected, Options};
use feel_cases::{
    Each, Kind, Random, each_chain, each_damage, each_decimal, each_long, each_string,
    long_records, random_draft,
};
use feel_form::{MAX_LENGTH, MAX_TYPE_LEVEL, MAX_VALUE_LEVEL};

/// Cases of one record.
pub fn cases(kind: Kind, options: &Options, each: &mut EachCase) {
    let mut each = |bytes: &[u8]| {
        each(Case {
            args: &[bytes],
            ..Case::default()
        })
    };
    let bytes: Vec<u8> = (0..=255).collect();
    for length in 0..=options.length {
        each_string(&bytes, length, &mut each);
    }
    let (alphabet, max_level): (Vec<u8>, _) = match kind {
        Kind::Value => {
            let types = [0x20, 0x22, 0x2A, 0x2D];
            ((0x00..=0x10).chain(types).collect(), MAX_VALUE_LEVEL)
        }
        Kind::Type => ((0..3).chain(0x20..0x2E).collect(), MAX_TYPE_LEVEL),
    };
    for length in 1..=options.alphabet_length {
        each_string(&alphabet, length, &mut each);
    }
    each_decimal(&mut each);
    each_chain(kind, max_level - 1..=max_level + 2, &mut each);
    each_long(kind, &mut each);
    for other in [Kind::Value, Kind::Type] {
        for bytes in long_records(other, MAX_LENGTH) {
            each(&bytes);
        }
    }
    random_records(kind, options, &mut each);
}

/// Random records, each with its damaged copies.
fn random_records(kind: Kind, options: &Options, each: &mut Each) {
    let mut random = Random::new(options.seed);
    for _ in 0..options.count {
        let draft = random_draft(kind, &mut random);
        each(&draft.bytes);
        each_damage(&draft, &mut random, each);
    }
}

/// A reader of the Rust: the tree and its level, or the refusal.
type Read<T> = fn(&[u8]) -> Result<(T, usize), u8>;

/// The Rust's answer to a record: its level or its refusal. An accepted record is written back.
pub fn expected<T>(case: Case, read: Read<T>, write: fn(&T) -> Vec<u8>) -> Expected {
    let bytes = case.args[0];
    let mut checks = Checks::default();
    let answer = match read(bytes) {
        Ok((tree, level)) => {
            checks.check(write(&tree) == bytes, "the Rust writer gives other bytes");
            Answer::given(level as u32)
        }
        Err(refusal) => Answer::refused(refusal),
    };
    Expected {
        answer,
        output: vec![],
        checks,
    }
}
