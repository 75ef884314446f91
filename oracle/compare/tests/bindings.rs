//! The Rust bindings answer as the Rust does: every call on few thousand cases, and the trees
//! against the readers and writers of document 01. There is no library under `self-check`.
#![cfg(not(feature = "self-check"))]

#[path = "bindings/calls.rs"]
mod calls;
#[path = "bindings/trees.rs"]
mod trees;

use calls::{BOUND, Bound};
use compare::answer::Answer;
use compare::call::{Call, Case, Gives, Options};
use compare::calls::CALLS;
use std::collections::BTreeMap;

const OPTIONS: Options = Options {
    length: 1,
    alphabet_length: 2,
    pair_length: 2,
    count: 20,
    pairs: 2_000,
    seed: 7,
};

/// All of so many cases of a call are run, and then one in [STEP].
const FIRST: usize = 3_000;
const STEP: usize = 16;

/// What a function of the bindings answers: as the C function, and the bytes it gives.
type Outcome = (Answer, Vec<u8>);

/// The Rust's answer where scratch and output have this room.
fn expected(call: &Call, case: Case, output: usize) -> Outcome {
    let expected = (call.expected)(Case {
        args: case.args,
        others: None,
        scratch: usize::MAX,
        output,
    });
    (expected.answer, expected.output)
}

/// Asks both forms, and counts the answers by their high word.
fn compare_case(call: &Call, bound: &Bound, case: Case, counts: &mut BTreeMap<u32, u64>) {
    let answer = (bound.call)(case.args);
    assert_eq!(
        answer,
        expected(call, case, usize::MAX),
        "{} {:02X?}",
        call.name,
        case.args
    );
    *counts.entry(answer.0.high()).or_default() += 1;
    if let Some(into) = bound.into {
        let mut out = vec![0xEE; case.output];
        let answer = into(case.args, &mut out);
        let (given, written) = expected(call, case, case.output);
        assert_eq!(answer, given, "{} {:02X?}", call.name, case.args);
        let (front, rest) = out.split_at(written.len());
        assert_eq!(front, written, "{} {:02X?}", call.name, case.args);
        assert!(rest.iter().all(|byte| *byte == 0xEE), "{}", call.name);
    }
}

#[test]
fn every_call_of_the_bindings_answers_as_the_rust() {
    assert_eq!(BOUND.len(), CALLS.len());
    for (call, bound) in CALLS.iter().zip(&BOUND) {
        assert_eq!(call.name, bound.name);
        assert_eq!(call.gives == Gives::Length, bound.into.is_some());
        let mut counts = BTreeMap::new();
        let mut generated = 0;
        (call.generate)(&OPTIONS, &mut |case| {
            generated += 1;
            if generated <= FIRST || generated % STEP == 0 {
                compare_case(call, bound, case, &mut counts);
            }
        });
        let cases: u64 = counts.values().sum();
        let all = if call.name.contains("interval") || call.name.contains("bif") {
            256
        } else {
            1_000
        };
        assert!(cases >= all, "{}: {cases} cases", call.name);
        assert!(counts[&0] > 0, "{}", call.name);
        println!("{}: {cases} cases, {counts:?}", call.name);
    }
}

/// The words stand twice, since the bindings have no dependency; they are the same.
#[test]
fn refusals_have_the_same_words() {
    for number in (1..=20).chain(26..=28) {
        let refusal = hedvaste::Refusal::new(number).expect("a refusal");
        let words = feel_form::words(number);
        assert_eq!(refusal.to_string(), format!("refused {number}, {words}"));
    }
}
