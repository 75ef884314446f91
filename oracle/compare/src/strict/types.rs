//! The cases of the strict calls over two types.

use super::Counter;
use super::classes::{Class, Classes, Way, ways};
use crate::call::Options;
use crate::type_cases::short_types;
use crate::value_cases::refused_types;
use feel_cases::{
    Draft, Each, End, Move, Random, STEPS, Step, Tree, around, around_once, each_damage, ends,
    near, near_result, with_parameterless,
};
use feel_form::{MAX_LENGTH, MAX_TYPE_LEVEL};

/// The last levels of types, and one more.
const LEVELS: [usize; 4] = [
    MAX_TYPE_LEVEL - 2,
    MAX_TYPE_LEVEL - 1,
    MAX_TYPE_LEVEL,
    MAX_TYPE_LEVEL + 1,
];

/// What stands at the end of a deep way.
const DEEP_ENDS: [End; 4] = [End::Equal, End::Below, End::Above, End::Beside];

/// How many sorts of long types there are, and of random ones.
const LONG: usize = 8;
const RANDOM: usize = 3;

pub fn classes() -> Classes {
    let all_ways: Vec<Way> = ways(&STEPS, 3);
    let at_ends = |way: &Way| feel_cases::ENDS.map(|end| Class::Way(*way, end));
    let at_levels = |step: &Step| {
        let at = |level| DEEP_ENDS.map(|end| Class::Deep(*step, level, end));
        LEVELS.map(at).concat()
    };
    vec![
        (
            "the way to a parameterless function, and what stands there",
            all_ways.iter().flat_map(at_ends).collect(),
        ),
        (
            "one step to level 30, 31, 32 and 33",
            STEPS.iter().flat_map(at_levels).collect(),
        ),
        (
            "types of 16,384 bytes and one more",
            (0..LONG).map(Class::Long).collect(),
        ),
        (
            "random types near each other",
            (0..RANDOM).map(Class::Random).collect(),
        ),
        ("one type damaged", [0, 1].map(Class::Damaged).to_vec()),
    ]
}

/// Two types that differ at the end of a way.
pub fn pair(way: &Way, end: End, random: &mut Random) -> [Tree; 2] {
    let mut two = ends(end, random);
    for step in way.iter().flatten().rev() {
        two = around(*step, two, random);
    }
    two
}

/// Whether the first of them strictly conforms to the second: each parameter turns the question.
pub fn due(way: &Way, end: End) -> bool {
    let parameters = way.iter().filter(|step| **step == Some(Step::Parameter));
    end.conforms()[parameters.count() % 2]
}

pub fn generate(options: &Options, counter: &mut Counter) {
    let times = (options.pairs / 3_000).max(1);
    for way in ways(&STEPS, 3) {
        for end in feel_cases::ENDS {
            for _ in 0..times {
                let two = pair(&way, end, &mut counter.random);
                counter.add(Class::Way(way, end));
                put(two, Some(due(&way, end)), counter);
            }
        }
    }
    deep(times, counter);
    long(counter);
    random(options.pairs, counter);
    damaged((options.count / 100).max(2), counter);
}

/// The case of two types, with others near them.
fn put([a, b]: [Tree; 2], due: Option<bool>, counter: &mut Counter) {
    let random = &mut counter.random;
    let others = [
        near_result(&a, Move::Up, random),
        near_result(&b, Move::Up, random),
        near_result(&a, Move::Down, random),
        near_result(&b, Move::Free, random),
    ];
    let others = others.map(|t| t.bytes());
    let others: Vec<&[u8]> = others.iter().map(|t| &t[..]).collect();
    counter.made(&[&a.bytes(), &b.bytes()], &others, due);
}

/// One step taken again and again.
fn deep(times: usize, counter: &mut Counter) {
    for step in STEPS {
        for level in LEVELS {
            for end in DEEP_ENDS {
                for _ in 0..times {
                    let mut two = ends(end, &mut counter.random);
                    while two.iter().all(|t| t.level() < level) {
                        two = around_once(step, two, &mut counter.random);
                    }
                    counter.add(Class::Deep(step, level, end));
                    put(two, None, counter);
                }
            }
        }
    }
}

/// A context with this type under each of these names, and of at most this length.
fn filled(length: usize, first: u16, by: u16, t: &[u8]) -> Vec<u8> {
    let count = (length - 3) / (2 + t.len());
    let mut bytes = vec![0x2C];
    bytes.extend((count as u16).to_le_bytes());
    for number in 0..count as u16 {
        bytes.extend((first + by * number).to_le_bytes());
        bytes.extend(t);
    }
    bytes
}

/// Types of 16,384 bytes that are full of parameterless functions: whole beside Null and Any, with
/// other names, with other results, with themselves; and one byte more.
fn long(counter: &mut Counter) {
    // 3 bytes and 2,340 entries of 7, and one more around it.
    let full = [
        &[0x2A],
        &filled(MAX_LENGTH - 1, 0, 2, &[0x2D, 0, 0x2D, 0, 0x22])[..],
    ]
    .concat();
    assert_eq!(full.len(), MAX_LENGTH);
    let over = [&[0x2A], &full[..]].concat();
    let [even, odd] = [0, 1].map(|first| filled(MAX_LENGTH, first, 2, &[0x2D, 0, 0x2A, 0x22]));
    let [numbers, strings] = [0x22, 0x23].map(|t| filled(MAX_LENGTH, 0, 1, &[0x2D, 0, t]));
    let pairs: [[&[u8]; 2]; LONG] = [
        [&[0x29], &full],
        [&full, &[0x29]],
        [&[0x20], &full],
        [&full, &[0x20]],
        [&even, &odd],
        [&numbers, &strings],
        [&full, &full],
        [&full, &over],
    ];
    for (kind, pair) in pairs.into_iter().enumerate() {
        for _ in 0..12 {
            counter.add(Class::Long(kind));
            counter.case(&pair, &[]);
        }
    }
}

fn random(count: usize, counter: &mut Counter) {
    let moves = [Move::Up, Move::Down, Move::Free];
    let short = short_types();
    for _ in 0..count {
        let random = &mut counter.random;
        let base = Tree::random_of_any_size(random);
        let base = with_parameterless(base, random);
        let copy = |random: &mut Random| match random.below(6) {
            0 => base.clone(),
            1 => near(&base, random.pick(&moves), random),
            _ => near_result(&base, random.pick(&moves), random),
        };
        let two = [copy(random), copy(random)];
        let of_base = [
            base.clone(),
            near_result(&base, random.pick(&moves), random),
        ];
        let [a, b] = [0; 2].map(|_| Tree::of(&short[random.below(short.len())]));
        let short = [a, b].map(|t| with_parameterless(t, random));
        for (kind, two) in [two, of_base, short].into_iter().enumerate() {
            counter.add(Class::Random(kind));
            put(two, None, counter);
        }
    }
}

/// Damaged copies of a record.
pub fn damaged_copies(draft: &Draft, random: &mut Random) -> Vec<Vec<u8>> {
    let mut copies = vec![];
    let keep: &mut Each = &mut |bytes| copies.push(bytes.to_vec());
    each_damage(draft, random, keep);
    copies
}

/// One type damaged, or both.
fn damaged(count: usize, counter: &mut Counter) {
    for _ in 0..count {
        let base = Tree::random(6, 3 + counter.random.below(12), &mut counter.random);
        let base = with_parameterless(base, &mut counter.random);
        let copy = near_result(&base, Move::Free, &mut counter.random);
        let (a, b) = (base.draft(), copy.draft());
        let [bad_a, bad_b] = [&a, &b].map(|draft| damaged_copies(draft, &mut counter.random));
        for bad in &bad_a {
            counter.damaged(0, &[bad, &b.bytes]);
        }
        for (place, bad) in bad_b.iter().enumerate() {
            counter.damaged(1, &[&a.bytes, bad]);
            counter.damaged(0, &[&bad_a[place % bad_a.len()], bad]);
        }
    }
    let good: [&[u8]; 3] = [&[0x2D, 0, 0x22], &[0x20], &[0x29]];
    for bad in refused_types() {
        for good in good {
            counter.damaged(0, &[&bad, good]);
            counter.damaged(1, &[good, &bad]);
        }
        for other in refused_types() {
            counter.damaged(0, &[&bad, &other]);
        }
    }
}

#[cfg(test)]
mod tests {
    use super::*;
    use feel_form::calls::strict_is_conformant;

    #[test]
    fn pairs_are_what_they_are_made_for() {
        let mut random = Random::new(1);
        for way in ways(&STEPS, 2) {
            for end in feel_cases::ENDS {
                let [a, b] = pair(&way, end, &mut random).map(|t| t.bytes());
                let verdict = strict_is_conformant(&a, &b);
                assert_eq!(verdict, Ok(due(&way, end)), "{a:02X?} {b:02X?}");
            }
        }
    }
}
