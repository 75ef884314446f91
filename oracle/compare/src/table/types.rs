//! The cases of the calls over a table and two types.

use super::Counter;
use super::classes::{Class, Classes, RELATIONS, Relation};
use crate::call::Options;
use crate::strict::{Way, damaged_copies, ways};
use crate::type_cases::short_types;
use crate::value_cases::refused_types;
use feel_cases::{
    Move, Random, STEPS, Step, TABLE_FAULTS, TABLE_SHAPES, Tree, around, around_once,
    each_deep_pair, faulty_table, near, near_simple, shaped_table, with_parameterless,
};
use feel_form::{MAX_LENGTH, MAX_TYPE_LEVEL};

/// The last levels of types, and one more.
const LEVELS: [usize; 3] = [MAX_TYPE_LEVEL - 1, MAX_TYPE_LEVEL, MAX_TYPE_LEVEL + 1];

/// What stands at the end of a deep way.
const DEEP_ENDS: [Relation; 4] = [
    Relation::Equal,
    Relation::Below,
    Relation::Above,
    Relation::Beside,
];

pub const MOVES: [Move; 3] = [Move::Up, Move::Down, Move::Free];

/// How many sorts of long types there are, and of random ones.
const LONG: usize = 6;
const RANDOM: usize = 4;

pub fn classes() -> Classes {
    let ways: Vec<Way> = ways(&STEPS, 2);
    let at_ends = |way: &Way| RELATIONS.map(|relation| Class::Way(*way, relation));
    let at_levels = |step: &Step| {
        let at = |level| DEEP_ENDS.map(|end| Class::Deep(*step, level, end));
        LEVELS.map(at).concat()
    };
    vec![
        ("each two simple types", two_classes(0x20)),
        (
            "the way to two simple types, and how they stand",
            ways.iter().flat_map(at_ends).collect(),
        ),
        (
            "one step to level 31, 32 and 33",
            STEPS.iter().flat_map(at_levels).collect(),
        ),
        (
            "types of 16,384 bytes and one more",
            (0..LONG).map(Class::Long).collect(),
        ),
        (
            "random types near each other by the table",
            (0..RANDOM).map(Class::Random).collect(),
        ),
        ("a type damaged", [1, 2].map(Class::Damaged).to_vec()),
    ]
}

/// Each two simple types from this one on, over tables of each shape.
pub fn two_classes(first: u8) -> Vec<Class> {
    let mut all = vec![];
    for shape in TABLE_SHAPES {
        for a in first..0x2A {
            all.extend((first..0x2A).map(|b| Class::Two(shape, a, b)));
        }
    }
    all
}

/// Whether the first of two types with these ends conforms to the second: each parameter turns the
/// question, and the result of a parameterless function is not asked about.
fn due(way: &Way, relation: Relation) -> bool {
    if way.contains(&Some(Step::Inner)) {
        return true;
    }
    let parameters = way.iter().filter(|step| **step == Some(Step::Parameter));
    relation.conforms()[parameters.count() % 2]
}

pub fn generate(options: &Options, counter: &mut Counter) {
    let times = (options.pairs / 2_000).max(1);
    for shape in TABLE_SHAPES {
        for _ in 0..times.div_ceil(2) {
            let table = shaped_table(shape, &mut counter.random);
            for a in 0x20..0x2A {
                for b in 0x20..0x2A {
                    counter.add(Class::Two(shape, a, b));
                    counter.add(Class::Shape(shape));
                    put(&table, [a, b].map(Tree::Simple), None, counter);
                }
            }
        }
    }
    for way in ways(&STEPS, 2) {
        for relation in RELATIONS {
            for _ in 0..times {
                let (shape, table, two) = relation.pair(&mut counter.random);
                let steps = way.iter().flatten().rev();
                let two = steps.fold(two, |two, step| around(*step, two, &mut counter.random));
                counter.add(Class::Way(way, relation));
                counter.add(Class::Shape(shape));
                put(&table, two, Some(due(&way, relation)), counter);
            }
        }
    }
    deep(times, counter);
    long(counter);
    random(options.pairs, counter);
    faulty(times.max(4), counter);
    damaged((options.count / 100).max(2), counter);
}

/// The case of two types, with others near them by the table.
fn put(table: &[u8], [a, b]: [Tree; 2], due: Option<bool>, counter: &mut Counter) {
    let random = &mut counter.random;
    let others = [
        near_simple(&a, table, Move::Up, random),
        near_simple(&b, table, Move::Up, random),
        near_simple(&a, table, Move::Down, random),
        near(&b, Move::Free, random),
    ];
    let others = others.map(|t| t.bytes());
    let others: Vec<&[u8]> = others.iter().map(|t| &t[..]).collect();
    counter.made(&[table, &a.bytes(), &b.bytes()], &others, due);
}

/// One step taken again and again.
fn deep(times: usize, counter: &mut Counter) {
    for step in STEPS {
        for level in LEVELS {
            for relation in DEEP_ENDS {
                for _ in 0..times.div_ceil(4) {
                    let (shape, table, mut two) = relation.pair(&mut counter.random);
                    while two[0].level() < level {
                        two = around_once(step, two, &mut counter.random);
                    }
                    counter.add(Class::Deep(step, level, relation));
                    counter.add(Class::Shape(shape));
                    put(&table, two, None, counter);
                }
            }
        }
    }
    let mut pairs = vec![];
    each_deep_pair(&mut |a, b| pairs.push([a.to_vec(), b.to_vec()]));
    for [a, b] in pairs {
        let table = counter.table();
        counter.case(&[&table, &a, &b], &[]);
    }
}

/// A context with so many of these types in turn.
fn filled(count: usize, types: &[u8]) -> Vec<u8> {
    let mut bytes = vec![0x2C];
    bytes.extend((count as u16).to_le_bytes());
    for (number, t) in (0..count).zip(types.iter().cycle()) {
        bytes.extend((number as u16).to_le_bytes());
        bytes.push(*t);
    }
    bytes
}

/// Types of about 16,384 bytes that are full of simple types: beside Null and Any, beside themselves,
/// with other types under the same names; and one that is longer.
fn long(counter: &mut Counter) {
    let count = (MAX_LENGTH - 3) / 3;
    for _ in 0..6 {
        let table = counter.table();
        let random = &mut counter.random;
        let mut any = || -> Vec<u8> { (0..97).map(|_| 0x20 + random.below(10) as u8).collect() };
        let (first, second) = (filled(count, &any()), filled(count, &any()));
        let over = filled(count + 1, &any());
        let pairs: [[&[u8]; 2]; LONG] = [
            [&[0x29], &first],
            [&first, &[0x20]],
            [&first, &first],
            [&first, &second],
            [&[0x26], &first],
            [&first, &over],
        ];
        for (kind, [a, b]) in pairs.into_iter().enumerate() {
            counter.add(Class::Long(kind));
            counter.case(&[&table, a, b], &[]);
        }
    }
}

/// Random types: with simple types exchanged by the table, with other parts changed too, with
/// parameterless functions, and short ones.
fn random(count: usize, counter: &mut Counter) {
    let short = short_types();
    for _ in 0..count {
        let table = counter.table();
        let random = &mut counter.random;
        let base = Tree::random_of_any_size(random);
        let exchanged = |t: &Tree, random: &mut Random| {
            let how = random.pick(&MOVES);
            near_simple(t, &table, how, random)
        };
        let by_table = [base.clone(), exchanged(&base, random)];
        let changed = near(&base, random.pick(&MOVES), random);
        let both = [exchanged(&changed, random), exchanged(&base, random)];
        let functions = with_parameterless(base, random);
        let with_functions = [exchanged(&functions, random), functions];
        let short = Tree::of(&short[random.below(short.len())]);
        let short = [exchanged(&short, random), exchanged(&short, random)];
        for (kind, two) in [by_table, both, with_functions, short]
            .into_iter()
            .enumerate()
        {
            counter.add(Class::Random(kind));
            put(&table, two, None, counter);
        }
    }
}

/// Tables with each fault, beside types that are accepted and types that are not.
fn faulty(times: usize, counter: &mut Counter) {
    let bad = refused_types();
    for fault in TABLE_FAULTS {
        for number in 0..times {
            let table = faulty_table(fault, &mut counter.random);
            let base = Tree::random(4, 1 + counter.random.below(6), &mut counter.random);
            let other = near(&base, Move::Free, &mut counter.random);
            let (good, other) = (base.bytes(), other.bytes());
            let bad = &bad[number % bad.len()];
            for two in [[&good, &other], [bad, &good], [&good, bad]] {
                counter.add(Class::Fault(fault));
                counter.refused(&[&table, two[0], two[1]], fault.refusal());
            }
        }
    }
}

/// One type damaged, or both.
fn damaged(count: usize, counter: &mut Counter) {
    for _ in 0..count {
        let table = counter.table();
        let random = &mut counter.random;
        let base = Tree::random(6, 3 + random.below(12), random);
        let copy = near_simple(&base, &table, Move::Free, random);
        let (a, b) = (base.draft(), copy.draft());
        let [bad_a, bad_b] = [&a, &b].map(|draft| damaged_copies(draft, random));
        for bad in &bad_a {
            counter.damaged(1, &[&table, bad, &b.bytes]);
        }
        for (place, bad) in bad_b.iter().enumerate() {
            counter.damaged(2, &[&table, &a.bytes, bad]);
            counter.damaged(1, &[&table, &bad_a[place % bad_a.len()], bad]);
        }
    }
    let good: [&[u8]; 3] = [&[0x24], &[0x20], &[0x2A, 0x29]];
    for bad in refused_types() {
        for good in good {
            let table = counter.table();
            counter.damaged(1, &[&table, &bad, good]);
            counter.damaged(2, &[&table, good, &bad]);
        }
        for other in refused_types() {
            let table = counter.table();
            counter.damaged(1, &[&table, &bad, &other]);
        }
    }
}

#[cfg(test)]
mod tests {
    use super::*;
    use feel_form::calls::table_is_conformant;

    #[test]
    fn pairs_are_what_they_are_made_for() {
        let mut random = Random::new(1);
        for way in ways(&STEPS, 2) {
            for relation in RELATIONS {
                let (_, table, two) = relation.pair(&mut random);
                let steps = way.iter().flatten().rev();
                let two = steps.fold(two, |two, step| around(*step, two, &mut random));
                let [a, b] = two.map(|t| t.bytes());
                let verdict = table_is_conformant(&table, &a, &b);
                assert_eq!(verdict, Ok(due(&way, relation)), "{a:02X?} {b:02X?}");
            }
        }
    }
}
