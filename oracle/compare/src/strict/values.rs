//! The cases of the strict calls over a value and a type, and over one value.

use super::Counter;
use super::classes::{Class, Classes, ValueWay, Way, ways};
use super::types::{damaged_copies, due, pair};
use crate::call::Options;
use crate::value_cases::{refused_types, refused_values};
use feel_cases::{
    ENDS, End, HOLDERS, Move, Parts, Random, STEPS, Step, Tree, VALUE_STEPS, ValueTree,
    around_once, definition, held, near_result, near_value, null, value_around,
    value_with_parameterless, with_parameterless,
};
use feel_form::calls::strict_value_least_type;
use feel_form::{MAX_LENGTH, MAX_VALUE_LEVEL};

/// The last levels of values, and one more.
const LEVELS: [usize; 3] = [MAX_VALUE_LEVEL - 1, MAX_VALUE_LEVEL, MAX_VALUE_LEVEL + 1];

/// How many sorts of random records there are, and of long ones.
const RANDOM: usize = 3;
const LONG: usize = 3;

/// Values that conform to Any alone: built-in functions, the types of three of them among the types
/// beside them, a type, Irrelevant.
const OTHERS: [&[u8]; 6] = [
    &[0x0D, 0],
    &[0x0D, 67],
    &[0x0D, 5],
    &[0x0E, 0x2D, 0, 0x22],
    &[0x0E, 0x22],
    &[0x0F],
];

const TARGETS: [&[u8]; 5] = [
    &[0x20],
    &[0x29],
    &[0x22],
    &[0x2D, 1, 0x22, 0x22],
    &[0x2D, 0, 0x20],
];

const MOVES: [Move; 3] = [Move::Up, Move::Down, Move::Free];

/// Ways into function types, and what stands at their ends. At the top the first of both types is to
/// be a function type.
fn function_ways() -> Vec<(Way, End)> {
    let into_functions = [Some(Step::Parameter), Some(Step::Result), Some(Step::Inner)];
    let mut all: Vec<(Way, End)> = vec![];
    for way in ways(&STEPS, 2) {
        for end in ENDS {
            let no_function = [
                End::NullFirst,
                End::AnyFirst,
                End::LoneFirst,
                End::LoneSecond,
            ];
            let at_top = way[0].is_none() && !no_function.contains(&end);
            if at_top || into_functions.contains(&way[0]) {
                all.push((way, end));
            }
        }
    }
    all
}

/// The same where both sides are the types of values.
fn function_ways_of_two() -> Vec<(Way, End)> {
    let mut all = function_ways();
    all.retain(|(way, end)| way[0].is_some() || *end != End::AnySecond);
    all
}

/// The value at the end of a way into another one, and the type beside it.
fn at_end_of(way: &ValueWay, v: ValueTree, t: Tree, random: &mut Random) -> (ValueTree, Tree) {
    let mut both = (v, t);
    for step in way.iter().flatten().rev() {
        both = value_around(*step, both.0, both.1, random);
    }
    both
}

pub fn classes_of_pairs() -> Classes {
    let mut definitions = vec![];
    for value_way in ways(&VALUE_STEPS, 2) {
        let at = |(way, end): (Way, End)| Class::Definition(value_way, way, end);
        definitions.extend(function_ways().into_iter().map(at));
    }
    let mut others = vec![];
    for way in ways(&VALUE_STEPS, 1) {
        for v in [0x0D, 0x0E, 0x0F] {
            others.extend([0x20, 0x29, 0x22, 0x2D].map(|t| Class::Other(way, v, t)));
        }
    }
    vec![
        (
            "a function definition in a value, the way into its type, and what stands there",
            definitions,
        ),
        ("a built-in function, a type or Irrelevant", others),
        ("one step to level 30, 31 and 32", deep_classes()),
        (
            "random values beside types near theirs",
            (0..RANDOM).map(Class::Random).collect(),
        ),
        ("one record damaged", [0, 1].map(Class::Damaged).to_vec()),
    ]
}

pub fn classes_of_values() -> Classes {
    let mut two = vec![];
    for holder in HOLDERS {
        for value_way in ways(&VALUE_STEPS, 1) {
            let at = |(way, end): (Way, End)| Class::Two(holder, value_way, way, end);
            two.extend(function_ways_of_two().into_iter().map(at));
        }
    }
    let no_least = |way| [0x0D, 0x0E, 0x0F].map(|v| Class::NoLeast(way, v));
    vec![
        (
            "two function definitions in a value, the way into their types, and what stands there",
            two,
        ),
        (
            "a built-in function, a type or Irrelevant beside a function definition",
            ways(&VALUE_STEPS, 2)
                .into_iter()
                .flat_map(no_least)
                .collect(),
        ),
        ("one step to level 30, 31 and 32", deep_classes()),
        (
            "values of 16,384 bytes and one more",
            (0..LONG).map(Class::Long).collect(),
        ),
        ("random values", (0..RANDOM).map(Class::Random).collect()),
        ("the value damaged", vec![Class::Damaged(0)]),
    ]
}

fn deep_classes() -> Vec<Class> {
    let at_levels = |step| LEVELS.map(|level| Class::Deep(step, level, End::Equal));
    STEPS.into_iter().flat_map(at_levels).collect()
}

/// A function definition of this level, by one step taken again and again inside its result.
fn deep(step: Step, level: usize, random: &mut Random) -> (ValueTree, Tree) {
    let mut two = feel_cases::ends(End::Equal, random);
    while two[0].level() + 1 < level {
        two = around_once(step, two, random);
    }
    let [t, _] = around_once(Step::Inner, two, random);
    (definition(&t, random).expect("a function type"), t)
}

pub fn generate_pairs(options: &Options, counter: &mut Counter) {
    let times = (options.pairs / 5_000).max(1);
    for value_way in ways(&VALUE_STEPS, 2) {
        for (way, end) in function_ways() {
            for _ in 0..times {
                let random = &mut counter.random;
                let [a, b] = pair(&way, end, random);
                let v = definition(&a, random).expect("a function type");
                let (v, t) = at_end_of(&value_way, v, b, random);
                counter.add(Class::Definition(value_way, way, end));
                put_pair(&v, &t, Some(due(&way, end)), counter);
            }
        }
    }
    for way in ways(&VALUE_STEPS, 1) {
        for v in OTHERS {
            for t in TARGETS {
                counter.add(Class::Other(way, v[0], t[0]));
                let leaf = ValueTree::Leaf(v.to_vec());
                let (v, tree) = at_end_of(&way, leaf, Tree::of(t), &mut counter.random);
                put_pair(&v, &tree, Some(t == [0x20]), counter);
            }
        }
    }
    for step in STEPS {
        for level in LEVELS {
            for _ in 0..times {
                counter.add(Class::Deep(step, level, End::Equal));
                let (v, t) = deep(step, level, &mut counter.random);
                let near = near_result(&t, Move::Free, &mut counter.random);
                put_pair(&v, &t, (level < 32).then_some(true), counter);
                put_pair(&v, &near, None, counter);
            }
        }
    }
    random_pairs(options.pairs / 2, counter);
    damaged_pairs((options.count / 100).max(2), counter);
}

/// The case of a value and a type, with others near it.
fn put_pair(v: &ValueTree, t: &Tree, due: Option<bool>, counter: &mut Counter) {
    let others = MOVES.map(|how| near_result(t, how, &mut counter.random).bytes());
    let others: Vec<&[u8]> = others.iter().map(|t| &t[..]).collect();
    counter.made(&[&v.bytes(), &t.bytes()], &others, due);
}

/// A random value with function definitions that have parameterless functions in their types.
fn any_value(random: &mut Random) -> ValueTree {
    let v = ValueTree::random_of_any_size(Parts::Definitions, random);
    value_with_parameterless(v, random)
}

fn random_pairs(count: usize, counter: &mut Counter) {
    for _ in 0..count {
        let random = &mut counter.random;
        let v = any_value(random);
        let shape = v.shape(random);
        let near = near_result(&shape, random.pick(&MOVES), random);
        let other = near_value(&v, Parts::Definitions, random);
        let least = strict_value_least_type(&v.bytes(), usize::MAX, usize::MAX);
        let least = least.map_or(shape.clone(), |t| Tree::of(&t));
        let near_least = near_result(&least, random.pick(&MOVES), random);
        let base = Tree::random(6, 2 + random.below(12), random);
        let function = Tree::Function(vec![base.clone()], Box::new(base));
        let own = with_parameterless(function, random);
        let how = random.pick(&MOVES);
        let wanted = near_result(&own, how, random);
        let defined = definition(&own, random).expect("a function type");
        for (kind, v, t) in [
            (0, &v, &shape),
            (0, &v, &near),
            (1, &v, &least),
            (1, &v, &near_least),
            (1, &other, &least),
            (2, &defined, &wanted),
        ] {
            counter.add(Class::Random(kind));
            put_pair(v, t, None, counter);
        }
    }
}

fn damaged_pairs(count: usize, counter: &mut Counter) {
    for _ in 0..count {
        let random = &mut counter.random;
        let v = ValueTree::random(6, 3 + random.below(12), Parts::Definitions, random);
        let v = value_with_parameterless(v, random);
        let (t, v) = (v.shape(random).draft(), v.draft());
        let [bad_v, bad_t] = [&v, &t].map(|draft| damaged_copies(draft, random));
        for bad in &bad_v {
            counter.damaged(0, &[bad, &t.bytes]);
        }
        for (place, bad) in bad_t.iter().enumerate() {
            counter.damaged(1, &[&v.bytes, bad]);
            counter.damaged(0, &[&bad_v[place % bad_v.len()], bad]);
        }
    }
    for t in refused_types() {
        for v in refused_values() {
            counter.damaged(0, &[&v, &t]);
            counter.damaged(0, &[&v, &[0x2D, 0, 0x22]]);
        }
        counter.damaged(1, &[&[0x0C, 0, 0, 0, 0x22], &t]);
        counter.damaged(1, &[&[0x00, 0], &t]);
    }
}

pub fn generate_values(options: &Options, counter: &mut Counter) {
    let times = (options.pairs / 6_000).max(1);
    for holder in HOLDERS {
        for value_way in ways(&VALUE_STEPS, 1) {
            for (way, end) in function_ways_of_two() {
                for _ in 0..times {
                    counter.add(Class::Two(holder, value_way, way, end));
                    let two = pair(&way, end, &mut counter.random);
                    let v = held(holder, two.map(|t| typed(&t, &mut counter.random)));
                    let (v, _) = at_end_of(&value_way, v, feel_cases::ANY, &mut counter.random);
                    put_value(&v, counter);
                }
            }
        }
    }
    for way in ways(&VALUE_STEPS, 2) {
        for leaf in OTHERS {
            for place in 0..2 {
                counter.add(Class::NoLeast(way, leaf[0]));
                let other = ValueTree::Leaf(leaf.to_vec());
                let function = Tree::of(&[0x2D, 0, 0x22]);
                let mut two = vec![typed(&function, &mut counter.random)];
                two.insert(place, other);
                let v = ValueTree::List(two);
                let (v, _) = at_end_of(&way, v, feel_cases::ANY, &mut counter.random);
                counter.case(&[&v.bytes()], &[]);
            }
        }
    }
    for step in STEPS {
        for level in LEVELS {
            for _ in 0..times {
                counter.add(Class::Deep(step, level, End::Equal));
                let (v, _) = deep(step, level, &mut counter.random);
                put_value(&v, counter);
            }
        }
    }
    long(counter);
    random_values(options.pairs / 2, counter);
    damaged_values((options.count / 100).max(2), counter);
}

/// A value with this type: a function definition, Null, or an empty list.
fn typed(t: &Tree, random: &mut Random) -> ValueTree {
    match t {
        Tree::Function(..) => definition(t, random).expect("a function type"),
        Tree::One(0x2A, _) => ValueTree::List(vec![]),
        _ => null(),
    }
}

/// The case of a value, with types near its own.
fn put_value(v: &ValueTree, counter: &mut Counter) {
    let random = &mut counter.random;
    let shape = v.shape(random);
    let others = MOVES.map(|how| near_result(&shape, how, random).bytes());
    let others = others.into_iter().chain([shape.bytes()]);
    let others: Vec<Vec<u8>> = others.collect();
    let others: Vec<&[u8]> = others.iter().map(|t| &t[..]).collect();
    counter.case(&[&v.bytes()], &others);
}

/// Lists of function definitions, 16,384 bytes: equal ones, and results that are beside each other;
/// and one byte more.
fn long(counter: &mut Counter) {
    let number: &[u8] = &[0x0C, 0, 0, 0, 0x22];
    let list = |items: &[&[u8]]| {
        let count = (items.len() as u16).to_le_bytes();
        [&[0x0A], &count[..], &items.concat()].concat()
    };
    // 3 bytes, 3,275 items of 5, and one of 6.
    let mut items = vec![number; 3_275];
    items.push(&[0x0C, 0, 0, 0, 0x2A, 0x22]);
    let beside = list(&items);
    items[3_275] = &[0x0C, 0, 0, 0, 0x2A, 0x2A, 0x22];
    let over = list(&items);
    items[3_275] = number;
    items[0] = &[0x0C, 0, 0, 0, 0x2A, 0x22];
    let first = list(&items);
    assert_eq!(beside.len(), MAX_LENGTH);
    assert_eq!(over.len(), MAX_LENGTH + 1);
    for (kind, v) in [beside, first, over].into_iter().enumerate() {
        for _ in 0..12 {
            counter.add(Class::Long(kind));
            counter.case(&[&v], &[]);
        }
    }
}

fn random_values(count: usize, counter: &mut Counter) {
    for _ in 0..count {
        let v = any_value(&mut counter.random);
        let other = near_value(&v, Parts::Definitions, &mut counter.random);
        let base = Tree::random(6, 2 + counter.random.below(12), &mut counter.random);
        let function = Tree::Function(vec![base.clone()], Box::new(base));
        let own = with_parameterless(function, &mut counter.random);
        let copies = 1 + counter.random.below(3);
        let mut items = vec![typed(&own, &mut counter.random)];
        for _ in 0..copies {
            let how = counter.random.pick(&MOVES);
            let copy = near_result(&own, how, &mut counter.random);
            items.push(typed(&copy, &mut counter.random));
        }
        let functions = ValueTree::List(items);
        for (kind, v) in [v, other, functions].iter().enumerate() {
            counter.add(Class::Random(kind));
            put_value(v, counter);
        }
    }
}

fn damaged_values(count: usize, counter: &mut Counter) {
    for _ in 0..count {
        let random = &mut counter.random;
        let v = ValueTree::random(6, 3 + random.below(12), Parts::Definitions, random);
        let v = value_with_parameterless(v, random);
        for bad in damaged_copies(&v.draft(), random) {
            counter.damaged(0, &[&bad]);
        }
    }
    for bad in refused_values() {
        counter.damaged(0, &[&bad]);
    }
}
