//! The cases of the calls over a table, a value and a type, and over a table and a value.

use super::Counter;
use super::classes::{Class, Classes, PLACES, Place, RELATIONS, Relation};
use super::types::{MOVES, two_classes};
use crate::call::Options;
use crate::strict::{ValueWay, damaged_copies, ways};
use crate::value_cases::{refused_types, refused_values};
use feel_cases::{
    HOLDERS, Holder, Move, Parts, Random, TABLE_FAULTS, TABLE_SHAPES, Tree, VALUE_STEPS, ValueTree,
    decimal, each_data_chain, faulty_table, held, long_data, near_leaves, near_simple, near_value,
    shaped_table, value_around, value_of,
};
use feel_form::calls::table_value_least_type;
use feel_form::{MAX_LENGTH, MAX_VALUE_LEVEL};

/// How many sorts of random records there are, and of long ones.
const RANDOM_PAIRS: usize = 3;
const RANDOM: usize = 2;
const LONG: usize = 3;

/// The most values of simple kinds in one list.
const MIXED: usize = 8;

/// Values that conform to Any alone.
const OTHERS: [&[u8]; 5] = [
    &[0x0D, 0],
    &[0x0D, 67],
    &[0x0E, 0x2D, 0, 0x22],
    &[0x0E, 0x24],
    &[0x0F],
];

const TARGETS: [&[u8]; 5] = [&[0x20], &[0x29], &[0x22], &[0x26], &[0x2D, 1, 0x22, 0x22]];

/// Values without a least type.
const NO_LEAST: [&[u8]; 5] = [
    &[0x0C, 0, 0, 0, 0x22],
    &[0x0C, 1, 0, 0, 0x24, 7, 0, 0x26],
    &[0x0D, 0],
    &[0x0E, 0x22],
    &[0x0F],
];

/// How a value of a simple kind may stand to a type: none has the type Any.
fn of_values() -> Vec<Relation> {
    let no_value = [Relation::AnyFirst, Relation::OtherFirst];
    let mut all = RELATIONS.to_vec();
    all.retain(|relation| !no_value.contains(relation));
    all
}

/// How two values of simple kinds may stand to each other.
const OF_TWO: [Relation; 6] = [
    Relation::Equal,
    Relation::Below,
    Relation::Above,
    Relation::Beside,
    Relation::NullFirst,
    Relation::NullSecond,
];

/// The value at the end of a way into another one, and the type beside it.
fn at_end_of(way: &ValueWay, v: ValueTree, t: Tree, random: &mut Random) -> (ValueTree, Tree) {
    let steps = way.iter().flatten().rev();
    steps.fold((v, t), |(v, t), step| value_around(*step, v, t, random))
}

/// A value of a simple type.
fn leaf(t: &Tree, random: &mut Random) -> ValueTree {
    match t {
        Tree::Simple(t) => value_of(*t, random),
        _ => panic!("no simple type"),
    }
}

pub fn classes_of_pairs() -> Classes {
    let mut leaves = vec![];
    for way in ways(&VALUE_STEPS, 2) {
        leaves.extend(of_values().into_iter().map(|r| Class::Leaf(way, r)));
    }
    let mut definitions = vec![];
    let mut others = vec![];
    for way in ways(&VALUE_STEPS, 1) {
        for place in PLACES {
            definitions.extend(RELATIONS.map(|r| Class::Definition(way, place, r)));
        }
        for v in [0x0D, 0x0E, 0x0F] {
            others.extend([0x20, 0x29, 0x22, 0x26, 0x2D].map(|t| Class::Other(way, v, t)));
        }
    }
    let mut two = two_classes(0x20);
    two.retain(|class| !matches!(class, Class::Two(_, 0x20, _)));
    vec![
        ("a value of each simple kind beside each simple type", two),
        ("the way to a value of a simple kind, and its type", leaves),
        (
            "a function definition, and a simple type in it",
            definitions,
        ),
        ("a built-in function, a type or Irrelevant", others),
        (
            "random values beside types near theirs by the table",
            (0..RANDOM_PAIRS).map(Class::Random).collect(),
        ),
        (
            "values of 16,384 bytes and around",
            (0..LONG).map(Class::Long).collect(),
        ),
        ("a record damaged", [1, 2].map(Class::Damaged).to_vec()),
    ]
}

pub fn classes_of_values() -> Classes {
    let mut both = vec![];
    for holder in HOLDERS {
        for way in ways(&VALUE_STEPS, 1) {
            both.extend(OF_TWO.map(|r| Class::Held(holder, way, r)));
        }
    }
    let mut no_least = vec![];
    for way in ways(&VALUE_STEPS, 2) {
        no_least.extend([0x0C, 0x0D, 0x0E, 0x0F].map(|v| Class::NoLeast(way, v)));
    }
    vec![
        ("each two simple kinds in one list", two_classes(0x21)),
        (
            "two values of simple kinds in one, at the end of a way",
            both,
        ),
        (
            "lists of values of simple kinds, by their length",
            (3..=MIXED).map(Class::Mixed).collect(),
        ),
        ("a part without a least type", no_least),
        ("random values", (0..RANDOM).map(Class::Random).collect()),
        (
            "values of 16,384 bytes and around",
            (0..LONG).map(Class::Long).collect(),
        ),
        ("the value damaged", vec![Class::Damaged(1)]),
    ]
}

pub fn generate_pairs(options: &Options, counter: &mut Counter) {
    let times = (options.pairs / 2_000).max(1);
    for shape in TABLE_SHAPES {
        for _ in 0..times.div_ceil(2) {
            let table = shaped_table(shape, &mut counter.random);
            for a in 0x21..0x2A {
                for b in 0x20..0x2A {
                    counter.add(Class::Two(shape, a, b));
                    counter.add(Class::Shape(shape));
                    let v = value_of(a, &mut counter.random);
                    put_pair(&table, &v, &Tree::Simple(b), None, counter);
                }
            }
        }
    }
    for way in ways(&VALUE_STEPS, 2) {
        for relation in of_values() {
            for _ in 0..times {
                let (shape, table, [a, b]) = relation.pair(&mut counter.random);
                let v = leaf(&a, &mut counter.random);
                let (v, t) = at_end_of(&way, v, b, &mut counter.random);
                counter.add(Class::Leaf(way, relation));
                counter.add(Class::Shape(shape));
                put_pair(&table, &v, &t, Some(relation.conforms()[0]), counter);
            }
        }
    }
    for way in ways(&VALUE_STEPS, 1) {
        for place in PLACES {
            for relation in RELATIONS {
                for _ in 0..times {
                    definitions(&way, place, relation, counter);
                }
            }
        }
        for v in OTHERS {
            for t in TARGETS {
                counter.add(Class::Other(way, v[0], t[0]));
                let leaf = ValueTree::Leaf(v.to_vec());
                let (v, tree) = at_end_of(&way, leaf, Tree::of(t), &mut counter.random);
                let table = counter.table();
                put_pair(&table, &v, &tree, None, counter);
            }
        }
    }
    random_pairs(options.pairs, counter);
    limits(counter, |table, v, random, counter| {
        let t = match random.below(3) {
            0 => vec![0x20],
            1 => vec![0x2A, 0x26],
            _ => least(table, v).unwrap_or(vec![0x29]),
        };
        counter.case(&[table, v, &t], &[]);
    });
    faulty_pairs(times.max(4), counter);
    damaged_pairs((options.count / 100).max(2), counter);
}

/// A function definition and a function type with two simple types at this place. The parameters of a
/// definition are not turned; its result counts always, that of a parameterless function inside does
/// not.
fn definitions(way: &ValueWay, place: Place, relation: Relation, counter: &mut Counter) {
    let (shape, table, [a, b]) = relation.pair(&mut counter.random);
    let random = &mut counter.random;
    let function =
        |parameters: Vec<Tree>, result: Tree| Tree::Function(parameters, Box::new(result));
    let same = Tree::Simple(0x20 + random.below(10) as u8);
    let name = random.below(5) as u16;
    let body = random.bits() as u16;
    let define = |parameters: Vec<Tree>, result: Tree| {
        let parameters = parameters.into_iter().map(|t| (name, t)).collect();
        ValueTree::Definition(body, parameters, result)
    };
    let (v, t) = match place {
        Place::Parameter => (
            define(vec![same.clone(), a], same.clone()),
            function(vec![same.clone(), b], same),
        ),
        Place::Result => (define(vec![same.clone()], a), function(vec![same], b)),
        Place::LoneResult => (define(vec![], a), function(vec![], b)),
        Place::Inside => (
            define(vec![], function(vec![], a)),
            function(vec![], function(vec![], b)),
        ),
    };
    let due = place == Place::Inside || relation.conforms()[0];
    let (v, t) = at_end_of(way, v, t, random);
    counter.add(Class::Definition(*way, place, relation));
    counter.add(Class::Shape(shape));
    put_pair(&table, &v, &t, Some(due), counter);
}

/// The case of a value and a type, with others near it by the table.
fn put_pair(table: &[u8], v: &ValueTree, t: &Tree, due: Option<bool>, counter: &mut Counter) {
    let others = MOVES.map(|how| near_simple(t, table, how, &mut counter.random).bytes());
    let others: Vec<&[u8]> = others.iter().map(|t| &t[..]).collect();
    counter.made(&[table, &v.bytes(), &t.bytes()], &others, due);
}

fn least(table: &[u8], v: &[u8]) -> Option<Vec<u8>> {
    table_value_least_type(table, v, usize::MAX, usize::MAX).ok()
}

fn random_pairs(count: usize, counter: &mut Counter) {
    for number in 0..count {
        let table = counter.table();
        let random = &mut counter.random;
        let parts = [Parts::Data, Parts::Definitions, Parts::Data, Parts::All][number % 4];
        let v = ValueTree::random_of_any_size(parts, random);
        let v = near_leaves(&v, &table, Move::Free, random);
        let shape = v.shape(random);
        let own = least(&table, &v.bytes()).map_or(shape.clone(), |t| Tree::of(&t));
        let other = match random.below(4) {
            0 => near_value(&v, parts, random),
            1 => near_leaves(&v, &table, random.pick(&MOVES), random),
            _ => near_leaves(&v, &table, Move::Down, random),
        };
        let near_shape = near_simple(&shape, &table, random.pick(&MOVES), random);
        let near_own = near_simple(&own, &table, random.pick(&MOVES), random);
        for (kind, v, t) in [(0, &v, &near_shape), (1, &v, &near_own), (2, &other, &own)] {
            counter.add(Class::Random(kind));
            put_pair(&table, v, t, None, counter);
        }
    }
}

/// Values at the limits of level and length.
fn limits(counter: &mut Counter, put: fn(&[u8], &[u8], &mut Random, &mut Counter)) {
    let mut random = Random::new(counter.random.bits());
    let mut chains = vec![];
    each_data_chain(MAX_VALUE_LEVEL..=MAX_VALUE_LEVEL + 1, &mut |v| {
        chains.push(v.to_vec())
    });
    for v in chains {
        let table = counter.table();
        put(&table, &v, &mut random, counter);
    }
    for (kind, length) in (MAX_LENGTH - 1..=MAX_LENGTH + 1).enumerate() {
        let mixed = mixed(length, &mut random);
        for v in long_data(length).into_iter().chain([mixed]) {
            counter.add(Class::Long(kind));
            let table = counter.table();
            put(&table, &v, &mut random, counter);
        }
    }
}

/// A list of dates, times and durations of so many bytes.
fn mixed(length: usize, random: &mut Random) -> Vec<u8> {
    let mut items = vec![];
    let mut count = 0;
    let rest = length - 3;
    // Booleans fill up: two bytes for what nine of the others leave over, three for an odd rest.
    while rest - items.len() >= 9 + 9 {
        let command = random.pick(&[0x02, 0x04, 0x05, 0x06, 0x07, 0x08]);
        items.extend([command]);
        items.extend(random.bits().to_le_bytes());
        count += 1;
    }
    while items.len() < rest {
        let left = rest - items.len();
        match left {
            3 => items.extend([0x03, 1, 0]),
            _ => items.extend([0x01, 1]),
        }
        count += 1;
    }
    [&[0x0A], &u16::to_le_bytes(count)[..], &items].concat()
}

/// Tables with each fault, beside records that are accepted and records that are not.
fn faulty_pairs(times: usize, counter: &mut Counter) {
    let (bad_values, bad_types) = (refused_values(), refused_types());
    for fault in TABLE_FAULTS {
        for number in 0..times {
            let table = faulty_table(fault, &mut counter.random);
            let random = &mut counter.random;
            let v = ValueTree::random(4, 1 + random.below(6), Parts::All, random);
            let t = v.shape(random).bytes();
            let v = v.bytes();
            let bad_v = &bad_values[number % bad_values.len()];
            let bad_t = &bad_types[number % bad_types.len()];
            for two in [[&v, &t], [bad_v, &t], [&v, bad_t]] {
                counter.add(Class::Fault(fault));
                counter.refused(&[&table, two[0], two[1]], fault.refusal());
            }
        }
    }
}

fn damaged_pairs(count: usize, counter: &mut Counter) {
    for _ in 0..count {
        let table = counter.table();
        let random = &mut counter.random;
        let v = ValueTree::random(6, 3 + random.below(12), Parts::Definitions, random);
        let (t, v) = (v.shape(random).draft(), v.draft());
        let [bad_v, bad_t] = [&v, &t].map(|draft| damaged_copies(draft, random));
        for bad in &bad_v {
            counter.damaged(1, &[&table, bad, &t.bytes]);
        }
        for (place, bad) in bad_t.iter().enumerate() {
            counter.damaged(2, &[&table, &v.bytes, bad]);
            counter.damaged(1, &[&table, &bad_v[place % bad_v.len()], bad]);
        }
        for bad in refused_types() {
            counter.damaged(2, &[&table, &v.bytes, &bad]);
        }
    }
    for t in refused_types() {
        for v in refused_values() {
            let table = counter.table();
            counter.damaged(1, &[&table, &v, &t]);
            counter.damaged(1, &[&table, &v, &[0x26]]);
        }
        let table = counter.table();
        counter.damaged(2, &[&table, &decimal(25, 1), &t]);
        counter.damaged(2, &[&table, &[0x00, 0], &t]);
    }
}

pub fn generate_values(options: &Options, counter: &mut Counter) {
    let times = (options.pairs / 2_000).max(1);
    for shape in TABLE_SHAPES {
        for _ in 0..times.div_ceil(2) {
            let table = shaped_table(shape, &mut counter.random);
            for a in 0x21..0x2A {
                for b in 0x21..0x2A {
                    counter.add(Class::Two(shape, a, b));
                    counter.add(Class::Shape(shape));
                    let two = [a, b].map(|t| value_of(t, &mut counter.random));
                    put_value(&table, &held(Holder::List, two), counter);
                }
            }
        }
    }
    for holder in HOLDERS {
        for way in ways(&VALUE_STEPS, 1) {
            for relation in OF_TWO {
                for _ in 0..times {
                    let (shape, table, two) = relation.pair(&mut counter.random);
                    let random = &mut counter.random;
                    let v = held(holder, two.map(|t| leaf(&t, random)));
                    let (v, _) = at_end_of(&way, v, feel_cases::ANY, random);
                    counter.add(Class::Held(holder, way, relation));
                    counter.add(Class::Shape(shape));
                    put_value(&table, &v, counter);
                }
            }
        }
    }
    for count in 3..=MIXED {
        for _ in 0..20 * times {
            mixed_list(count, counter);
        }
    }
    for way in ways(&VALUE_STEPS, 2) {
        for leaf in NO_LEAST {
            counter.add(Class::NoLeast(way, leaf[0]));
            let table = counter.table();
            let random = &mut counter.random;
            let mut items = vec![value_of(0x24, random), value_of(0x26, random)];
            items.insert(random.below(3), ValueTree::Leaf(leaf.to_vec()));
            let (v, _) = at_end_of(&way, ValueTree::List(items), feel_cases::ANY, random);
            counter.case(&[&table, &v.bytes()], &[]);
        }
    }
    random_values(options.pairs, counter);
    limits(counter, |table, v, _, counter| {
        counter.case(&[table, v], &[])
    });
    faulty_values(times.max(4), counter);
    damaged_values((options.count / 100).max(2), counter);
}

/// Values of simple kinds in one list, each in a context of its own at times, all kinds or those of few
/// types.
fn mixed_list(count: usize, counter: &mut Counter) {
    let table = counter.table();
    let random = &mut counter.random;
    let few: Vec<u8> = (0..2 + random.below(3))
        .map(|_| 0x21 + random.below(9) as u8)
        .collect();
    let in_contexts = random.below(3) == 0;
    let item = |_| {
        let item = value_of(random.pick(&few), random);
        match in_contexts {
            true => {
                let other = value_of(random.pick(&few), random);
                ValueTree::Context(vec![(1, item), (7, other)])
            }
            false => item,
        }
    };
    let v = ValueTree::List((0..count).map(item).collect());
    counter.add(Class::Mixed(count));
    put_value(&table, &v, counter);
}

/// The case of a value, with types near its own by the table.
fn put_value(table: &[u8], v: &ValueTree, counter: &mut Counter) {
    let random = &mut counter.random;
    let shape = v.shape(random);
    let mut others = MOVES
        .map(|how| near_simple(&shape, table, how, random).bytes())
        .to_vec();
    others.push(shape.bytes());
    if let Some(least) = least(table, &v.bytes()) {
        let how = random.pick(&MOVES);
        others.push(near_simple(&Tree::of(&least), table, how, random).bytes());
    }
    let others: Vec<&[u8]> = others.iter().map(|t| &t[..]).collect();
    counter.case(&[table, &v.bytes()], &others);
}

fn random_values(count: usize, counter: &mut Counter) {
    for number in 0..count {
        let table = counter.table();
        let random = &mut counter.random;
        let parts = match number % 8 {
            0 => Parts::All,
            _ => Parts::Data,
        };
        let v = ValueTree::random_of_any_size(parts, random);
        let near = near_leaves(&v, &table, random.pick(&MOVES), random);
        for (kind, v) in [v, near].iter().enumerate() {
            counter.add(Class::Random(kind));
            put_value(&table, v, counter);
        }
    }
}

fn faulty_values(times: usize, counter: &mut Counter) {
    let bad_values = refused_values();
    for fault in TABLE_FAULTS {
        for number in 0..times {
            let table = faulty_table(fault, &mut counter.random);
            let random = &mut counter.random;
            let v = ValueTree::random(4, 1 + random.below(6), Parts::All, random).bytes();
            let bad = &bad_values[number % bad_values.len()];
            for v in [&v, bad] {
                counter.add(Class::Fault(fault));
                counter.refused(&[&table, v], fault.refusal());
            }
        }
    }
}

fn damaged_values(count: usize, counter: &mut Counter) {
    for _ in 0..count {
        let table = counter.table();
        let random = &mut counter.random;
        let v = ValueTree::random(6, 3 + random.below(12), Parts::Data, random);
        for bad in damaged_copies(&v.draft(), random) {
            counter.damaged(1, &[&table, &bad]);
        }
    }
    for bad in refused_values() {
        let table = counter.table();
        counter.damaged(1, &[&table, &bad]);
    }
}

#[cfg(test)]
mod tests {
    use super::*;
    use feel_form::read_value;

    #[test]
    fn long_lists_have_their_length() {
        let mut random = Random::new(1);
        for length in MAX_LENGTH - 1..=MAX_LENGTH + 1 {
            assert_eq!(mixed(length, &mut random).len(), length);
        }
        assert!(read_value(&mixed(MAX_LENGTH, &mut random)).is_ok());
    }
}
