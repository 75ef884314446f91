//! The random records, as bytes. Each set has about 200,000 bytes and is the same in every run. Their
//! numbers are whole, so that they are those of the tables before there were decimals, and an earlier
//! library may be asked; decimals have rows of their own, and stand in the week.

use crate::ours::{Both, One, both, one, two};
use compare::library::{feel_check_type, feel_check_value, feel_type_is_conformant};
use feel_cases::{ANY, Kind, Move, Parts, Random, Tree, ValueTree, decimal, near, random_draft};
use feel_form::calls;

/// The bytes of the first arguments of a set, about.
pub const SET: usize = 200_000;

/// The random numbers of a set.
pub fn random() -> Random {
    Random::new(7).without_decimals()
}

/// Whether the earlier library reads decimals; yes where none is linked.
pub fn are_decimals_known() -> bool {
    let Both { before, .. } = both!(feel_check_value as One);
    before.is_none_or(|before| one(before, &decimal(25, 1)) >> 32 == 0)
}

/// Both functions, the earlier one only if it reads decimals.
pub fn for_decimals<F>(function: Both<F>) -> Both<F> {
    Both {
        before: function.before.filter(|_| are_decimals_known()),
        ..function
    }
}

/// Accepted records of these lengths, of any kind.
pub fn records(kind: Kind, least: usize, most: usize) -> Vec<Vec<u8>> {
    chosen_records(kind, least, most, |_| true)
}

/// Accepted ranges of these lengths.
pub fn ranges(least: usize, most: usize) -> Vec<Vec<u8>> {
    chosen_records(Kind::Value, least, most, |record| record[0] == 0x09)
}

fn chosen_records(
    kind: Kind,
    least: usize,
    most: usize,
    is_chosen: fn(&[u8]) -> bool,
) -> Vec<Vec<u8>> {
    let mut random = random();
    let mut records = vec![];
    let mut bytes = 0;
    while bytes < SET {
        let record = random_draft(kind, &mut random).bytes;
        let fits = (least..=most).contains(&record.len()) && is_chosen(&record);
        if fits && accepts(kind, &record) {
            bytes += record.len();
            records.push(record);
        }
    }
    records
}

/// Whether the library accepts a record.
pub fn accepts(kind: Kind, record: &[u8]) -> bool {
    let check = match kind {
        Kind::Value => feel_check_value,
        Kind::Type => feel_check_type,
    };
    one(check, record) >> 32 == 0
}

/// Data of these lengths: contexts whose entries are lists of equal records, with the names 0, 1, 2.
pub fn values(least: usize, most: usize) -> Vec<Vec<u8>> {
    named_values(least, most, 1)
}

/// The same with names at this distance.
pub fn named_values(least: usize, most: usize, step: u16) -> Vec<Vec<u8>> {
    let mut random = random();
    let mut values = vec![];
    let mut bytes = 0;
    while bytes < SET {
        let mut entries = vec![];
        let mut v = vec![];
        while v.len() < least {
            let record = record(&mut random);
            // Short beside what the length may vary, so that the last one fits.
            let copies = 1 + (most - least) / 2 / record.bytes().len();
            let list = ValueTree::List(vec![record; copies]);
            entries.push((step * entries.len() as u16, list));
            v = ValueTree::Context(entries.clone()).bytes();
        }
        if v.len() <= most {
            bytes += v.len();
            values.push(v);
        }
    }
    values
}

/// A small record with no Any in its least type, so that every part of it counts.
fn record(random: &mut Random) -> ValueTree {
    loop {
        let tree = ValueTree::random(4, 1 + random.below(10), Parts::Data, random);
        if !holds_any(&Tree::of(&own_type(&tree.bytes()))) {
            return tree;
        }
    }
}

/// The least type of data.
pub fn own_type(v: &[u8]) -> Vec<u8> {
    calls::value_least_type(v, usize::MAX, usize::MAX).expect("data")
}

/// Whether Any stands in the type of a value.
fn holds_any(tree: &Tree) -> bool {
    match tree {
        Tree::One(_, inner) => holds_any(inner),
        Tree::Context(entries) => entries.iter().any(|(_, child)| holds_any(child)),
        other => *other == ANY,
    }
}

/// Accepted types of these lengths, each with one near it to which it conforms and which is not
/// much shorter. Every function has a parameter, so that its result counts.
pub fn pairs(least: usize, most: usize) -> Vec<[Vec<u8>; 2]> {
    let mut random = random();
    let mut pairs = vec![];
    let mut bytes = 0;
    while bytes < SET {
        let tree = with_parameters(Tree::random(20, most / 3, &mut random));
        let a = tree.bytes();
        if !(least..=most).contains(&a.len()) {
            continue;
        }
        let b = near(&tree, Move::Up, &mut random).bytes();
        let is_close = b != a && 10 * b.len() >= 8 * a.len();
        if is_close && two(feel_type_is_conformant, &a, &b) == 1 {
            bytes += a.len();
            pairs.push([a, b]);
        }
    }
    pairs
}

/// The type, with a parameter for each parameterless function.
fn with_parameters(tree: Tree) -> Tree {
    let inside = |child: Box<Tree>| Box::new(with_parameters(*child));
    match tree {
        Tree::Simple(_) => tree,
        Tree::One(command, inner) => Tree::One(command, inside(inner)),
        Tree::Context(entries) => {
            let entry = |(name, child)| (name, with_parameters(child));
            Tree::Context(entries.into_iter().map(entry).collect())
        }
        Tree::Function(parameters, result) if parameters.is_empty() => {
            Tree::Function(vec![ANY], inside(result))
        }
        Tree::Function(parameters, result) => {
            let parameters = parameters.into_iter().map(with_parameters).collect();
            Tree::Function(parameters, inside(result))
        }
    }
}
