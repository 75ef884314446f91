//! Values as trees, to be changed in parts.

use crate::decimals::{is_number, near_number, random_decimal};
use crate::{ANY, Draft, Move, NULL, Random, Tree, near};

/// A value.
#[derive(Debug, Clone, PartialEq, Eq)]
pub enum ValueTree {
    /// Commands 00 to 08, 0D, 0F and 10 with their operands.
    Leaf(Vec<u8>),
    /// Both interval bytes, both ends.
    Range([u8; 2], Box<[ValueTree; 2]>),
    List(Vec<ValueTree>),
    /// The names ascend strictly.
    Context(Vec<(u16, ValueTree)>),
    /// The body's number, the parameters and the result.
    Definition(u16, Vec<(u16, Tree)>, Tree),
    /// Command 0E.
    Type(Tree),
}

/// What may stand in a value.
#[derive(Debug, Clone, Copy, PartialEq, Eq)]
pub enum Parts {
    /// Data alone, commands 00 to 0B and 10.
    Data,
    /// Data and function definitions.
    Definitions,
    /// Function definitions, built-in functions, types and Irrelevant too.
    All,
}

/// Null without a trace.
pub fn null() -> ValueTree {
    ValueTree::Leaf(vec![0x00, 0])
}

impl ValueTree {
    /// A random value with about this many nodes, and of at most this level. The items of a list
    /// are like each other or mixed, some Null; the ends of a range too.
    pub fn random(levels: usize, nodes: usize, parts: Parts, random: &mut Random) -> ValueTree {
        if levels <= 1 || nodes <= 1 {
            return leaf(parts, random);
        }
        let kinds = match parts {
            Parts::Data => 8,
            Parts::Definitions => 10,
            Parts::All => 11,
        };
        match random.below(kinds) {
            0 | 1 => {
                let start = child(levels, nodes / 2, parts, random);
                let end = match random.below(6) {
                    0 => null(),
                    1 => start.clone(),
                    2 | 3 => near_value(&start, parts, random),
                    _ => child(levels, nodes / 2, parts, random),
                };
                let ends = match random.below(2) {
                    0 => [start, end],
                    _ => [end, start],
                };
                let interval = [0; 2].map(|_| random.below(4) as u8);
                ValueTree::Range(interval, Box::new(ends))
            }
            2..=5 => ValueTree::List(items(levels, nodes, parts, random)),
            6 | 7 => {
                let count = random.below(5).min(nodes) + nodes / random.pick(&[100, 100, 10]);
                let names = names(count, random);
                let size = (nodes - 1).div_ceil(count.max(1));
                let entry = |name| (name, child(levels, size, parts, random));
                ValueTree::Context(names.into_iter().map(entry).collect())
            }
            8 | 9 => {
                let count = random.below(4) + nodes / 200;
                let mut type_below = || {
                    let nodes = 1 + random.below(4);
                    Tree::random(levels - 1, nodes, random)
                };
                let types: Vec<Tree> = (0..count.min(255)).map(|_| type_below()).collect();
                let result = type_below();
                let parameter = |t| (random.below(4) as u16, t);
                let parameters = types.into_iter().map(parameter).collect();
                ValueTree::Definition(random.bits() as u16, parameters, result)
            }
            _ => ValueTree::Type(Tree::random(levels - 1, nodes.min(8), random)),
        }
    }

    /// A random value: many small, some deep with a level from 29 to 31, a few large.
    pub fn random_of_any_size(parts: Parts, random: &mut Random) -> ValueTree {
        match random.below(1_000) {
            0..600 => ValueTree::random(5, 1 + random.below(12), parts, random),
            600..850 => ValueTree::random(8, 5 + random.below(30), parts, random),
            850..970 => {
                let mut tree = ValueTree::random(4, 1 + random.below(6), parts, random);
                let level = 29 + random.below(3);
                while tree.level() < level {
                    tree = tree.wrapped(parts, random);
                }
                tree
            }
            970..997 => ValueTree::random(12, 100 + random.below(200), parts, random),
            _ => ValueTree::random(20, 500 + random.below(1_000), parts, random),
        }
    }

    /// A parent around the tree, one level higher.
    fn wrapped(self, parts: Parts, random: &mut Random) -> ValueTree {
        let other = match random.below(3) {
            0 => null(),
            1 => ValueTree::List(vec![]),
            _ => leaf(parts, random),
        };
        match random.below(8) {
            0 | 1 => ValueTree::List(vec![self]),
            2 => ValueTree::List(vec![other, self]),
            3 => ValueTree::List(vec![self, other]),
            4 => ValueTree::Range([0, 2], Box::new([self, other])),
            5 => ValueTree::Range([3, 1], Box::new([other, self])),
            6 => ValueTree::Context(vec![(random.below(4) as u16, self)]),
            _ => ValueTree::Context(vec![(1, other), (0x0100, self)]),
        }
    }

    /// A type that the parts of the value have: of a list one item's, of a range one end's.
    pub fn shape(&self, random: &mut Random) -> Tree {
        match self {
            ValueTree::Leaf(bytes) => match bytes[0] {
                0x00 => NULL,
                command @ 0x01..=0x08 => Tree::Simple(0x20 + command),
                0x10 => Tree::Simple(0x22),
                _ => ANY,
            },
            ValueTree::Range(_, ends) => {
                let end = &ends[random.below(2)];
                Tree::One(0x2B, Box::new(end.shape(random)))
            }
            ValueTree::List(items) => {
                let inner = match items.len() {
                    0 => NULL,
                    count => items[random.below(count)].shape(random),
                };
                Tree::One(0x2A, Box::new(inner))
            }
            ValueTree::Context(entries) => {
                let entry = |(name, child): &(u16, ValueTree)| (*name, child.shape(random));
                Tree::Context(entries.iter().map(entry).collect())
            }
            ValueTree::Definition(_, parameters, result) => {
                let parameters = parameters.iter().map(|(_, t)| t.clone()).collect();
                Tree::Function(parameters, Box::new(result.clone()))
            }
            ValueTree::Type(t) => t.clone(),
        }
    }

    /// A leaf has level 1, a parent one more than its deepest child, types counted.
    pub fn level(&self) -> usize {
        let below = match self {
            ValueTree::Leaf(_) => None,
            ValueTree::Range(_, ends) => ends.iter().map(ValueTree::level).max(),
            ValueTree::List(items) => items.iter().map(ValueTree::level).max(),
            ValueTree::Context(entries) => entries.iter().map(|(_, child)| child.level()).max(),
            ValueTree::Definition(_, parameters, result) => {
                let types = parameters.iter().map(|(_, t)| t);
                types.chain([result]).map(Tree::level).max()
            }
            ValueTree::Type(t) => Some(t.level()),
        };
        1 + below.unwrap_or(0)
    }

    /// The bytes.
    pub fn bytes(&self) -> Vec<u8> {
        self.draft().bytes
    }

    /// The bytes, and where names and counts stand.
    pub fn draft(&self) -> Draft {
        let mut draft = Draft::default();
        self.put(&mut draft);
        draft
    }

    fn put(&self, draft: &mut Draft) {
        match self {
            ValueTree::Leaf(bytes) => {
                draft.bytes.extend(bytes);
                if bytes[0] == 0x10 {
                    draft.exponents.push(draft.bytes.len() - 1);
                }
            }
            ValueTree::Range(interval, ends) => {
                draft.bytes.push(0x09);
                draft.bytes.extend(interval);
                ends.iter().for_each(|end| end.put(draft));
            }
            ValueTree::List(items) => {
                put_command_and_count(0x0A, items.len(), draft);
                items.iter().for_each(|item| item.put(draft));
            }
            ValueTree::Context(entries) => {
                put_command_and_count(0x0B, entries.len(), draft);
                let mut places = vec![];
                for (name, child) in entries {
                    places.push(draft.bytes.len());
                    draft.bytes.extend(name.to_le_bytes());
                    child.put(draft);
                }
                draft.names.push(places);
            }
            ValueTree::Definition(body, parameters, result) => {
                draft.bytes.push(0x0C);
                draft.counts.push((draft.bytes.len(), 1));
                draft.bytes.push(parameters.len() as u8);
                draft.bytes.extend(body.to_le_bytes());
                result.put(draft);
                for (name, t) in parameters {
                    draft.bytes.extend(name.to_le_bytes());
                    t.put(draft);
                }
            }
            ValueTree::Type(t) => {
                draft.bytes.push(0x0E);
                t.put(draft);
            }
        }
    }
}

/// A copy with one to three parts changed, each at a random depth: a leaf to another or to Null, a
/// number to one near it, items dropped or added, names dropped, added or changed, a level more or
/// less.
pub fn near_value(tree: &ValueTree, parts: Parts, random: &mut Random) -> ValueTree {
    let mut copy = tree.clone();
    let stop = random.pick(&[2, 4, 1_000]);
    for _ in 0..1 + random.below(3) {
        change(&mut copy, stop, parts, random);
    }
    copy
}

/// Goes down into random children, stops before each with one chance in `stop`, and changes the
/// part there.
fn change(tree: &mut ValueTree, stop: usize, parts: Parts, random: &mut Random) {
    if random.below(stop) == 0 {
        return change_here(tree, parts, random);
    }
    match tree {
        ValueTree::Range(_, ends) => change(&mut ends[random.below(2)], stop, parts, random),
        ValueTree::List(items) if !items.is_empty() => {
            let place = random.below(items.len());
            change(&mut items[place], stop, parts, random);
        }
        ValueTree::Context(entries) if !entries.is_empty() => {
            let place = random.below(entries.len());
            change(&mut entries[place].1, stop, parts, random);
        }
        other => change_here(other, parts, random),
    }
}

fn change_here(tree: &mut ValueTree, parts: Parts, random: &mut Random) {
    let kind = random.below(8);
    match tree {
        _ if kind == 0 => *tree = null(),
        _ if kind == 1 => *tree = ValueTree::List(vec![tree.clone()]),
        ValueTree::Leaf(_) if kind < 4 => *tree = ValueTree::random(3, 4, parts, random),
        ValueTree::Leaf(bytes) if kind < 6 && is_number(bytes) && random.has_decimals() => {
            *bytes = near_number(bytes, random);
        }
        ValueTree::Leaf(_) => *tree = leaf(parts, random),
        ValueTree::Range(interval, ends) => match kind {
            2 | 3 => ends.swap(0, 1),
            4 => ends[random.below(2)] = null(),
            5 => ends[0] = ends[1].clone(),
            6 => *tree = ends[0].clone(),
            _ => interval[random.below(2)] ^= 1,
        },
        ValueTree::List(items) => match kind {
            2 if !items.is_empty() => {
                items.remove(random.below(items.len()));
            }
            3 if !items.is_empty() => {
                let copy = items[random.below(items.len())].clone();
                items.push(copy);
            }
            4 if !items.is_empty() => *tree = items[0].clone(),
            5 => items.clear(),
            _ => put_null(items, random),
        },
        ValueTree::Context(entries) => match kind {
            2 | 3 if !entries.is_empty() => {
                entries.remove(random.below(entries.len()));
            }
            4 | 5 => add_entry(entries, parts, random),
            6 if !entries.is_empty() => {
                let (_, child) = entries.remove(random.below(entries.len()));
                add_entry(entries, parts, random);
                if let Some(last) = entries.last_mut() {
                    last.1 = child;
                }
            }
            _ => *tree = leaf(parts, random),
        },
        ValueTree::Definition(_, parameters, result) => match kind {
            2 if !parameters.is_empty() => {
                parameters.remove(random.below(parameters.len()));
            }
            3 if parameters.len() < 255 => parameters.push((0, ANY)),
            4 | 5 => *result = near(result, Move::Free, random),
            _ => {
                for (_, t) in parameters {
                    *t = near(t, Move::Free, random);
                }
            }
        },
        ValueTree::Type(t) => *t = near(t, Move::Free, random),
    }
}

/// Null among the items: first, last or between.
fn put_null(items: &mut Vec<ValueTree>, random: &mut Random) {
    let middle = random.below(items.len() + 1);
    let place = random.pick(&[0, items.len(), middle]);
    items.insert(place, ValueTree::Leaf(vec![0x00, random.below(4) as u8]));
}

/// Adds an entry under a small name that is not there.
fn add_entry(entries: &mut Vec<(u16, ValueTree)>, parts: Parts, random: &mut Random) {
    let name = random.pick(&[0, 1, 2, 3, 4, 5, 0x00FF, 0x0100, 0xFFFF]);
    if let Err(place) = entries.binary_search_by_key(&name, |(name, _)| *name) {
        entries.insert(place, (name, leaf(parts, random)));
    }
}

/// The items of a list: like the first, or mixed; at times with Null among them.
fn items(levels: usize, nodes: usize, parts: Parts, random: &mut Random) -> Vec<ValueTree> {
    let count = random.below(5).min(nodes) + nodes / random.pick(&[50, 50, 5]);
    let size = (nodes - 1).div_ceil(count.max(1));
    let mut items: Vec<ValueTree> = vec![];
    let alike = random.below(3) > 0;
    for _ in 0..count {
        let item = match items.first() {
            Some(first) if alike => match random.below(3) {
                0 => near_value(first, parts, random),
                _ => first.clone(),
            },
            _ => child(levels, size, parts, random),
        };
        items.push(item);
    }
    if random.below(3) == 0 {
        put_null(&mut items, random);
    }
    // What was changed may have grown.
    items.retain(|item| item.level() < levels);
    items
}

fn child(levels: usize, nodes: usize, parts: Parts, random: &mut Random) -> ValueTree {
    let child = ValueTree::random(
        levels - 1,
        1 + random.below(2 * nodes.max(1)),
        parts,
        random,
    );
    if child.level() < levels {
        child
    } else {
        null()
    }
}

fn leaf(parts: Parts, random: &mut Random) -> ValueTree {
    let key = |command: u8, random: &mut Random| {
        let key = random.pick(&[0, 1, -1, i64::MIN, i64::MAX]);
        [&[command], &key.to_le_bytes()[..]].concat()
    };
    let kinds = match parts {
        Parts::Data | Parts::Definitions => 12,
        Parts::All => 16,
    };
    let bytes = match random.below(kinds) {
        0 | 1 => vec![0x00, random.below(4) as u8],
        2 => vec![0x01, random.below(2) as u8],
        4 if random.has_decimals() => random_decimal(random),
        3 | 4 => key(0x02, random),
        5 => vec![0x03, random.byte(), random.below(2) as u8],
        6..9 => key(0x04 + random.below(5) as u8, random),
        9 | 10 => return ValueTree::List(vec![]),
        11 => return ValueTree::Context(vec![]),
        12 | 13 => vec![0x0D, random.below(86) as u8],
        _ => vec![0x0F],
    };
    ValueTree::Leaf(bytes)
}

/// Strictly ascending names, close to each other: from 0 on, or across the change of the high byte.
pub(crate) fn names(count: usize, random: &mut Random) -> Vec<u16> {
    let mut next = random.pick(&[0, 0, 0, 0x00FC]);
    let mut names = vec![];
    for _ in 0..count {
        next += random.below(2) as u16;
        names.push(next);
        next += 1;
    }
    names
}

fn put_command_and_count(command: u8, count: usize, draft: &mut Draft) {
    draft.bytes.push(command);
    draft.counts.push((draft.bytes.len(), 2));
    draft.bytes.extend((count as u16).to_le_bytes());
}

#[cfg(test)]
mod tests {
    use super::*;
    use crate::{Kind, random_draft};

    #[test]
    fn bytes_and_places() {
        let range = ValueTree::Range([2, 1], Box::new([null(), ValueTree::Type(ANY)]));
        let definition = ValueTree::Definition(0x0102, vec![(7, NULL), (7, ANY)], ANY);
        let context = ValueTree::Context(vec![(1, range), (0x0102, definition)]);
        let tree = ValueTree::List(vec![context]);
        let draft = tree.draft();
        let bytes = [
            0x0A, 1, 0, 0x0B, 2, 0, 1, 0, 0x09, 2, 1, 0x00, 0, 0x0E, 0x20, 2, 1, 0x0C, 2, 2, 1,
            0x20, 7, 0, 0x29, 7, 0, 0x20,
        ];
        assert_eq!(draft.bytes, bytes);
        assert_eq!(draft.names, [[6, 15]]);
        assert_eq!(draft.counts, [(1, 2), (4, 2), (18, 1)]);
        assert_eq!(tree.level(), 5);
        let shape = [
            0x2A, 0x2C, 2, 0, 1, 0, 0x2B, 0x20, 2, 1, 0x2D, 2, 0x29, 0x20, 0x20,
        ];
        let mut random = Random::new(1);
        let shapes: Vec<Vec<u8>> = (0..20).map(|_| tree.shape(&mut random).bytes()).collect();
        assert!(shapes.contains(&shape.to_vec()));
    }

    #[test]
    fn deep_and_large_values_occur() {
        let mut random = Random::new(1);
        for parts in [Parts::Data, Parts::All] {
            let trees: Vec<ValueTree> = (0..2_000)
                .map(|_| ValueTree::random_of_any_size(parts, &mut random))
                .collect();
            assert!(trees.iter().any(|tree| tree.level() == 31));
            assert!(trees.iter().all(|tree| tree.level() <= 31));
            assert!(trees.iter().any(|tree| tree.bytes().len() > 5_000));
        }
    }

    #[test]
    fn values_may_have_whole_numbers_alone() {
        let any_decimals = |mut random: Random| {
            let mut drafts = 0;
            for _ in 0..500 {
                let tree = ValueTree::random_of_any_size(Parts::All, &mut random);
                let near = near_value(&tree, Parts::All, &mut random);
                let draft = random_draft(Kind::Value, &mut random);
                for draft in [tree.draft(), near.draft(), draft] {
                    drafts += usize::from(!draft.exponents.is_empty());
                }
            }
            drafts
        };
        assert_eq!(any_decimals(Random::new(3).without_decimals()), 0);
        let with = any_decimals(Random::new(3));
        assert!(with > 100, "{with}");
    }

    #[test]
    fn every_change_occurs() {
        let mut random = Random::new(2);
        let number = ValueTree::Leaf(vec![0x01, 1]);
        let tree = ValueTree::Context(vec![(1, ValueTree::List(vec![number.clone()]))]);
        let copies: Vec<Vec<u8>> = (0..20_000)
            .map(|_| near_value(&tree, Parts::Data, &mut random).bytes())
            .collect();
        let expected: [&[u8]; 8] = [
            &[0x00, 0],
            &[0x0B, 0, 0],
            &[0x0A, 1, 0, 0x0B, 1, 0, 1, 0, 0x0A, 1, 0, 0x01, 1],
            &[0x0B, 1, 0, 1, 0, 0x01, 1],
            &[0x0B, 1, 0, 1, 0, 0x0A, 0, 0],
            &[0x0B, 1, 0, 1, 0, 0x0A, 2, 0, 0x00, 0, 0x01, 1],
            &[0x0B, 1, 0, 1, 0, 0x0A, 2, 0, 0x01, 1, 0x00, 0],
            &[0x0B, 1, 0, 0xFF, 0xFF, 0x0A, 1, 0, 0x01, 1],
        ];
        for bytes in expected {
            assert!(copies.iter().any(|copy| copy == bytes), "{bytes:02X?}");
        }
    }
}
