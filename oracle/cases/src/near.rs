//! Types near a given one: copies with parts widened, narrowed or changed.

use crate::{ANY, NULL, Random, Tree};

/// Where a changed copy stands beside its original.
#[derive(Debug, Clone, Copy, PartialEq, Eq)]
pub enum Move {
    /// The original conforms to the copy: parts widened to Any, names dropped, in a function's
    /// parameters the other way.
    Up,
    /// The copy conforms to the original: parts narrowed to Null, names added, in a function's
    /// parameters the other way.
    Down,
    /// Anything.
    Free,
}

impl Move {
    pub(crate) fn turned(self) -> Move {
        match self {
            Move::Up => Move::Down,
            Move::Down => Move::Up,
            Move::Free => Move::Free,
        }
    }
}

/// A copy with one to three parts changed, at times twenty, each at a random depth.
pub fn near(tree: &Tree, how: Move, random: &mut Random) -> Tree {
    let mut copy = tree.clone();
    let changes = match random.below(20) {
        0 => 20,
        _ => 1 + random.below(3),
    };
    let stop = random.pick(&[2, 4, 16, 1_000]);
    for _ in 0..changes {
        change(&mut copy, how, stop, random);
    }
    copy
}

/// Goes down into random children, stops before each with one chance in `stop`, and changes the
/// part there.
fn change(tree: &mut Tree, how: Move, stop: usize, random: &mut Random) {
    if random.below(stop) == 0 {
        return change_here(tree, how, random);
    }
    match tree {
        Tree::One(_, inner) => change(inner, how, stop, random),
        Tree::Context(entries) if !entries.is_empty() => {
            let place = random.below(entries.len());
            change(&mut entries[place].1, how, stop, random);
        }
        Tree::Function(parameters, result) => {
            let place = random.below(parameters.len() + 1);
            let no_parameters = parameters.is_empty();
            match parameters.get_mut(place) {
                Some(parameter) => change(parameter, how.turned(), stop, random),
                None if no_parameters => change(result, Move::Free, stop, random),
                None => change(result, how, stop, random),
            }
        }
        leaf => change_here(leaf, how, random),
    }
}

fn change_here(tree: &mut Tree, how: Move, random: &mut Random) {
    match how {
        Move::Up => match tree {
            Tree::Context(entries) if !entries.is_empty() => drop_name(entries, random),
            Tree::Simple(0x29) => *tree = small(random),
            _ => *tree = ANY,
        },
        Move::Down => match tree {
            Tree::Context(entries) => add_name(entries, random),
            Tree::Simple(0x20) => *tree = small(random),
            _ => *tree = NULL,
        },
        Move::Free => change_freely(tree, random),
    }
}

fn change_freely(tree: &mut Tree, random: &mut Random) {
    let kind = random.below(8);
    match tree {
        Tree::One(command, inner) => match kind {
            0..4 => *command ^= 1,
            4 => *tree = Tree::clone(inner),
            _ => *tree = small(random),
        },
        Tree::Context(entries) if !entries.is_empty() => match kind {
            0 | 1 => drop_name(entries, random),
            2 | 3 => add_name(entries, random),
            4 | 5 => {
                drop_name(entries, random);
                add_name(entries, random);
            }
            _ => *tree = small(random),
        },
        Tree::Function(parameters, result) => match kind {
            0 | 1 if parameters.len() > 1 => {
                let places = [0; 2].map(|_| random.below(parameters.len()));
                parameters.swap(places[0], places[1]);
            }
            2 if !parameters.is_empty() => {
                parameters.remove(random.below(parameters.len()));
            }
            3 => parameters.clear(),
            4 if parameters.len() < 255 => {
                parameters.insert(random.below(parameters.len() + 1), small(random));
            }
            5 => **result = small(random),
            _ => *tree = small(random),
        },
        leaf => match kind {
            0 => *leaf = Tree::One(0x2A, Box::new(leaf.clone())),
            1 => *leaf = Tree::Context(vec![(random.below(4) as u16, leaf.clone())]),
            2 => *leaf = ANY,
            3 => *leaf = NULL,
            _ => *leaf = Tree::Simple(0x20 + random.below(10) as u8),
        },
    }
}

/// Two contexts or two lists that are made of a type, with few differences, and those at the
/// first level: a part of the first is Null or changed, a name is missing in one of them.
pub fn instances(part: Tree, random: &mut Random) -> [Tree; 2] {
    let mut entries = match part {
        Tree::Context(entries) => entries,
        other if random.below(4) == 0 => {
            let inner = match random.below(3) {
                0 => other.clone(),
                1 => ANY,
                _ => near(&other, Move::Free, random),
            };
            return [other, inner].map(|inner| Tree::One(0x2A, Box::new(inner)));
        }
        other => vec![(random.below(4) as u16, other)],
    };
    let mut other_entries = entries.clone();
    for (_, part) in &mut entries {
        match random.below(8) {
            0 | 1 => *part = NULL,
            2 if random.below(4) == 0 => *part = near(part, Move::Free, random),
            _ => {}
        }
    }
    match random.below(8) {
        0..3 => add_name(&mut entries, random),
        3 => add_name(&mut other_entries, random),
        4 if other_entries.len() > 1 => drop_name(&mut other_entries, random),
        _ => {}
    }
    [entries, other_entries].map(Tree::Context)
}

fn small(random: &mut Random) -> Tree {
    Tree::random(3, 1 + random.below(5), random)
}

fn drop_name(entries: &mut Vec<(u16, Tree)>, random: &mut Random) {
    entries.remove(random.below(entries.len()));
}

/// Adds an entry under a name that is not there: a small one, or one beside another entry's.
fn add_name(entries: &mut Vec<(u16, Tree)>, random: &mut Random) {
    let beside = match entries.len() {
        0 => 0,
        count => entries[random.below(count)].0.wrapping_add(1),
    };
    let small_name = random.below(6) as u16;
    let name = random.pick(&[beside, beside, small_name, 0xFFFF]);
    if let Err(place) = entries.binary_search_by_key(&name, |(name, _)| *name) {
        entries.insert(place, (name, small(random)));
    }
}

#[cfg(test)]
mod tests {
    use super::*;

    /// function<context<1: number, 2: list<string>>, number>->number
    fn original() -> Tree {
        let number = Tree::Simple(0x22);
        let list = Tree::One(0x2A, Box::new(Tree::Simple(0x23)));
        let context = Tree::Context(vec![(1, number.clone()), (2, list)]);
        Tree::Function(vec![context, number.clone()], Box::new(number))
    }

    #[test]
    fn every_change_occurs() {
        let mut random = Random::new(1);
        let copies: Vec<Vec<u8>> = (0..20_000)
            .map(|_| near(&original(), Move::Free, &mut random).bytes())
            .collect();
        let context = [0x2C, 2, 0, 1, 0, 0x22, 2, 0, 0x2A, 0x23];
        let expected = [
            vec![0x20],
            vec![0x29],
            [&[0x2D, 2, 0x22], &context[..], &[0x22]].concat(),
            [&[0x2D, 1], &context[..], &[0x22]].concat(),
            vec![0x2D, 0, 0x22],
            [&[0x2D, 2], &context[..], &[0x22, 0x23]].concat(),
            [&[0x2D, 2], &context[..], &[0x20, 0x22]].concat(),
            [&[0x2D, 2], &context[..], &[0x29, 0x22]].concat(),
            vec![0x2D, 2, 0x2C, 1, 0, 1, 0, 0x22, 0x22, 0x22],
            vec![
                0x2D, 2, 0x2C, 2, 0, 1, 0, 0x22, 2, 0, 0x2B, 0x23, 0x22, 0x22,
            ],
        ];
        for bytes in expected {
            assert!(copies.contains(&bytes), "{bytes:02X?}");
        }
        let added = |bytes: &&Vec<u8>| bytes.len() > 4 && bytes[2..5] == [0x2C, 3, 0];
        assert!(copies.iter().find(added).is_some());
    }

    #[test]
    fn names_stay_ascending() {
        let mut random = Random::new(2);
        for _ in 0..5_000 {
            let mut entries = vec![(0, ANY), (7, ANY), (0xFFFE, ANY)];
            add_name(&mut entries, &mut random);
            assert!(entries.windows(2).all(|two| two[0].0 < two[1].0));
        }
    }
}
