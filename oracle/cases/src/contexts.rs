//! Contexts with contexts inside, and paths into them.

use crate::value_tree::names;
use crate::{Parts, Random, ValueTree};

/// A random context: many small, some deep with a level from 29 to 31, a few large. Many entries are
/// contexts too.
pub fn random_context(random: &mut Random) -> ValueTree {
    match random.below(1_000) {
        0..650 => context(5, 1 + random.below(12), random),
        650..880 => context(8, 5 + random.below(30), random),
        880..985 => {
            let mut tree = context(4, 1 + random.below(6), random);
            let level = 29 + random.below(3);
            while tree.level() < level {
                tree = around(tree, random);
            }
            tree
        }
        985..998 => context(12, 100 + random.below(200), random),
        _ => context(20, 500 + random.below(500), random),
    }
}

/// A context with about this many nodes, and of at most this level.
fn context(levels: usize, nodes: usize, random: &mut Random) -> ValueTree {
    let count = random.below(5).min(nodes) + nodes / random.pick(&[100, 30, 10]);
    let size = (nodes - 1).div_ceil(count.max(1));
    let names = names(count, random);
    let entry = |name| {
        let child = if levels > 2 && random.below(3) > 0 {
            context(levels - 1, size.max(1), random)
        } else {
            ValueTree::random(levels.max(2) - 1, size, Parts::All, random)
        };
        (name, child)
    };
    ValueTree::Context(names.into_iter().map(entry).collect())
}

/// A context around the tree, alone or beside another entry.
fn around(tree: ValueTree, random: &mut Random) -> ValueTree {
    let other = ValueTree::random(3, 1 + random.below(3), Parts::All, random);
    match random.below(4) {
        0 | 1 => ValueTree::Context(vec![(random.below(4) as u16, tree)]),
        2 => ValueTree::Context(vec![(1, other), (0x0100, tree)]),
        _ => ValueTree::Context(vec![(0x00FF, tree), (0xFFFF, other)]),
    }
}

/// A random path: to an entry at any depth, to a name that is not there, or past the end of what can
/// be followed; seldom empty.
pub fn random_path(tree: &ValueTree, random: &mut Random) -> Vec<u16> {
    let mut path = vec![];
    let mut here = Some(tree);
    let stop = random.pick(&[2, 5, 1_000]);
    if random.below(50) == 0 {
        return path;
    }
    loop {
        here = match here {
            Some(ValueTree::Context(entries)) if !entries.is_empty() => {
                let mut place = random.below(entries.len());
                if random.below(3) > 0 {
                    // A context rather than another value.
                    let is_context = |(_, child): &_| matches!(child, ValueTree::Context(_));
                    place = entries.iter().position(is_context).unwrap_or(place);
                }
                let (name, child) = &entries[place];
                if random.below(8) > 0 {
                    path.push(*name);
                    Some(child)
                } else {
                    path.push(other_name(*name, random));
                    None
                }
            }
            _ => {
                path.push(random.below(4) as u16);
                None
            }
        };
        let goes_on = matches!(here, Some(ValueTree::Context(_)));
        if random.below(if goes_on { stop } else { 2 }) == 0 {
            return path;
        }
    }
}

/// A name near this one, or its bytes swapped, or one of the ends.
fn other_name(name: u16, random: &mut Random) -> u16 {
    match random.below(5) {
        0 | 1 => name.wrapping_add(1),
        2 => name.wrapping_sub(1),
        3 => name.swap_bytes(),
        _ => random.pick(&[0, 0xFFFF]),
    }
}

/// Contexts inside each other, each with this one name; `count` of them around the value.
pub fn context_chain(name: u16, count: usize, v: &[u8]) -> Vec<u8> {
    let [low, high] = name.to_le_bytes();
    [&[0x0B, 1, 0, low, high].repeat(count), v].concat()
}

/// A list of exactly `length` bytes, at least 3, of Irrelevant.
pub fn filled_list(length: usize) -> Vec<u8> {
    let items = length - 3;
    let [low, high] = (items as u16).to_le_bytes();
    [&[0x0A, low, high], &[0x0F].repeat(items)[..]].concat()
}

#[cfg(test)]
mod tests {
    use super::*;

    #[test]
    fn contexts_of_every_size_occur() {
        let mut random = Random::new(1);
        let trees: Vec<ValueTree> = (0..3_000).map(|_| random_context(&mut random)).collect();
        assert!(trees.iter().all(|tree| tree.bytes()[0] == 0x0B));
        assert!(trees.iter().all(|tree| tree.level() <= 31));
        assert!(trees.iter().any(|tree| tree.level() == 31));
        assert!(trees.iter().any(|tree| tree.bytes() == [0x0B, 0, 0]));
        assert!(trees.iter().any(|tree| tree.bytes().len() > 3_000));
    }

    #[test]
    fn paths_of_every_kind_occur() {
        let leaf = ValueTree::Leaf(vec![0x0F]);
        let inner = ValueTree::Context(vec![(7, leaf.clone())]);
        let tree = ValueTree::Context(vec![(1, inner), (5, leaf)]);
        let mut random = Random::new(1);
        let paths: Vec<Vec<u16>> = (0..2_000)
            .map(|_| random_path(&tree, &mut random))
            .collect();
        let expected: [&[u16]; 7] = [&[], &[1], &[5], &[1, 7], &[2], &[5, 1], &[1, 7, 0, 3]];
        for path in expected {
            assert!(paths.iter().any(|other| other == path), "{path:?}");
        }
    }

    #[test]
    fn chains_and_lists() {
        assert_eq!(
            context_chain(0x0102, 2, &[0x0F]),
            [0x0B, 1, 0, 2, 1, 0x0B, 1, 0, 2, 1, 0x0F]
        );
        assert_eq!(context_chain(1, 0, &[0x00, 1]), [0x00, 1]);
        assert_eq!(filled_list(3), [0x0A, 0, 0]);
        assert_eq!(filled_list(300).len(), 300);
        assert_eq!(filled_list(300)[..4], [0x0A, 41, 1, 0x0F]);
    }
}
