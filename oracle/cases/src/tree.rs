//! Types as trees, to be changed in parts.

use crate::{Draft, Random};

/// A type.
#[derive(Debug, Clone, PartialEq, Eq)]
pub enum Tree {
    /// One of the commands 20 to 29.
    Simple(u8),
    /// List or Range, 2A or 2B.
    One(u8, Box<Tree>),
    /// The names ascend strictly.
    Context(Vec<(u16, Tree)>),
    /// The parameters and the result.
    Function(Vec<Tree>, Box<Tree>),
}

/// Any.
pub const ANY: Tree = Tree::Simple(0x20);

/// Null.
pub const NULL: Tree = Tree::Simple(0x29);

impl Tree {
    /// The type that well-formed bytes spell.
    pub fn of(bytes: &[u8]) -> Tree {
        Tree::take(&mut bytes.iter().copied())
    }

    fn take(bytes: &mut impl Iterator<Item = u8>) -> Tree {
        let command = bytes.next().expect("a command");
        let mut operand = || bytes.next().expect("an operand");
        match command {
            0x2A | 0x2B => Tree::One(command, Box::new(Tree::take(bytes))),
            0x2C => {
                let count = u16::from_le_bytes([operand(), operand()]);
                let mut entries = vec![];
                for _ in 0..count {
                    let mut operand = || bytes.next().expect("a name");
                    let name = u16::from_le_bytes([operand(), operand()]);
                    entries.push((name, Tree::take(bytes)));
                }
                Tree::Context(entries)
            }
            0x2D => {
                let count = operand();
                let parameters = (0..count).map(|_| Tree::take(bytes)).collect();
                Tree::Function(parameters, Box::new(Tree::take(bytes)))
            }
            simple => Tree::Simple(simple),
        }
    }

    /// A random type with about this many nodes, and of at most this level.
    pub fn random(levels: usize, nodes: usize, random: &mut Random) -> Tree {
        if levels <= 1 || nodes <= 1 {
            return match random.below(12) {
                0 => Tree::Context(vec![]),
                1 | 2 => ANY,
                3 => NULL,
                _ => Tree::Simple(0x20 + random.below(10) as u8),
            };
        }
        let children = |count: usize, random: &mut Random| {
            let nodes = (nodes - 1).div_ceil(count.max(1));
            let child = |_| Tree::random(levels - 1, 1 + random.below(2 * nodes), random);
            (0..count).map(child).collect::<Vec<Tree>>()
        };
        match random.below(6) {
            0 | 1 => {
                let mut inner = children(1, random);
                Tree::One(random.pick(&[0x2A, 0x2B]), Box::new(inner.remove(0)))
            }
            2 | 3 => {
                // Of a large type some contexts have many names, beyond one byte's count.
                let count = random.below(6).min(nodes) + nodes / random.pick(&[50, 50, 5]);
                let entries = children(count, random);
                Tree::Context(names(count, random).into_iter().zip(entries).collect())
            }
            _ => {
                let count = random.below(4) + nodes / 200;
                let mut parameters = children(1 + count.min(255), random);
                let result = parameters.remove(0);
                Tree::Function(parameters, Box::new(result))
            }
        }
    }

    /// A random type: many small, some deep with a level from 30 to 32, a few large.
    pub fn random_of_any_size(random: &mut Random) -> Tree {
        match random.below(1_000) {
            0..600 => Tree::random(5, 1 + random.below(10), random),
            600..850 => Tree::random(8, 5 + random.below(30), random),
            850..970 => {
                let mut tree = Tree::random(4, 1 + random.below(6), random);
                let level = 30 + random.below(3);
                while tree.level() < level {
                    tree = tree.wrapped(random);
                }
                tree
            }
            970..997 => Tree::random(12, 100 + random.below(200), random),
            _ => Tree::random(20, 1_000 + random.below(3_000), random),
        }
    }

    /// A parent around the tree, one level higher.
    fn wrapped(self, random: &mut Random) -> Tree {
        let other = Tree::random(2, 1 + random.below(2), random);
        match random.below(6) {
            0 => Tree::One(0x2A, Box::new(self)),
            1 => Tree::One(0x2B, Box::new(self)),
            2 => Tree::Context(vec![(random.below(4) as u16, self)]),
            3 => {
                let names = names(2, random);
                Tree::Context(vec![(names[0], other), (names[1], self)])
            }
            4 => Tree::Function(vec![self], Box::new(other)),
            _ => Tree::Function(vec![other], Box::new(self)),
        }
    }

    /// A leaf has level 1, a parent one more than its deepest child.
    pub fn level(&self) -> usize {
        let below = match self {
            Tree::Simple(_) => None,
            Tree::One(_, inner) => Some(inner.level()),
            Tree::Context(entries) => entries.iter().map(|(_, child)| child.level()).max(),
            Tree::Function(parameters, result) => {
                parameters.iter().chain([&**result]).map(Tree::level).max()
            }
        };
        1 + below.unwrap_or(0)
    }

    /// The bytes.
    pub fn bytes(&self) -> Vec<u8> {
        self.draft().bytes
    }

    /// The bytes, and where names and counts stand.
    pub fn draft(&self) -> Draft {
        let mut draft = Draft::default();
        self.put(&mut draft);
        draft
    }

    pub(crate) fn put(&self, draft: &mut Draft) {
        match self {
            Tree::Simple(command) => draft.bytes.push(*command),
            Tree::One(command, inner) => {
                draft.bytes.push(*command);
                inner.put(draft);
            }
            Tree::Context(entries) => {
                draft.bytes.push(0x2C);
                draft.counts.push((draft.bytes.len(), 2));
                draft.bytes.extend((entries.len() as u16).to_le_bytes());
                let mut places = vec![];
                for (name, child) in entries {
                    places.push(draft.bytes.len());
                    draft.bytes.extend(name.to_le_bytes());
                    child.put(draft);
                }
                draft.names.push(places);
            }
            Tree::Function(parameters, result) => {
                draft.bytes.push(0x2D);
                draft.counts.push((draft.bytes.len(), 1));
                draft.bytes.push(parameters.len() as u8);
                for child in parameters.iter().chain([&**result]) {
                    child.put(draft);
                }
            }
        }
    }
}

/// Strictly ascending names, close to each other: from 0 on, or across the change of the high byte.
fn names(count: usize, random: &mut Random) -> Vec<u16> {
    let mut next = random.pick(&[0, 0, 0, 0x00FC]);
    let mut names = vec![];
    for _ in 0..count {
        next += random.below(3) as u16;
        names.push(next);
        next += 1;
    }
    names
}

#[cfg(test)]
mod tests {
    use super::*;

    #[test]
    fn bytes_and_places() {
        let context = Tree::Context(vec![(1, ANY), (0x0102, NULL)]);
        let tree = Tree::Function(vec![context], Box::new(Tree::One(0x2A, Box::new(ANY))));
        let draft = tree.draft();
        let bytes = [0x2D, 1, 0x2C, 2, 0, 1, 0, 0x20, 2, 1, 0x29, 0x2A, 0x20];
        assert_eq!(draft.bytes, bytes);
        assert_eq!(draft.names, [[5, 8]]);
        assert_eq!(draft.counts, [(1, 1), (3, 2)]);
        assert_eq!(tree.level(), 3);
        assert_eq!(Tree::of(&bytes), tree);
    }

    #[test]
    fn deep_and_large_types_occur() {
        let mut random = Random::new(1);
        let trees: Vec<Tree> = (0..2_000)
            .map(|_| Tree::random_of_any_size(&mut random))
            .collect();
        assert!(trees.iter().any(|tree| tree.level() == 32));
        assert!(trees.iter().all(|tree| tree.level() <= 32));
        assert!(trees.iter().any(|tree| tree.bytes().len() > 5_000));
        assert!(trees.iter().all(|tree| Tree::of(&tree.bytes()) == *tree));
    }
}
