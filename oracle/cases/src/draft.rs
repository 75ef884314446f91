//! Random well-formed records.

use crate::{Kind, MAX_EXPONENT, Random};
use std::collections::BTreeSet;

/// A well-formed record, and where its names, counts and exponents stand.
#[derive(Debug, Clone, Default)]
pub struct Draft {
    pub bytes: Vec<u8>,
    /// For each context the places of its names.
    pub names: Vec<Vec<usize>>,
    /// The place and the width of each count.
    pub counts: Vec<(usize, usize)>,
    /// The place of the exponent of each decimal number.
    pub exponents: Vec<usize>,
}

/// A random record. Some are small, some large, some go exactly to a level from 29 to 33; its
/// length is free, so a large one may be over the limit.
pub fn random_draft(kind: Kind, random: &mut Random) -> Draft {
    let (levels, full, nodes) = match random.below(100) {
        0..55 => (1 + random.below(6), false, 1 + random.below(8)),
        55..75 => (2 + random.below(8), true, 5 + random.below(30)),
        75..95 => (29 + random.below(5), true, 30 + random.below(60)),
        95..99 => (4 + random.below(10), true, 200 + random.below(400)),
        _ => (3 + random.below(30), false, 2_000 + random.below(3_000)),
    };
    let mut maker = Maker {
        random,
        nodes,
        draft: Draft::default(),
    };
    match kind {
        Kind::Value => maker.value(levels, full),
        Kind::Type => maker.feel_type(levels, full),
    }
    maker.draft
}

/// The commands of values that may be without a child; the decimal number is the last.
const LEAVES: [u8; 14] = [
    0x00, 0x01, 0x02, 0x03, 0x04, 0x05, 0x06, 0x07, 0x08, 0x0A, 0x0B, 0x0D, 0x0F, 0x10,
];

struct Maker<'a> {
    random: &'a mut Random,
    /// How many more nodes are wanted; the rest are leaves.
    nodes: usize,
    draft: Draft,
}

impl Maker<'_> {
    /// A value of at most this level, and if it is to be full, of exactly this level.
    fn value(&mut self, levels: usize, full: bool) {
        let full = full && levels > 1;
        let command = match self.shape(levels, full) {
            Shape::Parent => self
                .random
                .pick(&[0x09, 0x0A, 0x0A, 0x0B, 0x0B, 0x0C, 0x0E]),
            Shape::Leaf => {
                let whole = LEAVES.len() - 1;
                let all = if self.random.has_decimals() {
                    &LEAVES[..]
                } else {
                    &LEAVES[..whole]
                };
                self.random.pick(all)
            }
        };
        self.draft.bytes.push(command);
        match command {
            0x00 => self.below(4),
            0x01 => self.below(2),
            0x03 => self.name_or_text(),
            0x02 | 0x04..=0x08 => self.key(),
            0x09 => {
                self.below(4);
                self.below(4);
                let deep = self.deep_child(2, full);
                for place in 0..2 {
                    self.value_below(levels, deep == Some(place));
                }
            }
            0x0A => {
                let count = self.count(levels, full, usize::from(u16::MAX));
                self.put_count(count, 2);
                let deep = self.deep_child(count, full);
                for place in 0..count {
                    self.value_below(levels, deep == Some(place));
                }
            }
            0x0B => {
                let names = self.context_names(levels, full);
                let deep = self.deep_child(names.len(), full);
                let mut places = vec![];
                for (place, name) in names.into_iter().enumerate() {
                    places.push(self.draft.bytes.len());
                    self.draft.bytes.extend(name.to_le_bytes());
                    self.value_below(levels, deep == Some(place));
                }
                self.draft.names.push(places);
            }
            0x0C => {
                let count = self.count(levels, false, 255);
                self.put_count(count, 1);
                self.name_or_text();
                let deep = self.deep_child(1 + count, full);
                self.type_below(levels, deep == Some(0));
                for place in 0..count {
                    self.name_or_text();
                    self.type_below(levels, deep == Some(1 + place));
                }
            }
            0x0D => self.below(86),
            0x0E => self.type_below(levels, full),
            0x10 => {
                self.key();
                self.draft.exponents.push(self.draft.bytes.len());
                self.below(usize::from(MAX_EXPONENT) + 1);
            }
            _ => {}
        }
    }

    /// A type of at most this level, and if it is to be full, of exactly this level.
    fn feel_type(&mut self, levels: usize, full: bool) {
        let full = full && levels > 1;
        let command = match self.shape(levels, full) {
            Shape::Parent => self.random.pick(&[0x2A, 0x2B, 0x2C, 0x2C, 0x2D, 0x2D]),
            Shape::Leaf => self.random.pick(&[
                0x20, 0x21, 0x22, 0x23, 0x24, 0x25, 0x26, 0x27, 0x28, 0x29, 0x2C,
            ]),
        };
        self.draft.bytes.push(command);
        match command {
            0x2A | 0x2B => self.type_below(levels, full),
            0x2C => {
                let names = self.context_names(levels, full);
                let deep = self.deep_child(names.len(), full);
                let mut places = vec![];
                for (place, name) in names.into_iter().enumerate() {
                    places.push(self.draft.bytes.len());
                    self.draft.bytes.extend(name.to_le_bytes());
                    self.type_below(levels, deep == Some(place));
                }
                self.draft.names.push(places);
            }
            0x2D => {
                let count = self.count(levels, false, 255);
                self.put_count(count, 1);
                let deep = self.deep_child(1 + count, full);
                for place in 0..=count {
                    self.type_below(levels, deep == Some(place));
                }
            }
            _ => {}
        }
    }

    fn value_below(&mut self, levels: usize, full: bool) {
        let levels = self.levels_below(levels, full);
        self.value(levels, full);
    }

    fn type_below(&mut self, levels: usize, full: bool) {
        let levels = self.levels_below(levels, full);
        self.feel_type(levels, full);
    }

    /// The levels for a child of a parent with `levels`.
    fn levels_below(&mut self, levels: usize, full: bool) -> usize {
        if full {
            levels - 1
        } else {
            1 + self.random.below(levels - 1)
        }
    }

    fn shape(&mut self, levels: usize, full: bool) -> Shape {
        self.nodes = self.nodes.saturating_sub(1);
        let parent_fits = levels > 1 && self.nodes > 0;
        if full || (parent_fits && self.random.below(3) > 0) {
            Shape::Parent
        } else {
            Shape::Leaf
        }
    }

    /// How many children; at least 1 for a full parent.
    fn count(&mut self, levels: usize, full: bool, most: usize) -> usize {
        let wanted = match self.random.below(10) {
            0 => 1 + self.nodes,
            1..4 => self.random.below(8),
            _ => self.random.below(4),
        };
        if levels == 1 {
            0
        } else {
            wanted.min(self.nodes).min(most).max(usize::from(full))
        }
    }

    /// The count and the names of a context, strictly ascending.
    fn context_names(&mut self, levels: usize, full: bool) -> BTreeSet<u16> {
        let count = self.count(levels, full, usize::from(u16::MAX));
        let mut names = BTreeSet::new();
        while names.len() < count {
            names.insert(self.number());
        }
        self.put_count(count, 2);
        names
    }

    /// Which of the children is to be full.
    fn deep_child(&mut self, count: usize, full: bool) -> Option<usize> {
        full.then(|| self.random.below(count))
    }

    /// A 16-bit number: small, at the change of its high byte, at the end, or any.
    fn number(&mut self) -> u16 {
        match self.random.below(6) {
            0 | 1 => self.random.below(12) as u16,
            2 => 0x00FC + self.random.below(8) as u16,
            3 => 0xFFF8 + self.random.below(8) as u16,
            _ => self.random.bits() as u16,
        }
    }

    fn put_count(&mut self, count: usize, width: usize) {
        self.draft.counts.push((self.draft.bytes.len(), width));
        self.draft.bytes.extend(&count.to_le_bytes()[..width]);
    }

    fn name_or_text(&mut self) {
        let number = self.number();
        self.draft.bytes.extend(number.to_le_bytes());
    }

    fn key(&mut self) {
        let any = self.random.bits() as i64;
        let key = self.random.pick(&[0, 1, -1, i64::MIN, i64::MAX, any, any]);
        self.draft.bytes.extend(key.to_le_bytes());
    }

    fn below(&mut self, bound: usize) {
        let operand = self.random.below(bound) as u8;
        self.draft.bytes.push(operand);
    }
}

/// Whether the next node is to have children.
enum Shape {
    Parent,
    Leaf,
}
