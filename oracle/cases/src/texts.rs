//! Tables of texts, and the parts of names.

use crate::{Draft, Random, Tree};
use std::collections::BTreeSet;

/// A table of these texts, well-formed or not, and where its counts and lengths stand.
pub fn table_of<T: AsRef<[u8]>>(texts: &[T]) -> Draft {
    texts_of(&(texts.len() as u16).to_le_bytes(), texts)
}

/// The parts of a name, and where their count and lengths stand.
pub fn parts_of<T: AsRef<[u8]>>(parts: &[T]) -> Draft {
    texts_of(&[parts.len() as u8], parts)
}

fn texts_of<T: AsRef<[u8]>>(count: &[u8], texts: &[T]) -> Draft {
    let mut draft = Draft {
        bytes: count.to_vec(),
        counts: vec![(0, count.len())],
        ..Draft::default()
    };
    for text in texts.iter().map(AsRef::as_ref) {
        draft.counts.push((draft.bytes.len(), 1));
        draft.bytes.push(text.len() as u8);
        draft.bytes.extend(text);
    }
    draft
}

/// Random texts of a table: few or some, short or up to 255 bytes, many with what stands in the text
/// of a type.
pub fn random_texts(random: &mut Random) -> Vec<Vec<u8>> {
    let count = match random.below(10) {
        0..6 => random.below(6),
        6..9 => random.below(30),
        _ => random.below(300),
    };
    let mut texts = BTreeSet::new();
    for _ in 0..count {
        texts.insert(random_text(random));
    }
    // A table has at most 16,384 bytes.
    let mut length = 2;
    texts.retain(|text: &Vec<u8>| {
        length += 1 + text.len();
        length <= 16_384
    });
    texts.into_iter().collect()
}

/// A random text: bytes 20 to 7E, neither first nor last 20.
fn random_text(random: &mut Random) -> Vec<u8> {
    let length = match random.below(20) {
        0 => 0,
        1..14 => 1 + random.below(6),
        14..19 => 1 + random.below(30),
        _ => 255 - random.below(3),
    };
    let few = b"ab :<>,-";
    let from_few = random.below(2) == 0;
    let mut text: Vec<u8> = (0..length)
        .map(|_| match from_few {
            true => random.pick(few),
            false => 0x20 + random.below(0x5F) as u8,
        })
        .collect();
    for end in [0, length.wrapping_sub(1)] {
        if text.get(end) == Some(&b' ') {
            text[end] = b'x';
        }
    }
    text
}

/// As many texts as a table of exactly this length may have: the empty one, all of one byte, and some
/// of two; the last makes up the length.
pub fn dense_texts(length: usize) -> Vec<Vec<u8>> {
    let mut texts = vec![vec![]];
    let mut rest = length - 3;
    'all: for first in 0x21..=0x7E {
        for text in [vec![first]]
            .into_iter()
            .chain((0x21..=0x7E).map(|second| vec![first, second]))
        {
            if rest < 10 {
                break 'all;
            }
            rest -= 1 + text.len();
            texts.push(text);
        }
    }
    texts.push(vec![0x7E; rest - 1]);
    texts
}

/// Texts of 255 bytes for a table of this length; the last makes it up.
pub fn long_texts(length: usize) -> Vec<Vec<u8>> {
    let mut texts = vec![];
    let mut rest = length - 2;
    while rest > 256 {
        let first = 0x21 + texts.len() as u8;
        texts.push([&[first], &[b'a'; 254][..]].concat());
        rest -= 256;
    }
    texts.push(vec![0x7E; rest - 1]);
    texts
}

/// The type with names below `count`; entries for which there is none are left out.
pub fn renamed(tree: &Tree, count: usize, random: &mut Random) -> Tree {
    match tree {
        Tree::Simple(command) => Tree::Simple(*command),
        Tree::One(command, inner) => Tree::One(*command, Box::new(renamed(inner, count, random))),
        Tree::Context(entries) => {
            let mut names = BTreeSet::new();
            while names.len() < entries.len().min(count) {
                names.insert(random.below(count) as u16);
            }
            let entry = |(name, (_, child)): (u16, &(u16, Tree))| {
                let child = renamed(child, count, random);
                (name, child)
            };
            Tree::Context(names.into_iter().zip(entries).map(entry).collect())
        }
        Tree::Function(parameters, result) => {
            let mut inside = |child: &Tree| renamed(child, count, random);
            let parameters = parameters.iter().map(&mut inside).collect();
            Tree::Function(parameters, Box::new(inside(result)))
        }
    }
}

#[cfg(test)]
mod tests {
    use super::*;

    #[test]
    fn tables_and_parts() {
        let table = table_of(&["a", "", "bc"]);
        assert_eq!(table.bytes, [3, 0, 1, b'a', 0, 2, b'b', b'c']);
        assert_eq!(table.counts, [(0, 2), (2, 1), (4, 1), (5, 1)]);
        assert_eq!(parts_of(&["a"]).bytes, [1, 1, b'a']);
        for length in [16_383, 16_384, 16_385] {
            for texts in [dense_texts(length), long_texts(length)] {
                assert_eq!(table_of(&texts).bytes.len(), length);
                assert!(texts.is_sorted_by(|a, b| a < b));
            }
        }
        assert!(dense_texts(16_384).len() > 5_400);
    }

    #[test]
    fn random_texts_ascend() {
        let mut random = Random::new(1);
        for _ in 0..500 {
            let texts = random_texts(&mut random);
            assert!(texts.is_sorted_by(|a, b| a < b));
            assert!(table_of(&texts).bytes.len() <= 16_384);
            let tree = renamed(&Tree::random(5, 20, &mut random), texts.len(), &mut random);
            assert_eq!(Tree::of(&tree.bytes()), tree);
        }
    }
}
