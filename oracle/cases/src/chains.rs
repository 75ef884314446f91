//! Records whose deepest child stands at a chosen level, one parent inside the other.

use crate::{Each, Kind};

/// One parent around one deep child: the bytes before the child and after it.
#[derive(Debug, Clone, Copy)]
pub struct Wrapper {
    pub before: &'static [u8],
    pub after: &'static [u8],
}

const fn wrapper(before: &'static [u8], after: &'static [u8]) -> Wrapper {
    Wrapper { before, after }
}

/// Parents of a value, which are values.
pub const VALUE_IN_VALUE: [Wrapper; 7] = [
    wrapper(&[0x0A, 1, 0], &[]),
    wrapper(&[0x0A, 2, 0, 0x0F], &[]),
    wrapper(&[0x0A, 2, 0], &[0x0F]),
    wrapper(&[0x09, 0, 3], &[0x00, 0]),
    wrapper(&[0x09, 2, 1, 0x01, 1], &[]),
    wrapper(&[0x0B, 1, 0, 5, 0], &[]),
    wrapper(&[0x0B, 2, 0, 5, 0, 0x0F, 0, 1], &[]),
];

/// Parents of data, which are data: lists with Null or an empty list beside the child, ranges,
/// contexts.
pub const DATA_IN_DATA: [Wrapper; 9] = [
    wrapper(&[0x0A, 1, 0], &[]),
    wrapper(&[0x0A, 2, 0, 0x00, 0], &[]),
    wrapper(&[0x0A, 2, 0], &[0x00, 1]),
    wrapper(&[0x0A, 2, 0, 0x0A, 0, 0], &[]),
    wrapper(&[0x0A, 3, 0, 0x00, 2], &[0x0A, 0, 0]),
    wrapper(&[0x09, 0, 2], &[0x00, 0]),
    wrapper(&[0x09, 2, 1, 0x01, 1], &[]),
    wrapper(&[0x0B, 1, 0, 5, 0], &[]),
    wrapper(&[0x0B, 2, 0, 5, 0, 0x03, 1, 0, 0, 1], &[]),
];

/// Parents of a type, which are values.
pub const TYPE_IN_VALUE: [Wrapper; 5] = [
    wrapper(&[0x0E], &[]),
    wrapper(&[0x0C, 0, 0, 0], &[]),
    wrapper(&[0x0C, 1, 0x34, 0x12], &[7, 0, 0x20]),
    wrapper(&[0x0C, 1, 0, 0, 0x20, 7, 0], &[]),
    wrapper(&[0x0C, 2, 0, 0, 0x20, 7, 0, 0x22, 7, 0], &[]),
];

/// Parents of a type, which are types.
pub const TYPE_IN_TYPE: [Wrapper; 7] = [
    wrapper(&[0x2A], &[]),
    wrapper(&[0x2B], &[]),
    wrapper(&[0x2C, 1, 0, 9, 0], &[]),
    wrapper(&[0x2C, 2, 0, 9, 0, 0x20, 0, 1], &[]),
    wrapper(&[0x2D, 0], &[]),
    wrapper(&[0x2D, 1], &[0x29]),
    wrapper(&[0x2D, 1, 0x22], &[]),
];

/// What stands at the deepest place.
#[derive(Debug, Clone, Copy, PartialEq, Eq)]
pub enum Ending {
    /// These bytes, then what the parents want after them.
    Bytes(&'static [u8]),
    /// Nothing: the record ends there.
    Nothing,
}

const DATA_ENDINGS: [Ending; 7] = [
    Ending::Bytes(&[0x00, 0]),
    Ending::Bytes(&[0x01, 0]),
    Ending::Bytes(&[0x08, 1, 2, 3, 4, 5, 6, 7, 8]),
    Ending::Bytes(&[0x0A, 0, 0]),
    Ending::Bytes(&[0x0B, 0, 0]),
    Ending::Bytes(&[0x0F]),
    Ending::Bytes(&[0x10, 250, 0, 0, 0, 0, 0, 0, 0, 2]),
];

const VALUE_ENDINGS: [Ending; 14] = [
    Ending::Bytes(&[0x0F]),
    Ending::Bytes(&[0x00, 1]),
    Ending::Bytes(&[0x02, 1, 2, 3, 4, 5, 6, 7, 8]),
    Ending::Bytes(&[0x0A, 0, 0]),
    Ending::Bytes(&[0x0B, 0, 0]),
    Ending::Bytes(&[0x0D, 85]),
    Ending::Bytes(&[0x0D, 86]),
    Ending::Bytes(&[0x01, 2]),
    Ending::Bytes(&[0x20]),
    Ending::Bytes(&[0xFF]),
    Ending::Bytes(&[0x02]),
    Ending::Nothing,
    Ending::Bytes(&[0x10, 1, 2, 3, 4, 5, 6, 7, 8, 18]),
    Ending::Bytes(&[0x10, 1, 2, 3, 4, 5, 6, 7, 8, 19]),
];

const TYPE_ENDINGS: [Ending; 8] = [
    Ending::Bytes(&[0x20]),
    Ending::Bytes(&[0x29]),
    Ending::Bytes(&[0x2C, 0, 0]),
    Ending::Bytes(&[0x0F]),
    Ending::Bytes(&[0x2E]),
    Ending::Bytes(&[0xFF]),
    Ending::Bytes(&[0x2C]),
    Ending::Nothing,
];

/// The record with these parents, the outermost first, and this ending.
pub fn chain(wrappers: &[Wrapper], ending: Ending) -> Vec<u8> {
    let mut bytes: Vec<u8> = wrappers.iter().flat_map(|w| w.before).copied().collect();
    if let Ending::Bytes(end) = ending {
        bytes.extend(end);
        bytes.extend(wrappers.iter().rev().flat_map(|w| w.after));
    }
    bytes
}

/// Chains whose deepest place is at each of `levels`, which are at least 3: of one parent repeated,
/// of two in turn, and for values of a type that starts at several places.
pub fn each_chain(kind: Kind, levels: impl Iterator<Item = usize>, each: &mut Each) {
    for level in levels {
        let parents = level - 1;
        match kind {
            Kind::Type => each_run(&[], &TYPE_IN_TYPE, parents, &TYPE_ENDINGS, each),
            Kind::Value => {
                each_run(&[], &VALUE_IN_VALUE, parents, &VALUE_ENDINGS, each);
                for bridge in TYPE_IN_VALUE {
                    for values in [0, 1, parents / 2, parents - 1] {
                        for outer in choices(&VALUE_IN_VALUE, values > 0) {
                            let mut start = vec![*outer; values];
                            start.push(bridge);
                            let types = parents - start.len();
                            each_run(&start, &TYPE_IN_TYPE, types, &TYPE_ENDINGS, each);
                        }
                    }
                }
            }
        }
    }
}

/// Chains of data whose deepest place is at each of `levels`; Irrelevant stands in some of them.
pub fn each_data_chain(levels: impl Iterator<Item = usize>, each: &mut Each) {
    for level in levels {
        each_run(&[], &DATA_IN_DATA, level - 1, &DATA_ENDINGS, each);
    }
}

/// All of the parents where they stand in the chain, else one of them.
fn choices(parents: &[Wrapper], used: bool) -> &[Wrapper] {
    if used { parents } else { &parents[..1] }
}

/// Every ending below `start` and `count` further parents: each of `parents` repeated, and each two
/// of them in turn.
fn each_run(
    start: &[Wrapper],
    parents: &[Wrapper],
    count: usize,
    endings: &[Ending],
    each: &mut Each,
) {
    for odd in choices(parents, count > 0) {
        for even in choices(parents, count > 1) {
            let mut wrappers = start.to_vec();
            wrappers.extend([*odd, *even].iter().cycle().take(count));
            for ending in endings {
                each(&chain(&wrappers, *ending));
            }
        }
    }
}

#[cfg(test)]
mod tests {
    use super::*;

    #[test]
    fn a_chain_nests() {
        let wrappers = [VALUE_IN_VALUE[2], VALUE_IN_VALUE[3], TYPE_IN_VALUE[0]];
        let bytes = chain(&wrappers, Ending::Bytes(&[0x20]));
        assert_eq!(bytes, [0x0A, 2, 0, 0x09, 0, 3, 0x0E, 0x20, 0x00, 0, 0x0F]);
        assert_eq!(
            chain(&wrappers, Ending::Nothing),
            [0x0A, 2, 0, 0x09, 0, 3, 0x0E]
        );
    }
}
