//! Damaged copies of well-formed records.

use crate::{Draft, Each, MAX_EXPONENT, Random};

/// Up to this length every place is damaged; of a longer record as many places at random.
const SHORT: usize = 40;

/// Every beginning of `bytes`, the empty one too; of a long record [SHORT] of them at random.
fn each_cut(bytes: &[u8], random: &mut Random, each: &mut Each) {
    for place in places(bytes.len(), random) {
        each(&bytes[..place]);
    }
}

/// Damaged copies of a record: a byte changed, dropped or added, the end cut, a count that lies,
/// two names swapped or made equal, an exponent out of its bounds, the end cut inside a decimal.
pub fn each_damage(draft: &Draft, random: &mut Random, each: &mut Each) {
    let bytes = &draft.bytes;
    let mut copy = bytes.clone();
    for place in places(bytes.len(), random) {
        for change in changes(bytes[place], random) {
            copy[place] = change;
            each(&copy);
        }
        copy[place] = bytes[place];
        let dropped = copy.remove(place);
        each(&copy);
        copy.insert(place, dropped);
        copy.insert(place, random.byte());
        each(&copy);
        copy.remove(place);
        copy.insert(place + 1, dropped);
        each(&copy);
        copy.remove(place + 1);
    }
    each_cut(bytes, random, each);
    for (place, width) in sample(&draft.counts, random) {
        for lie in lies(&bytes[place..place + width]) {
            copy[place..place + width].copy_from_slice(&lie);
            each(&copy);
        }
        copy[place..place + width].copy_from_slice(&bytes[place..place + width]);
    }
    for place in sample(&draft.exponents, random) {
        for exponent in [MAX_EXPONENT + 1, 0xFF] {
            copy[place] = exponent;
            each(&copy);
        }
        copy[place] = bytes[place];
        for end in [place, place - 1 - random.below(7), place - 8] {
            each(&bytes[..end]);
        }
    }
    for names in sample(&draft.names, random) {
        for pair in sample(&pairs(&names), random) {
            let [first, second] = pair;
            copy[first..first + 2].copy_from_slice(&bytes[second..second + 2]);
            each(&copy);
            copy[second..second + 2].copy_from_slice(&bytes[first..first + 2]);
            each(&copy);
            copy[first..first + 2].copy_from_slice(&bytes[first..first + 2]);
            each(&copy);
            copy[second..second + 2].copy_from_slice(&bytes[second..second + 2]);
        }
    }
}

/// All places of a short record, [SHORT] random ones of a long record.
fn places(length: usize, random: &mut Random) -> Vec<usize> {
    if length <= SHORT {
        (0..length).collect()
    } else {
        (0..SHORT).map(|_| random.below(length)).collect()
    }
}

/// All of a few items, eight random ones of many.
fn sample<T: Clone>(items: &[T], random: &mut Random) -> Vec<T> {
    if items.len() <= 8 {
        items.to_vec()
    } else {
        (0..8)
            .map(|_| items[random.below(items.len())].clone())
            .collect()
    }
}

/// Neighbouring places, and the first with the last.
fn pairs(places: &[usize]) -> Vec<[usize; 2]> {
    let mut pairs: Vec<[usize; 2]> = places.windows(2).map(|two| [two[0], two[1]]).collect();
    if places.len() > 2 {
        pairs.push([places[0], places[places.len() - 1]]);
    }
    pairs
}

/// Other bytes for a byte: its neighbours, one bit, the ends, a command of each kind, any.
fn changes(byte: u8, random: &mut Random) -> [u8; 8] {
    [
        byte.wrapping_add(1),
        byte.wrapping_sub(1),
        byte ^ (1 << random.below(8)),
        0x00,
        0xFF,
        random.below(0x11) as u8,
        0x20 + random.below(0x0E) as u8,
        random.byte(),
    ]
}

/// Other counts for a count: one more, one less, 0, the highest.
fn lies(count: &[u8]) -> [Vec<u8>; 4] {
    let width = count.len();
    let mut number = [0; 2];
    number[..width].copy_from_slice(count);
    let number = u16::from_le_bytes(number);
    [number.wrapping_add(1), number.wrapping_sub(1), 0, 0xFFFF]
        .map(|lie| lie.to_le_bytes()[..width].to_vec())
}

#[cfg(test)]
mod tests {
    use super::*;
    use crate::decimal;

    /// {1: Irrelevant, 2: Irrelevant}
    fn draft() -> Draft {
        Draft {
            bytes: vec![0x0B, 2, 0, 1, 0, 0x0F, 2, 0, 0x0F],
            names: vec![vec![3, 6]],
            counts: vec![(1, 2)],
            exponents: vec![],
        }
    }

    fn damaged() -> Vec<Vec<u8>> {
        let mut all = vec![];
        each_damage(&draft(), &mut Random::new(1), &mut |bytes| {
            all.push(bytes.to_vec())
        });
        all
    }

    #[test]
    fn every_damage_occurs() {
        let all = damaged();
        let bytes = draft().bytes;
        for place in 0..bytes.len() {
            let mut changed = bytes.clone();
            changed[place] = changed[place].wrapping_add(1);
            assert!(all.contains(&changed));
            let mut dropped = bytes.clone();
            dropped.remove(place);
            assert!(all.contains(&dropped));
            assert!(all.contains(&bytes[..place].to_vec()));
            assert!(all.iter().any(|copy| copy.len() == bytes.len() + 1));
        }
        for count in [[3, 0], [1, 0], [0, 0], [0xFF, 0xFF]] {
            let mut lie = bytes.clone();
            lie[1..3].copy_from_slice(&count);
            assert!(all.contains(&lie));
        }
        for (first, second) in [(2, 2), (2, 1), (1, 1)] {
            assert!(all.contains(&vec![0x0B, 2, 0, first, 0, 0x0F, second, 0, 0x0F]));
        }
    }

    #[test]
    fn a_decimal_is_damaged() {
        let list = |exponent| [&[0x0A, 1, 0], &decimal(25, exponent)[..]].concat();
        let draft = Draft {
            bytes: list(1),
            counts: vec![(1, 2)],
            exponents: vec![12],
            ..Draft::default()
        };
        let mut all = vec![];
        each_damage(&draft, &mut Random::new(1), &mut |bytes| {
            all.push(bytes.to_vec())
        });
        assert!(all.contains(&list(19)) && all.contains(&list(255)));
        for end in [4, 12] {
            let cut = list(1)[..end].to_vec();
            assert!(all.iter().filter(|copy| **copy == cut).count() > 1);
        }
    }

    #[test]
    fn the_same_seed_gives_the_same_copies() {
        assert_eq!(damaged(), damaged());
    }
}
