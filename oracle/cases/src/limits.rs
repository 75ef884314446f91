//! Pairs of types at the limits of level and length.

use crate::{Ending, Kind, TYPE_IN_TYPE, chain, long_records};

/// Receives pairs one after the other.
pub type EachPair<'a> = dyn FnMut(&[u8], &[u8]) + 'a;

/// What stands deepest in two chains.
const ENDINGS: [(&[u8], &[u8]); 8] = [
    (&[0x22], &[0x22]),
    (&[0x22], &[0x23]),
    (&[0x22], &[0x20]),
    (&[0x20], &[0x22]),
    (&[0x22], &[0x29]),
    (&[0x29], &[0x22]),
    (&[0x2C, 0, 0], &[0x22]),
    (&[0x2C, 0, 0], &[0x2C, 0, 0]),
];

/// Two chains of the same parents, whose levels are each two of 31, 32 and 33, and chains of two
/// parents in turn.
pub fn each_deep_pair(each: &mut EachPair) {
    for odd in TYPE_IN_TYPE {
        for even in TYPE_IN_TYPE {
            let of_level = |level: usize, ending| {
                let wrappers: Vec<_> = [odd, even].into_iter().cycle().take(level - 1).collect();
                chain(&wrappers, Ending::Bytes(ending))
            };
            for (end_a, end_b) in ENDINGS {
                for levels in [(32, 32), (31, 32), (32, 31), (32, 33), (33, 32)] {
                    each(&of_level(levels.0, end_a), &of_level(levels.1, end_b));
                }
            }
        }
    }
}

/// Pairs of types with 16,384 bytes or one more. The subtype of some, and the supertype of others,
/// has nearly 32,768 bytes.
pub fn each_long_pair(each: &mut EachPair) {
    const MOST: usize = 16_384;
    for frame in [&[][..], &[0x2A], &[0x2D, 1], &[0x2D, 2, 0x22]] {
        // A function has its result after the context.
        let after: &[u8] = if frame.len() > 1 { &[0x22] } else { &[] };
        let framed = |length: usize, first: u16, step: u16, child: u8| {
            let inside = length - frame.len() - after.len();
            [frame, &context(inside, first, step, child), after].concat()
        };
        let even = framed(MOST, 0, 2, 0x22);
        each(&even, &even);
        each(&even, &framed(MOST, 1, 2, 0x22));
        each(&even, &framed(MOST, 0, 2, 0x23));
        each(&even, &framed(MOST, 0, 2, 0x20));
        each(&even, &framed(MOST, 0, 3, 0x22));
        each(&framed(MOST, 20_000, 1, 0x22), &framed(MOST, 0, 1, 0x29));
        each(&even, &framed(MOST - 1, 1, 2, 0x22));
        each(&even, &framed(MOST + 1, 1, 2, 0x22));
        each(&framed(MOST + 1, 1, 2, 0x22), &even);
        each(&even, &[0x29]);
        each(&[0x20], &even);
    }
    let records = long_records(Kind::Type, MOST);
    for a in &records {
        for b in &records {
            each(a, b);
        }
    }
}

/// A context of exactly `length` bytes, with these names; the first children stand in a list where
/// the length asks for it.
fn context(length: usize, first: u16, step: u16, child: u8) -> Vec<u8> {
    let count = (length - 3) / 3;
    let over = (length - 3) % 3;
    let mut bytes = vec![0x2C];
    bytes.extend((count as u16).to_le_bytes());
    for number in 0..count {
        bytes.extend((first + step * number as u16).to_le_bytes());
        if number < over {
            bytes.push(0x2A);
        }
        bytes.push(child);
    }
    bytes
}

#[cfg(test)]
mod tests {
    use super::*;

    #[test]
    fn long_pairs_have_their_length() {
        let mut pairs = 0;
        each_long_pair(&mut |a, b| {
            assert!(a.len() >= 16_383 || b.len() >= 16_383);
            pairs += usize::from(a.len() == 16_384 && b.len() == 16_384);
        });
        assert_eq!(pairs, 4 * 6 + 25);
    }

    #[test]
    fn deep_pairs_occur() {
        let mut pairs = 0;
        each_deep_pair(&mut |a, b| {
            assert!(a.len() > 30 && b.len() > 30);
            pairs += 1;
        });
        assert_eq!(pairs, 7 * 7 * 8 * 5);
    }
}
