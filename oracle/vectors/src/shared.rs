//! Cases that are made in the same way for values and for types.

use feel_cases::{Draft, Ending, Kind, Random, Wrapper, chain, each_damage, random_draft};

/// Every beginning of a record, and the record.
pub fn beginnings(record: &[u8]) -> Vec<Vec<u8>> {
    (1..=record.len())
        .map(|end| record[..end].to_vec())
        .collect()
}

/// Copies of a record with the byte at `place` changed to each of `others`.
pub fn changed(record: &[u8], place: usize, others: impl Iterator<Item = u8>) -> Vec<Vec<u8>> {
    let mut copy = record.to_vec();
    others
        .map(|other| {
            copy[place] = other;
            copy.clone()
        })
        .collect()
}

/// Copies of a record with one byte changed, at every place: one more, one less, bit 5 turned.
pub fn each_byte_changed(record: &[u8]) -> Vec<Vec<u8>> {
    (0..record.len())
        .flat_map(|place| {
            let byte = record[place];
            let others = [byte.wrapping_add(1), byte.wrapping_sub(1), byte ^ 0x20];
            changed(record, place, others.into_iter())
        })
        .collect()
}

/// Copies of a record with one byte dropped or doubled, at every place.
pub fn each_byte_dropped_or_doubled(record: &[u8]) -> Vec<Vec<u8>> {
    (0..record.len())
        .flat_map(|place| {
            let mut dropped = record.to_vec();
            dropped.remove(place);
            let mut doubled = record.to_vec();
            doubled.insert(place, record[place]);
            [dropped, doubled]
        })
        .collect()
}

/// Each of the faults in each of the frames, which are the bytes before and after it.
pub fn framed(frames: &[(&str, &str)], faults: &[Vec<u8>]) -> Vec<Vec<u8>> {
    let mut cases = vec![];
    for (before, after) in frames {
        for fault in faults {
            cases.push(
                [
                    crate::list::bytes(before),
                    fault.clone(),
                    crate::list::bytes(after),
                ]
                .concat(),
            );
        }
    }
    cases
}

/// `start`, then `wrapper` repeated, so that the deepest child stands at each of `levels`; there
/// each of `endings`, or nothing.
pub fn at_levels(
    start: &[Wrapper],
    wrapper: Wrapper,
    levels: &[usize],
    endings: &[&'static [u8]],
) -> Vec<Vec<u8>> {
    let mut cases = vec![];
    for level in levels {
        let mut wrappers = start.to_vec();
        wrappers.resize(level - 1, wrapper);
        for ending in endings {
            cases.push(chain(&wrappers, Ending::Bytes(ending)));
        }
        cases.push(chain(&wrappers, Ending::Nothing));
    }
    cases
}

/// Random records of up to 100 bytes, and three damaged copies of each.
pub fn random_records(kind: Kind, count: usize, seed: u64) -> Vec<Vec<u8>> {
    let mut random = Random::new(seed);
    let mut cases = vec![];
    let short = std::iter::repeat_with(|| random_draft(kind, &mut random));
    let short: Vec<Draft> = short
        .filter(|draft| (8..=100).contains(&draft.bytes.len()))
        .take(count)
        .collect();
    for draft in short {
        let mut damaged = vec![];
        each_damage(&draft, &mut random, &mut |bytes| {
            damaged.push(bytes.to_vec())
        });
        for _ in 0..3 {
            cases.push(damaged[random.below(damaged.len())].clone());
        }
        cases.push(draft.bytes);
    }
    cases
}
