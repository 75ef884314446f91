//! All short types.

/// All types of up to `longest` bytes over these simple types, with no names but these, which
/// ascend. Short ones come first.
pub fn small_types(longest: usize, simple: &[u8], names: &[u16]) -> Vec<Vec<u8>> {
    let mut by_length = vec![vec![]];
    for length in 1..=longest {
        by_length.push(of_length(length, simple, names, &by_length));
    }
    by_length.concat()
}

/// Contexts with any of `names`, which ascend, over these simple types: every choice of names and
/// of types.
pub fn small_contexts(simple: &[u8], names: &[u16]) -> Vec<Vec<u8>> {
    let mut all: Vec<(u8, Vec<u8>)> = vec![(0, vec![])];
    for name in names {
        for (count, entries) in all.clone() {
            for child in simple {
                let entry = [&name.to_le_bytes()[..], &[*child]].concat();
                all.push((count + 1, [&entries[..], &entry].concat()));
            }
        }
    }
    let context = |(count, entries)| [vec![0x2C, count, 0], entries].concat();
    all.into_iter().map(context).collect()
}

/// The types of exactly `length` bytes, from the shorter ones.
fn of_length(
    length: usize,
    simple: &[u8],
    names: &[u16],
    shorter: &[Vec<Vec<u8>>],
) -> Vec<Vec<u8>> {
    let mut all = vec![];
    if length == 1 {
        all.extend(simple.iter().map(|command| vec![*command]));
    }
    for command in [0x2A, 0x2B] {
        all.extend(
            rows(1, length.saturating_sub(1), shorter).map(|row| [vec![command], row].concat()),
        );
    }
    for choice in choices(names) {
        let count = choice.len();
        let space = length.checked_sub(3 + 2 * count);
        for children in space.map_or(vec![], |space| parts(count, space, shorter)) {
            let mut context = vec![0x2C, count as u8, 0];
            for (name, child) in choice.iter().zip(children) {
                context.extend(name.to_le_bytes());
                context.extend(child);
            }
            all.push(context);
        }
    }
    for count in 0..length.saturating_sub(2) {
        all.extend(
            rows(count + 1, length - 2, shorter).map(|row| [vec![0x2D, count as u8], row].concat()),
        );
    }
    all
}

/// The ways to write `count` types into exactly `space` bytes, one after the other.
fn rows(count: usize, space: usize, shorter: &[Vec<Vec<u8>>]) -> impl Iterator<Item = Vec<u8>> {
    parts(count, space, shorter)
        .into_iter()
        .map(|row| row.concat())
}

/// The ways to choose `count` types with `space` bytes together.
fn parts(count: usize, space: usize, shorter: &[Vec<Vec<u8>>]) -> Vec<Vec<Vec<u8>>> {
    if count == 0 {
        return if space == 0 { vec![vec![]] } else { vec![] };
    }
    let mut all = vec![];
    for first_length in 1..=space.min(shorter.len() - 1) {
        for rest in parts(count - 1, space - first_length, shorter) {
            for first in &shorter[first_length] {
                all.push([std::slice::from_ref(first), &rest[..]].concat());
            }
        }
    }
    all
}

/// Every choice of the names, in their order.
fn choices(names: &[u16]) -> Vec<Vec<u16>> {
    let mut all = vec![vec![]];
    for name in names {
        let with: Vec<Vec<u16>> = all
            .iter()
            .map(|choice| [&choice[..], &[*name]].concat())
            .collect();
        all.extend(with);
    }
    all
}

#[cfg(test)]
mod tests {
    use super::*;
    use std::collections::BTreeSet;

    const TEN: [u8; 10] = [0x20, 0x21, 0x22, 0x23, 0x24, 0x25, 0x26, 0x27, 0x28, 0x29];

    #[test]
    fn each_type_occurs_once() {
        // Of one byte 10, of two 20, of three 40 + 1 + 10, of four 102 + 20 + 100.
        assert_eq!(small_types(4, &TEN, &[0, 1]).len(), 10 + 20 + 51 + 222);
        let all = small_types(6, &[0x20, 0x22, 0x23, 0x29], &[0, 1]);
        // Of six: 562 lists and ranges, 8 contexts, 66 + 232 + 384 + 256 functions.
        assert_eq!(all.len(), 4 + 8 + 21 + 66 + 281 + 1_508);
        assert_eq!(all.iter().collect::<BTreeSet<_>>().len(), all.len());
        assert!(all.contains(&vec![0x2C, 1, 0, 1, 0, 0x23]));
        let nine = small_types(9, &[0x22], &[0, 1]);
        assert!(nine.contains(&vec![0x2C, 2, 0, 0, 0, 0x22, 1, 0, 0x22]));
    }

    #[test]
    fn each_context_occurs_once() {
        let all = small_contexts(&[0x20, 0x22, 0x29], &[0, 1]);
        assert_eq!(all.len(), 1 + 3 + 3 + 9);
        assert_eq!(all.iter().collect::<BTreeSet<_>>().len(), all.len());
        assert!(all.contains(&vec![0x2C, 2, 0, 0, 0, 0x29, 1, 0, 0x20]));
    }
}
