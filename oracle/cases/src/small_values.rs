//! All values with few nodes.

/// All values with up to `most` nodes over these leaves, with no names but these, which ascend:
/// also the empty list and context, ranges, lists and contexts. Small ones come first.
pub fn small_values(most: usize, leaves: &[&[u8]], names: &[u16]) -> Vec<Vec<u8>> {
    let mut by_nodes = vec![vec![]];
    for nodes in 1..=most {
        by_nodes.push(with_nodes(nodes, leaves, names, &by_nodes));
    }
    by_nodes.concat()
}

/// The values with exactly so many nodes, from those with fewer.
fn with_nodes(
    nodes: usize,
    leaves: &[&[u8]],
    names: &[u16],
    fewer: &[Vec<Vec<u8>>],
) -> Vec<Vec<u8>> {
    let mut all = vec![];
    if nodes == 1 {
        all.extend(leaves.iter().map(|leaf| leaf.to_vec()));
    }
    for count in 0..nodes {
        for children in rows(count, nodes - 1, fewer) {
            let list = [&[0x0A, count as u8, 0], &children.concat()[..]].concat();
            all.push(list);
            if count == 2 {
                all.push([&[0x09, 2, 0], &children.concat()[..]].concat());
            }
            for choice in choices(count, names) {
                let mut context = vec![0x0B, count as u8, 0];
                for (name, child) in choice.iter().zip(&children) {
                    context.extend(name.to_le_bytes());
                    context.extend(child);
                }
                all.push(context);
            }
        }
    }
    all
}

/// The ways to choose `count` values with `nodes` nodes together, in their order.
fn rows(count: usize, nodes: usize, fewer: &[Vec<Vec<u8>>]) -> Vec<Vec<Vec<u8>>> {
    if count == 0 {
        return if nodes == 0 { vec![vec![]] } else { vec![] };
    }
    let mut all = vec![];
    for of_first in 1..=nodes.min(fewer.len() - 1) {
        for rest in rows(count - 1, nodes - of_first, fewer) {
            for first in &fewer[of_first] {
                all.push([std::slice::from_ref(first), &rest[..]].concat());
            }
        }
    }
    all
}

/// The ways to choose `count` of the names, in their order.
fn choices(count: usize, names: &[u16]) -> Vec<Vec<u16>> {
    if count == 0 {
        return vec![vec![]];
    }
    let mut all = vec![];
    for (place, name) in names.iter().enumerate() {
        for rest in choices(count - 1, &names[place + 1..]) {
            all.push([&[*name], &rest[..]].concat());
        }
    }
    all
}

#[cfg(test)]
mod tests {
    use super::*;
    use std::collections::BTreeSet;

    #[test]
    fn each_value_occurs_once() {
        let leaves: [&[u8]; 2] = [&[0x00, 0], &[0x01, 1]];
        // One node: 2 leaves and the two empty ones. Two: 4 lists and 2 * 4 contexts. Three: of one
        // child 12 lists and 2 * 12 contexts, of two 16 lists, 16 ranges and 16 contexts.
        let all = small_values(3, &leaves, &[0, 1]);
        assert_eq!(all.len(), 4 + 12 + (36 + 48));
        assert_eq!(all.iter().collect::<BTreeSet<_>>().len(), all.len());
        assert!(all.contains(&vec![0x0B, 2, 0, 0, 0, 0x00, 0, 1, 0, 0x01, 1]));
        assert!(all.contains(&vec![0x0A, 2, 0, 0x00, 0, 0x0A, 0, 0]));
    }
}
