//! Conformance of a value, its least type and its inferred type, over the bytes of accepted
//! records.

use super::bounds::{Bound, Side, put_bound};
use super::conformance::conforms;
use super::parts::{Part, end, parts};
use super::rules::{PORTED, Rules};

/// The type of each leaf 00 to 08, and of 10; 0 for other values.
const LEAVES: [u8; 17] = [
    0x29, 0x21, 0x22, 0x23, 0x24, 0x25, 0x26, 0x27, 0x28, 0, 0, 0, 0, 0, 0, 0, 0x22,
];

/// Where the value that starts at `at` ends: counts the values that are still to come, and the
/// bytes of the name before each.
fn value_end(v: &[u8], mut at: usize) -> usize {
    let mut due = vec![(1, 0)];
    while let Some((left, before)) = due.pop() {
        if left == 0 {
            continue;
        }
        due.push((left - 1, before));
        at += before;
        match v[at] {
            0x00 | 0x01 | 0x0D => at += 2,
            0x02 | 0x04..=0x08 => at += 9,
            0x10 => at += 10,
            0x03 => at += 3,
            0x09 => {
                due.push((2, 0));
                at += 3;
            }
            0x0A | 0x0B => {
                let name = if v[at] == 0x0B { 2 } else { 0 };
                due.push((count(v, at), name));
                at += 3;
            }
            0x0C => {
                let parameters = v[at + 1];
                at = end(v, at + 4);
                for _ in 0..parameters {
                    at = end(v, at + 2);
                }
            }
            0x0E => at = end(v, at + 1),
            _ => at += 1,
        }
    }
    at
}

/// The 16-bit count behind the command at `at`.
fn count(v: &[u8], at: usize) -> usize {
    usize::from(u16::from_le_bytes([v[at + 1], v[at + 2]]))
}

/// The children of a range, a list or a context.
pub fn children(v: &[u8]) -> Vec<Part<'_>> {
    let (count, name_width) = match v[0] {
        0x09 => (2, 0),
        0x0A => (count(v, 0), 0),
        _ => (count(v, 0), 2),
    };
    let mut at = 3;
    let mut children = vec![];
    for _ in 0..count {
        let name = match name_width {
            0 => 0,
            _ => u16::from_le_bytes([v[at], v[at + 1]]),
        };
        let start = at + name_width;
        at = value_end(v, start);
        children.push((name, &v[start..at]));
    }
    children
}

/// The types of a function definition: of its parameters, then of its result, as a function type
/// has them.
fn signature(v: &[u8]) -> Vec<&[u8]> {
    let mut at = end(v, 4);
    let result = &v[4..at];
    let mut types = vec![];
    for _ in 0..v[1] {
        let start = at + 2;
        at = end(v, start);
        types.push(&v[start..at]);
    }
    types.push(result);
    types
}

/// The function type of a function definition.
fn function_type(v: &[u8]) -> Vec<u8> {
    [&[0x2D, v[1]], &signature(v).concat()[..]].concat()
}

/// Whether the value `v` conforms to the type `t`.
pub fn value_conforms(v: &[u8], t: &[u8], rules: Rules) -> bool {
    let mut owed = vec![(v, t)];
    while let Some((v, t)) = owed.pop() {
        if t[0] == 0x20 || v[0] == 0x00 {
            continue;
        }
        match (v[0], t[0]) {
            (leaf @ (0x01..=0x08 | 0x10), 0x20..0x2A)
                if rules.has(LEAVES[usize::from(leaf)], t[0]) => {}
            (0x09, 0x2B) | (0x0A, 0x2A) => {
                owed.extend(children(v).into_iter().map(|(_, child)| (child, &t[1..])));
            }
            (0x0B, 0x2C) => {
                let entries = children(v);
                for (name, wanted) in parts(t) {
                    let Ok(place) = entries.binary_search_by_key(&name, |(name, _)| *name) else {
                        return false;
                    };
                    owed.push((entries[place].1, wanted));
                }
            }
            (0x0C, 0x2D) if v[1] == t[1] => {
                let result = usize::from(v[1]);
                let types = signature(v).into_iter().zip(parts(t)).enumerate();
                for (place, (own, (_, wanted))) in types {
                    let turned = rules.strict && place < result;
                    let (a, b) = if turned { (wanted, own) } else { (own, wanted) };
                    if !conforms(a, b, rules) {
                        return false;
                    }
                }
            }
            _ => return false,
        }
    }
    true
}

/// The least type of a value, or none where a part of it is no data; strictly, a function definition
/// has its function type. The items of a list are taken from the last to the first.
pub fn least(v: &[u8], rules: Rules) -> Option<Vec<u8>> {
    let above = Bound {
        side: Side::Above,
        rules,
    };
    match v[0] {
        leaf @ (0x00..=0x08 | 0x10) => Some(vec![LEAVES[usize::from(leaf)]]),
        0x09 | 0x0A => {
            let mut inner = vec![0x29];
            for (_, child) in children(v).into_iter().rev() {
                let of_child = least(child, rules)?;
                let mut bound = vec![0; inner.len() + of_child.len()];
                let end = put_bound(&of_child, &inner, above, &mut bound, 0);
                bound.truncate(end);
                inner = bound;
            }
            Some(over(v, &inner))
        }
        0x0B => {
            let mut out = vec![0x2C, v[1], v[2]];
            for (name, child) in children(v) {
                out.extend(name.to_le_bytes());
                out.extend(least(child, rules)?);
            }
            Some(out)
        }
        0x0C if rules.strict => Some(function_type(v)),
        _ => None,
    }
}

/// The type that is inferred for a value.
pub fn inferred(v: &[u8]) -> Vec<u8> {
    let of_children = || children(v).into_iter().map(|(_, child)| inferred(child));
    match v[0] {
        leaf @ (0x00..=0x08 | 0x10) => vec![LEAVES[usize::from(leaf)]],
        0x09 => {
            let ends: Vec<Vec<u8>> = of_children().collect();
            let equal = ends[0] == ends[1];
            over(v, if equal { &ends[0] } else { &[0x20] })
        }
        0x0A => {
            let types: Vec<Vec<u8>> = of_children().collect();
            let Some(first) = types.first() else {
                return vec![0x2A, 0x29];
            };
            let all = types.iter().all(|t| conforms(t, first, PORTED));
            over(v, if all { first } else { &[0x20] })
        }
        0x0B => {
            let mut out = vec![0x2C, v[1], v[2]];
            for (name, child) in children(v) {
                out.extend(name.to_le_bytes());
                out.extend(inferred(child));
            }
            out
        }
        0x0C => function_type(v),
        0x0E => v[1..].to_vec(),
        _ => vec![0x20],
    }
}

/// The type of a range or a list over this inner type.
fn over(v: &[u8], inner: &[u8]) -> Vec<u8> {
    let command = if v[0] == 0x09 { 0x2B } else { 0x2A };
    [&[command], inner].concat()
}
