//! Conformance and instance over the bytes of accepted types. Conformance keeps a list of pairs that
//! are still owed; two contexts are gone through in step by their ascending names. Strictly, the
//! result of a parameterless function is owed too; two simple types go by the rules.

use super::parts::{Part, parts};
use super::rules::Rules;

/// Whether `a` conforms to `b`.
pub fn conforms(a: &[u8], b: &[u8], rules: Rules) -> bool {
    let mut owed = vec![(a, b)];
    while let Some((a, b)) = owed.pop() {
        if a[0] == 0x29 || b[0] == 0x20 {
            continue;
        }
        if a[0] < 0x2A && b[0] < 0x2A {
            if !rules.has(a[0], b[0]) {
                return false;
            }
            continue;
        }
        if a[0] != b[0] {
            return false;
        }
        let (parts_a, parts_b) = (parts(a), parts(b));
        if a[0] == 0x2C {
            let Some(pairs) = common(&parts_a, &parts_b) else {
                return false;
            };
            owed.extend(pairs);
            continue;
        }
        if parts_a.len() != parts_b.len() {
            return false;
        }
        let is_function = a[0] == 0x2D;
        if is_function && parts_a.len() == 1 && !rules.strict {
            continue;
        }
        let result = parts_a.len().saturating_sub(1);
        for (place, ((_, of_a), (_, of_b))) in parts_a.iter().zip(&parts_b).enumerate() {
            if is_function && place < result {
                owed.push((of_b, of_a));
            } else {
                owed.push((of_a, of_b));
            }
        }
    }
    true
}

/// For every child of `b` the child of `a` with the same name, or nothing when one is missing.
fn common<'a>(a: &[Part<'a>], b: &[Part<'a>]) -> Option<Vec<(&'a [u8], &'a [u8])>> {
    let mut pairs = vec![];
    let mut rest = a.iter();
    for (name, of_b) in b {
        let (_, of_a) = rest
            .find(|(other, _)| other >= name)
            .filter(|(other, _)| other == name)?;
        pairs.push((*of_a, *of_b));
    }
    Some(pairs)
}

/// Whether `a` is an instance of `b`.
pub fn is_instance(a: &[u8], b: &[u8]) -> bool {
    match (a[0], b[0]) {
        (0x2A, 0x2A) => a == b || b == [0x2A, 0x20],
        (0x2C, 0x2C) => {
            let pairs = common(&parts(a), &parts(b));
            let meets = |(of_a, of_b): &(&[u8], &[u8])| *of_a == [0x29] || of_a == of_b;
            pairs.is_some_and(|pairs| pairs.iter().all(meets))
        }
        _ => false,
    }
}
