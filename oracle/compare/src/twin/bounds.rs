//! The reduced form and both bounds over the bytes of accepted types. One walk serves both sides, and
//! all readings: strictly, nothing is reduced; two simple types go by the rules.

use super::parts::parts;
use super::rules::Rules;

/// The side on which the bound of two types stands.
#[derive(Clone, Copy, PartialEq, Eq)]
pub enum Side {
    /// The common supertype.
    Above,
    /// The common subtype.
    Below,
}

impl Side {
    fn other(self) -> Side {
        match self {
            Side::Above => Side::Below,
            Side::Below => Side::Above,
        }
    }

    /// The simple type that lies furthest on this side.
    fn end(self) -> u8 {
        match self {
            Side::Above => 0x20,
            Side::Below => 0x29,
        }
    }
}

/// Writes the reduced form at `at`; answers where it ends.
pub fn put_reduced(t: &[u8], out: &mut [u8], at: usize) -> usize {
    if t.starts_with(&[0x2D, 0]) {
        return put(&[0x2D, 0, 0x20], out, at);
    }
    let parts = parts(t);
    let mut at = match t[0] {
        0x2C => put(&t[..3], out, at),
        0x2D => put(&t[..2], out, at),
        _ => put(&t[..1], out, at),
    };
    for (name, part) in parts {
        if t[0] == 0x2C {
            at = put(&name.to_le_bytes(), out, at);
        }
        at = put_reduced(part, out, at);
    }
    at
}

/// Writes a type that only one side has: as it is, or reduced.
fn put_alone(t: &[u8], strict: bool, out: &mut [u8], at: usize) -> usize {
    if strict {
        put(t, out, at)
    } else {
        put_reduced(t, out, at)
    }
}

/// Where a bound stands, and by which rules.
#[derive(Clone, Copy)]
pub struct Bound {
    pub side: Side,
    pub rules: Rules,
}

impl Bound {
    fn turned(self) -> Bound {
        Bound {
            side: self.side.other(),
            ..self
        }
    }
}

/// Writes the bound of two types at `at`; answers where it ends.
pub fn put_bound(a: &[u8], b: &[u8], bound: Bound, out: &mut [u8], at: usize) -> usize {
    let Bound { side, rules } = bound;
    let neutral = side.other().end();
    if a[0] == neutral {
        return put_alone(b, rules.strict, out, at);
    }
    if b[0] == neutral {
        return put_alone(a, rules.strict, out, at);
    }
    if a[0] < 0x2A && b[0] < 0x2A {
        let simple = match side {
            Side::Above => rules.above(a[0], b[0]),
            Side::Below => rules.below(a[0], b[0]),
        };
        return put(&[simple], out, at);
    }
    // Lists, ranges and functions match when the heads with their counts are equal.
    let head = if a[0] == 0x2D { 2 } else { 1 };
    if a.get(..head) != b.get(..head) {
        return put(&[side.end()], out, at);
    }
    match a[0] {
        0x2C => put_contexts(a, b, bound, out, at),
        0x2D if a[1] == 0 && !rules.strict => put(&[0x2D, 0, 0x20], out, at),
        0x2D => {
            let mut at = put(&a[..2], out, at);
            for (place, ((_, of_a), (_, of_b))) in parts(a).iter().zip(parts(b)).enumerate() {
                let is_result = place == usize::from(a[1]);
                let bound = if is_result { bound } else { bound.turned() };
                at = put_bound(of_a, of_b, bound, out, at);
            }
            at
        }
        _ => {
            let at = put(&a[..1], out, at);
            put_bound(&a[1..], &b[1..], bound, out, at)
        }
    }
}

/// Goes through both lists of ascending names in step; the count is written last.
fn put_contexts(a: &[u8], b: &[u8], bound: Bound, out: &mut [u8], at: usize) -> usize {
    let Bound { side, rules } = bound;
    let (parts_a, parts_b) = (parts(a), parts(b));
    let (mut next_a, mut next_b) = (0, 0);
    let count_at = at + 1;
    let mut at = put(&[0x2C, 0, 0], out, at);
    let mut count = 0u16;
    loop {
        let first = parts_a.get(next_a).map(|(name, _)| *name);
        let second = parts_b.get(next_b).map(|(name, _)| *name);
        let Some(name) = first.into_iter().chain(second).min() else {
            break;
        };
        let (in_a, in_b) = (first == Some(name), second == Some(name));
        if side == Side::Below || (in_a && in_b) {
            count += 1;
            at = put(&name.to_le_bytes(), out, at);
            at = match (in_a, in_b) {
                (true, true) => put_bound(parts_a[next_a].1, parts_b[next_b].1, bound, out, at),
                (true, false) => put_alone(parts_a[next_a].1, rules.strict, out, at),
                _ => put_alone(parts_b[next_b].1, rules.strict, out, at),
            };
        }
        next_a += usize::from(in_a);
        next_b += usize::from(in_b);
    }
    put(&count.to_le_bytes(), out, count_at);
    at
}

fn put(bytes: &[u8], out: &mut [u8], at: usize) -> usize {
    out[at..at + bytes.len()].copy_from_slice(bytes);
    at + bytes.len()
}
