//! Conformance and instance over accepted bytes: both sides are walked in step. Strictly, the result
//! of a parameterless function counts, and a function definition conforms as its function type. Over a
//! table, simple types go by its bits.

use super::table::Loaded;
use super::walk::{Entries, skip_type, skip_value, word};

/// Whether type `a` conforms to type `b`.
pub fn of_type(a: &[u8], b: &[u8], rules: Rules) -> bool {
    a[0] == 0x29 || b[0] == 0x20 || types(a, 0, b, 0, rules).is_some()
}

/// Whether a value conforms to a type.
pub fn of_value(v: &[u8], t: &[u8], rules: Rules) -> bool {
    v[0] == 0x00 || t[0] == 0x20 || values(v, 0, t, 0, rules).is_some()
}

/// Whether type `a` is an instance of type `b`.
pub fn is_instance(a: &[u8], b: &[u8]) -> bool {
    match (a[0], b[0]) {
        (0x2A, 0x2A) => a == b || b[1] == 0x20,
        (0x2C, 0x2C) => {
            let mut entries = Entries::new(a, 1, skip_type);
            let mut at = 3;
            for _ in 0..word(b, 1) {
                let Some(start) = entries.find(word(b, at)) else {
                    return false;
                };
                let (end, end_b) = (skip_type(a, start), skip_type(b, at + 2));
                if a[start] != 0x29 && a[start..end] != b[at + 2..end_b] {
                    return false;
                }
                entries.at = end;
                at = end_b;
            }
            true
        }
        _ => false,
    }
}

/// How types are read.
#[derive(Clone, Copy)]
pub enum Rules<'a> {
    Ported,
    Strict,
    Over(&'a Loaded),
}

impl Rules<'_> {
    #[inline(always)]
    fn is_strict(self) -> bool {
        matches!(self, Rules::Strict)
    }

    /// Whether a type conforms to another one that is not equal to it and is simple.
    #[inline(always)]
    fn passes(self, a: u8, b: u8) -> bool {
        match self {
            Rules::Over(table) => a < 0x2A && table.has(a, b),
            _ => false,
        }
    }
}

/// Where both end that start here, if they conform.
type Ends = Option<(usize, usize)>;

#[inline(always)]
fn types(a: &[u8], i: usize, b: &[u8], j: usize, rules: Rules) -> Ends {
    match (a[i], b[j]) {
        (0x29, _) => Some((i + 1, skip_type(b, j))),
        (_, 0x20) => Some((skip_type(a, i), j + 1)),
        (command, other) if command != other => match other {
            0x20..=0x29 => rules.passes(command, other).then_some((i + 1, j + 1)),
            _ => None,
        },
        (0x20..=0x29, _) => Some((i + 1, j + 1)),
        (command, _) => parent_types(command, a, i + 1, b, j + 1, rules),
    }
}

/// The same behind equal commands that are not simple.
fn parent_types(command: u8, a: &[u8], i: usize, b: &[u8], j: usize, rules: Rules) -> Ends {
    match command {
        0x2C => {
            let mut entries = Entries::new(a, i, skip_type);
            let mut at = j + 2;
            for _ in 0..word(b, j) {
                let found = entries.find(word(b, at))?;
                (entries.at, at) = types(a, found, b, at + 2, rules)?;
            }
            Some((entries.end(), at))
        }
        0x2D if a[i] != b[j] => None,
        0x2D if a[i] == 0 && !rules.is_strict() => Some((skip_type(a, i + 1), skip_type(b, j + 1))),
        0x2D => {
            let (mut at, mut other) = (i + 1, j + 1);
            for _ in 0..a[i] {
                (other, at) = types(b, other, a, at, rules)?;
            }
            types(a, at, b, other, rules)
        }
        _ => types(a, i, b, j, rules),
    }
}

#[inline(always)]
fn values(v: &[u8], i: usize, t: &[u8], j: usize, rules: Rules) -> Ends {
    match (v[i], t[j]) {
        (_, 0x20) => Some((skip_value(v, i), j + 1)),
        (0x00, _) => Some((i + 2, skip_type(t, j))),
        (command @ 0x01..=0x08, other) => {
            leaf(0x20 + command, other, rules).then(|| (skip_value(v, i), j + 1))
        }
        (0x10, other) => leaf(0x22, other, rules).then_some((i + 10, j + 1)),
        (command, other) => parents([command, other], v, i + 1, t, j + 1, rules),
    }
}

/// Whether a leaf of this type conforms to another one.
#[inline(always)]
fn leaf(own: u8, other: u8, rules: Rules) -> bool {
    own == other || (other < 0x2A && rules.passes(own, other))
}

/// The same behind the commands of a value that is no leaf and of a type.
fn parents(commands: [u8; 2], v: &[u8], i: usize, t: &[u8], j: usize, rules: Rules) -> Ends {
    match commands.into() {
        (0x09, 0x2B) => {
            let (middle, _) = values(v, i + 2, t, j, rules)?;
            values(v, middle, t, j, rules)
        }
        (0x0A, 0x2A) => {
            let count = word(v, i);
            if count == 0 {
                return Some((i + 2, skip_type(t, j)));
            }
            let mut ends = (i + 2, j);
            for _ in 0..count {
                ends = values(v, ends.0, t, j, rules)?;
            }
            Some(ends)
        }
        (0x0B, 0x2C) => {
            let mut entries = Entries::new(v, i, skip_value);
            let mut at = j + 2;
            for _ in 0..word(t, j) {
                let found = entries.find(word(t, at))?;
                (entries.at, at) = values(v, found, t, at + 2, rules)?;
            }
            Some((entries.end(), at))
        }
        (0x0C, 0x2D) if v[i] == t[j] => {
            let result = i + 3;
            let (mut at, mut other) = (skip_type(v, result), j + 1);
            for _ in 0..v[i] {
                (at, other) = if rules.is_strict() {
                    let (other, at) = types(t, other, v, at + 2, rules)?;
                    (at, other)
                } else {
                    types(v, at + 2, t, other, rules)?
                };
            }
            let (_, end) = types(v, result, t, other, rules)?;
            Some((at, end))
        }
        _ => None,
    }
}
