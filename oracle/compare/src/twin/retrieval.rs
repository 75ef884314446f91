//! Retrieval and coercion over the bytes of accepted records, and what a value, an interval byte or
//! a built-in function is.

use super::conformance::conforms;
use super::parts::parts;
use super::rules::PORTED;
use super::values::{children, value_conforms};

/// What is still to be written of a retrieved value.
enum Owed<'a> {
    /// These bytes as they stand.
    Copy(&'a [u8]),
    /// A name.
    Name(u16),
    /// The value, retrieved with the type.
    Value(&'a [u8], &'a [u8]),
}

/// The value retrieved with the type, or none where an outer kind is another one. It does not
/// recurse: it keeps a list of what is owed, the next at the end.
pub fn retrieved(v: &[u8], t: &[u8]) -> Option<Vec<u8>> {
    let mut out = vec![];
    let mut owed = vec![Owed::Value(v, t)];
    while let Some(next) = owed.pop() {
        let (v, t) = match next {
            Owed::Copy(bytes) => {
                out.extend(bytes);
                continue;
            }
            Owed::Name(name) => {
                out.extend(name.to_le_bytes());
                continue;
            }
            Owed::Value(v, t) => (v, t),
        };
        match (v[0], t[0]) {
            (0x00, _) => out.extend([0x00, 0]),
            (0x0A, 0x2A) => {
                owed.extend(
                    children(v)
                        .into_iter()
                        .rev()
                        .map(|(_, item)| Owed::Value(item, &t[1..])),
                );
                owed.push(Owed::Copy(&v[..3]));
            }
            (0x0B, 0x2C) => {
                let wanted = parts(t);
                let mut count: u16 = 0;
                for (name, entry) in children(v).into_iter().rev() {
                    if let Some((_, of_entry)) = wanted.iter().find(|(other, _)| *other == name) {
                        owed.push(Owed::Value(entry, of_entry));
                        owed.push(Owed::Name(name));
                        count += 1;
                    }
                }
                // The count goes first, so it is a name that stands before the entries.
                owed.push(Owed::Name(count));
                owed.push(Owed::Copy(&v[..1]));
            }
            (_, 0x20) | (0x09, 0x2B) | (0x0C, 0x2D) => out.extend(v),
            (leaf @ 0x01..=0x08, simple) if simple == leaf + 0x20 => out.extend(v),
            (0x10, 0x22) => out.extend(v),
            _ => return None,
        }
    }
    Some(out)
}

/// The retrieved value where the value conforms to the type, else null with its trace.
pub fn conformant(v: &[u8], t: &[u8]) -> Option<Vec<u8>> {
    match t[0] {
        0x29 => Some(vec![0x00, 0]),
        _ if value_conforms(v, t, PORTED) => retrieved(v, t),
        _ => Some(vec![0x00, 2]),
    }
}

/// What becomes of a coerced value.
pub enum Coerced<'a> {
    /// The value, or the only item of it.
    Kept(&'a [u8]),
    /// A list of the value alone.
    InList,
    /// Null with its trace.
    Failed,
}

pub fn coerced<'a>(v: &'a [u8], t: &[u8]) -> Coerced<'a> {
    let known = v[0] == 0x0D && conforms(bif_type(v[1]), t, PORTED);
    if v[0] == 0x0C || known || value_conforms(v, t, PORTED) {
        return Coerced::Kept(v);
    }
    if v[0] == 0x0A {
        // The only item fills the rest of the list.
        return if v[1..3] == [1, 0] && value_conforms(&v[3..], t, PORTED) {
            Coerced::Kept(&v[3..])
        } else {
            Coerced::Failed
        };
    }
    if t[0] == 0x2A && value_conforms(v, &t[1..], PORTED) {
        Coerced::InList
    } else {
        Coerced::Failed
    }
}

/// The type of a built-in function.
pub fn bif_type(b: u8) -> &'static [u8] {
    match b {
        0 | 67 => &[0x2D, 1, 0x22, 0x22],
        _ => &[0x20],
    }
}

pub fn is_valid_range(v: &[u8]) -> bool {
    if v[0] != 0x09 || v[1] == 3 || v[2] == 3 {
        return false;
    }
    let ends = children(v);
    let (start, end) = (ends[0].1, ends[1].1);
    match (start[0], end[0]) {
        (0x00, 0x00) => false,
        (0x00, _) => v[1] < 2,
        (0x02..=0x08 | 0x10, 0x00) => v[2] < 2,
        (0x02 | 0x10, 0x02 | 0x10) => digits(start) <= digits(end),
        (a @ 0x03..=0x08, b) if a == b => key(start) <= key(end),
        _ => false,
    }
}

/// A number as its whole part, rounded down, and what is above it in 10^-18.
fn digits(v: &[u8]) -> (i64, u64) {
    let coefficient = key(&v[..9]);
    let places = v.get(9).map_or(0, |exponent| u32::from(*exponent));
    let divisor = 10i64.pow(places);
    let above = coefficient.rem_euclid(divisor) as u64;
    let whole = coefficient.div_euclid(divisor);
    (whole, above * 10u64.pow(18 - places))
}

/// The number of a text, or the signed key of another leaf.
fn key(v: &[u8]) -> i64 {
    let mut bytes = [0; 8];
    bytes[..v.len() - 1].copy_from_slice(&v[1..]);
    i64::from_le_bytes(bytes)
}
