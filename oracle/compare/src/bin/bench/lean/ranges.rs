//! Whether a range is valid, over accepted bytes.

use super::walk::{skip_value, word};

pub fn is_valid(v: &[u8]) -> bool {
    let (start, end) = (3, skip_value(v, 3));
    if v[1] == 3 || v[2] == 3 {
        return false;
    }
    match (v[start], v[end]) {
        (0x00, other) => other != 0x00 && v[1] < 2,
        (0x02..=0x08 | 0x10, 0x00) => v[2] < 2,
        (0x02 | 0x10, 0x02 | 0x10) => is_ascending(v, start, end),
        (0x03, 0x03) => word(v, start + 1) <= word(v, end + 1),
        (command @ 0x04..=0x08, other) if command == other => key(v, start) <= key(v, end),
        _ => false,
    }
}

/// Whether the first of two numbers is not greater. A product has at most 123 bits and a sign.
fn is_ascending(v: &[u8], start: usize, end: usize) -> bool {
    let (p, q) = (exponent(v, start), exponent(v, end));
    let (a, b) = (key(v, start), key(v, end));
    if p == q {
        return a <= b;
    }
    i128::from(a) * POWERS[q] <= i128::from(b) * POWERS[p]
}

const POWERS: [i128; 19] = {
    let mut powers = [1; 19];
    let mut place = 1;
    while place < 19 {
        powers[place] = 10 * powers[place - 1];
        place += 1;
    }
    powers
};

/// The exponent of the number that starts here.
fn exponent(v: &[u8], at: usize) -> usize {
    if v[at] == 0x10 { v[at + 9].into() } else { 0 }
}

/// The key or coefficient behind the command.
fn key(v: &[u8], at: usize) -> i64 {
    i64::from_le_bytes(v[at + 1..at + 9].try_into().expect("eight bytes"))
}
