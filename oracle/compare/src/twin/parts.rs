//! The parts of an accepted type, as slices of its bytes.

/// One child of a parent: its name's number, 0 where it has none, and its bytes.
pub type Part<'a> = (u16, &'a [u8]);

/// The children of a type, in their order; none for a simple type.
pub fn parts(t: &[u8]) -> Vec<Part<'_>> {
    let (named, count, mut at) = match t[0] {
        0x2A | 0x2B => (false, 1, 1),
        0x2C => (true, usize::from(t[1]) + 256 * usize::from(t[2]), 3),
        0x2D => (false, usize::from(t[1]) + 1, 2),
        _ => (false, 0, 1),
    };
    let mut parts = vec![];
    for _ in 0..count {
        let mut name = 0;
        if named {
            name = u16::from_le_bytes([t[at], t[at + 1]]);
            at += 2;
        }
        let end = end(t, at);
        parts.push((name, &t[at..end]));
        at = end;
    }
    parts
}

/// Where the type that starts at `at` ends: counts the types that are still to come, and for each
/// context the names before its children.
pub fn end(t: &[u8], mut at: usize) -> usize {
    // How many children are still to come, and whether a name stands before each.
    let mut due = vec![(1, false)];
    while let Some((left, named)) = due.pop() {
        if left == 0 {
            continue;
        }
        due.push((left - 1, named));
        at += if named { 2 } else { 0 };
        let command = t[at];
        at += 1;
        match command {
            0x2A | 0x2B => due.push((1, false)),
            0x2C => {
                due.push((usize::from(t[at]) + 256 * usize::from(t[at + 1]), true));
                at += 2;
            }
            0x2D => {
                due.push((usize::from(t[at]) + 1, false));
                at += 1;
            }
            _ => {}
        }
    }
    at
}
