//! Texts of types, and names, over the bytes. Nothing recurses: what is still to be written stands in
//! a stack.

use super::parts::parts;

/// The names of the types 20 to 29.
const SIMPLE: [&[u8]; 10] = [
    b"Any",
    b"boolean",
    b"number",
    b"string",
    b"date",
    b"time",
    b"date and time",
    b"days and time duration",
    b"years and months duration",
    b"Null",
];

/// What is still to be written.
enum Due<'a> {
    Text(&'a [u8]),
    Type(&'a [u8]),
}

/// The texts of a table, or nothing where it is none.
pub fn table(bytes: &[u8]) -> Option<Vec<&[u8]>> {
    if bytes.len() < 2 {
        return None;
    }
    let texts = counted(bytes, 2, usize::from(bytes[0]) | usize::from(bytes[1]) << 8)?;
    for (place, text) in texts.iter().enumerate() {
        if text.iter().any(|byte| !(b' '..=b'~').contains(byte)) {
            return None;
        }
        if text.first() == Some(&b' ') || text.last() == Some(&b' ') {
            return None;
        }
        if place > 0 && !is_below(texts[place - 1], text) {
            return None;
        }
    }
    Some(texts)
}

/// Whether the first text stands before the second: by the first byte that differs, else the shorter.
fn is_below(first: &[u8], second: &[u8]) -> bool {
    let both = first.iter().zip(second);
    match both.into_iter().find(|(a, b)| a != b) {
        Some((a, b)) => a < b,
        None => first.len() < second.len(),
    }
}

/// So many texts from this place on, up to the end of the bytes, which are not too many.
fn counted(bytes: &[u8], mut at: usize, count: usize) -> Option<Vec<&[u8]>> {
    let mut texts = vec![];
    while texts.len() < count {
        let length = usize::from(*bytes.get(at)?);
        texts.push(bytes.get(at + 1..at + 1 + length)?);
        at += 1 + length;
    }
    (at == bytes.len() && at <= 16_384).then_some(texts)
}

/// The text of a type; nothing where a name is not in the table.
pub fn shown(t: &[u8], texts: &[&[u8]]) -> Option<Vec<u8>> {
    let mut out = vec![];
    let mut due = vec![Due::Type(t)];
    while let Some(next) = due.pop() {
        let t = match next {
            Due::Type(t) => t,
            Due::Text(text) => {
                out.extend(text);
                continue;
            }
        };
        let mut then = vec![];
        match t[0] {
            0x2A => then.extend([Due::Text(b"list<"), Due::Type(&t[1..]), Due::Text(b">")]),
            0x2B => then.extend([Due::Text(b"range<"), Due::Type(&t[1..]), Due::Text(b">")]),
            0x2C => {
                let mut before: &[u8] = b"context<";
                for (name, child) in parts(t) {
                    let text = texts.get(usize::from(name))?;
                    then.extend([Due::Text(before), Due::Text(text), Due::Text(b": ")]);
                    then.push(Due::Type(child));
                    before = b", ";
                }
                if t[1] == 0 && t[2] == 0 {
                    then.push(Due::Text(before));
                }
                then.push(Due::Text(b">"));
            }
            0x2D => {
                let last = usize::from(t[1]);
                then.push(Due::Text(b"function<"));
                for (place, (_, child)) in parts(t).into_iter().enumerate() {
                    if place == last {
                        then.push(Due::Text(b">->"));
                    } else if place > 0 {
                        then.push(Due::Text(b", "));
                    }
                    then.push(Due::Type(child));
                }
            }
            simple => then.push(Due::Text(SIMPLE[usize::from(simple - 0x20)])),
        }
        due.extend(then.into_iter().rev());
    }
    Some(out)
}

/// The command of the type with this name.
pub fn command(s: &[u8]) -> Option<u8> {
    (0x20..=0x29).find(|command| SIMPLE[usize::from(command - 0x20)] == s)
}

/// The bytes between the blanks at both ends.
pub fn trimmed(s: &[u8]) -> &[u8] {
    let is_blank = |byte: u8| byte == b' ' || (b'\t'..=b'\r').contains(&byte);
    let (mut from, mut to) = (0, s.len());
    while from < to && is_blank(s[from]) {
        from += 1;
    }
    while from < to && is_blank(s[to - 1]) {
        to -= 1;
    }
    &s[from..to]
}

/// The name of the parts, or nothing where they are none.
pub fn joined(bytes: &[u8]) -> Option<Vec<u8>> {
    let parts = counted(bytes, 1, usize::from(*bytes.first()?))?;
    if parts.concat().iter().any(|byte| byte & 0x80 != 0) {
        return None;
    }
    let mut name = vec![];
    // Whether a space stands before a word that comes next.
    let mut apart = false;
    for part in parts {
        match trimmed(part) {
            [] => apart = true,
            [b'.' | b'/' | b'-' | b'\'' | b'+' | b'*'] => {
                name.push(trimmed(part)[0]);
                apart = false;
            }
            word => {
                if apart {
                    name.push(b' ');
                }
                name.extend(word);
                apart = true;
            }
        }
    }
    Some(name)
}
