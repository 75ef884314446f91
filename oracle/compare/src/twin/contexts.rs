//! Paths into contexts and updates of contexts, over the bytes of accepted values. Nothing recurses:
//! a path is followed step by step, and an update is written from the inside to the outside.

use super::parts::Part;
use super::values::children;

/// Where the value at the path starts, and its length.
pub fn search(c: &[u8], path: &[u16]) -> Option<(usize, usize)> {
    let mut start = 0;
    let mut here = c;
    if path.is_empty() {
        return None;
    }
    for name in path {
        if here[0] != 0x0B {
            return None;
        }
        let entries = children(here);
        let place = entries.iter().position(|(other, _)| other == name)?;
        let before: usize = entries[..place].iter().map(|(_, v)| 2 + v.len()).sum();
        start += 3 + before + 2;
        here = entries[place].1;
    }
    Some((start, here.len()))
}

/// Where the first value starts, and its length.
pub fn first(c: &[u8]) -> Option<(usize, usize)> {
    children(c).first().map(|(_, v)| (5, v.len()))
}

/// How many entries there are.
pub fn count(c: &[u8]) -> u64 {
    u64::from(c[1]) + 256 * u64::from(c[2])
}

/// The context with the value at the path. What is no context on the way is replaced where `force`
/// says so; else there is no answer.
pub fn put(c: &[u8], path: &[u16], v: &[u8], force: bool) -> Option<Vec<u8>> {
    let Some((last, way)) = path.split_last() else {
        return Some(c.to_vec());
    };
    // The entries at each step of the way, the outermost first.
    let mut steps = vec![children(c)];
    for name in way {
        let above = &steps[steps.len() - 1];
        let next = match above.iter().find(|(other, _)| other == name) {
            Some((_, inner)) if inner[0] == 0x0B => children(inner),
            Some(_) if !force => return None,
            _ => vec![],
        };
        steps.push(next);
    }
    let innermost = steps.pop()?;
    let mut bytes = spelled(&with(&innermost, *last, v));
    while let Some(entries) = steps.pop() {
        bytes = spelled(&with(&entries, way[steps.len()], &bytes));
    }
    Some(bytes)
}

/// The context with all entries of the other, or with those whose names it has.
pub fn merge(c: &[u8], other: &[u8], all: bool) -> Vec<u8> {
    let (own, theirs) = (children(c), children(other));
    let has = |entries: &[Part], name: u16| {
        let found = entries.binary_search_by_key(&name, |(other, _)| *other);
        found.is_ok()
    };
    let mut merged: Vec<Part> = vec![];
    merged.extend(own.iter().filter(|(name, _)| !has(&theirs, *name)));
    merged.extend(theirs.iter().filter(|(name, _)| all || has(&own, *name)));
    merged.sort_by_key(|(name, _)| *name);
    spelled(&merged)
}

/// The context with an entry moved under a parent.
pub fn moved(c: &[u8], name: u16, parent: u16) -> Vec<u8> {
    match search(c, &[name]) {
        None => c.to_vec(),
        Some((start, length)) => {
            let v = &c[start..start + length];
            let rest = without(c, name);
            put(&rest, &[parent, name], v, true).unwrap_or(rest)
        }
    }
}

/// The context without an entry.
pub fn without(c: &[u8], name: u16) -> Vec<u8> {
    let mut entries = children(c);
    entries.retain(|(other, _)| *other != name);
    spelled(&entries)
}

/// The entries with this one at its place.
fn with<'a>(entries: &[Part<'a>], name: u16, v: &'a [u8]) -> Vec<Part<'a>> {
    let below = entries.iter().filter(|(other, _)| *other < name);
    let above = entries.iter().filter(|(other, _)| *other > name);
    below.chain([&(name, v)]).chain(above).copied().collect()
}

/// The bytes of a context.
fn spelled(entries: &[Part]) -> Vec<u8> {
    let count = entries.len();
    let mut bytes = vec![0x0B, (count % 256) as u8, (count / 256) as u8];
    for (name, v) in entries {
        bytes.extend([(name % 256) as u8, (name / 256) as u8]);
        bytes.extend(*v);
    }
    bytes
}
