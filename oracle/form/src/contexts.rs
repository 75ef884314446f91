//! The answers of the calls over contexts, as bytes: the context is read, then the path is counted,
//! then the other value is read; then come the kinds, the work, the limits of a value and the room
//! in the output. What the published Rust has is asked of it.

use crate::calls::written_value;
use crate::read::value_length;
use crate::texts::name;
use crate::{read_value, write_value};
use dsntk_feel::Name;
use dsntk_feel::context::FeelContext;
use dsntk_feel::values::Value;

/// The most names a path may have.
pub const MAX_PATH: usize = 31;

/// A value found: where it starts in the bytes of the context, and how many bytes it has.
#[derive(Debug, Clone, Copy, PartialEq, Eq)]
pub struct Part {
    pub place: usize,
    pub length: usize,
}

impl Part {
    /// The part as one number.
    pub fn number(self) -> usize {
        self.place * 65_536 + self.length
    }

    /// Its bytes.
    pub fn of(self, c: &[u8]) -> &[u8] {
        &c[self.place..self.place + self.length]
    }
}

/// `FeelContext::get_entry`, or the refusal.
pub fn get_entry(c: &[u8], number: u16) -> Result<Option<Part>, u8> {
    let context = context(c)?;
    Ok(found(c, &[number], context.get_entry(&name(number))))
}

/// `FeelContext::search_deep`, or the refusal.
pub fn search_deep(c: &[u8], path: &[u16]) -> Result<Option<Part>, u8> {
    let (context, names) = context_and_path(c, path)?;
    Ok(found(c, path, context.search_deep(&names)))
}

/// `FeelContext::get_first`, or the refusal.
pub fn get_first(c: &[u8]) -> Result<Option<Part>, u8> {
    let context = context(c)?;
    // The first name stands behind the command and the count.
    let path: Vec<u16> = match c {
        [_, _, _, low, high, ..] => vec![u16::from_le_bytes([*low, *high])],
        _ => vec![],
    };
    Ok(found(c, &path, context.get_first()))
}

/// `FeelContext::contains_entry`, or the refusal.
pub fn contains_entry(c: &[u8], number: u16) -> Result<bool, u8> {
    Ok(context(c)?.contains_entry(&name(number)))
}

/// `FeelContext::contains_deep`, or the refusal.
pub fn contains_deep(c: &[u8], path: &[u16]) -> Result<bool, u8> {
    let (context, names) = context_and_path(c, path)?;
    Ok(context.contains_deep(&names))
}

/// `FeelContext::is_context`, or the refusal.
pub fn is_context(c: &[u8], number: u16) -> Result<bool, u8> {
    Ok(context(c)?.is_context(&name(number)))
}

/// `FeelContext::is_empty`, or the refusal.
pub fn is_empty(c: &[u8]) -> Result<bool, u8> {
    Ok(context(c)?.is_empty())
}

/// `FeelContext::len`, or the refusal.
pub fn len(c: &[u8]) -> Result<usize, u8> {
    Ok(context(c)?.len())
}

/// The bytes after `FeelContext::create_entries`, or the refusal.
pub fn create_entries(c: &[u8], path: &[u16], v: &[u8], room: usize) -> Result<Vec<u8>, u8> {
    let (mut context, names, value) = context_path_and_value(c, path, v)?;
    context.create_entries(&names, value);
    written(context, room)
}

/// The bytes after `FeelContext::apply_entries`, or the refusal.
pub fn apply_entries(c: &[u8], path: &[u16], v: &[u8], room: usize) -> Result<Vec<u8>, u8> {
    let (mut context, names, value) = context_path_and_value(c, path, v)?;
    context.apply_entries(&names, value).map_err(|_| 16)?;
    written(context, room)
}

/// The bytes after `FeelContext::zip`, or the refusal.
pub fn zip(c: &[u8], other: &[u8], room: usize) -> Result<Vec<u8>, u8> {
    let (mut context, other) = two_contexts(c, other)?;
    context.zip(&other);
    written(context, room)
}

/// The bytes after `FeelContext::overwrite`, or the refusal.
pub fn overwrite(c: &[u8], other: &[u8], room: usize) -> Result<Vec<u8>, u8> {
    let (mut context, other) = two_contexts(c, other)?;
    context.overwrite(&other);
    written(context, room)
}

/// The bytes after `FeelContext::move_entry`, or the refusal.
pub fn move_entry(c: &[u8], number: u16, parent: u16, room: usize) -> Result<Vec<u8>, u8> {
    let mut context = context(c)?;
    context.move_entry(name(number), name(parent));
    written(context, room)
}

/// The bytes after `FeelContext::set_entry`, or the refusal.
pub fn set_entry(c: &[u8], number: u16, v: &[u8], room: usize) -> Result<Vec<u8>, u8> {
    let (c, _) = read_value(c)?;
    let (v, _) = read_value(v)?;
    let mut context = wanted(c)?;
    context.set_entry(&name(number), v);
    written(context, room)
}

/// The bytes after `FeelContext::remove_entry`, or the refusal.
pub fn remove_entry(c: &[u8], number: u16, room: usize) -> Result<Vec<u8>, u8> {
    let mut context = context(c)?;
    context.remove_entry(&name(number));
    written(context, room)
}

/// The bytes after `FeelContext::set_null`, or the refusal.
pub fn set_null(c: &[u8], number: u16, room: usize) -> Result<Vec<u8>, u8> {
    let mut context = context(c)?;
    context.set_null(name(number));
    written(context, room)
}

/// Refusals 1 to 5, then 12.
fn context(c: &[u8]) -> Result<FeelContext, u8> {
    let (c, _) = read_value(c)?;
    wanted(c)
}

/// Refusals 1 to 5, then 11, then 12.
fn context_and_path(c: &[u8], path: &[u16]) -> Result<(FeelContext, Vec<Name>), u8> {
    let (c, _) = read_value(c)?;
    let names = names(path)?;
    Ok((wanted(c)?, names))
}

/// Refusals 1 to 5 of the context, 11, 1 to 5 of the value, then 12.
fn context_path_and_value(
    c: &[u8],
    path: &[u16],
    v: &[u8],
) -> Result<(FeelContext, Vec<Name>, Value), u8> {
    let (c, _) = read_value(c)?;
    let names = names(path)?;
    let (v, _) = read_value(v)?;
    Ok((wanted(c)?, names, v))
}

/// Refusals 1 to 5 of each, then 12 of either.
fn two_contexts(c: &[u8], other: &[u8]) -> Result<(FeelContext, FeelContext), u8> {
    let (c, _) = read_value(c)?;
    let (other, _) = read_value(other)?;
    Ok((wanted(c)?, wanted(other)?))
}

fn wanted(value: Value) -> Result<FeelContext, u8> {
    FeelContext::try_from(value).map_err(|_| 12)
}

fn names(path: &[u16]) -> Result<Vec<Name>, u8> {
    if path.len() > MAX_PATH {
        return Err(11);
    }
    Ok(path.iter().map(|number| name(*number)).collect())
}

fn written(context: FeelContext, room: usize) -> Result<Vec<u8>, u8> {
    written_value(&context.into(), room)
}

/// Where the bytes have what the Rust found at the path. The Rust gives the value alone, so the path
/// is followed through the bytes, and both must agree.
fn found(c: &[u8], path: &[u16], value: Option<&Value>) -> Option<Part> {
    let part = part(c, path);
    let bytes = part.map(|part| part.of(c));
    assert_eq!(
        bytes.map(|bytes| read_value(bytes).map(|(value, _)| value)),
        value.map(|value| Ok(value.clone())),
        "the bytes have another value at the path"
    );
    assert_eq!(bytes.map(<[u8]>::to_vec), value.map(write_value));
    part
}

/// The part at the path, by the bytes of an accepted context alone.
fn part(c: &[u8], path: &[u16]) -> Option<Part> {
    let (first, rest) = path.split_first()?;
    let mut place = 3;
    for _ in 0..u16::from_le_bytes([c[1], c[2]]) {
        let number = u16::from_le_bytes([c[place], c[place + 1]]);
        place += 2;
        let length = value_length(&c[place..]);
        if number == *first {
            let here = Part { place, length };
            return match here.of(c) {
                _ if rest.is_empty() => Some(here),
                inner @ [0x0B, ..] => part(inner, rest).map(|deeper| Part {
                    place: place + deeper.place,
                    ..deeper
                }),
                _ => None,
            };
        }
        place += length;
    }
    None
}
