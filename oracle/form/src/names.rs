//! The answers of the calls over texts, as bytes: the type is read, then the table; then come a name
//! that the table does not have and the room in the output. What the published Rust has is asked of
//! it.

use crate::calls::fitting;
use crate::texts::name_number;
use crate::{MAX_LENGTH, read_type, write_type};
use dsntk_feel::{FeelType, Name, types};
use std::str::{FromStr, from_utf8};

/// The text of `FeelType`, whose names have the texts of the table, or the refusal.
pub fn display(t: &[u8], table: &[u8], room: usize) -> Result<Vec<u8>, u8> {
    let (t, _) = read_type(t)?;
    let names = read_table(table).ok_or(19)?;
    let t = named(t, &names).ok_or(20)?;
    fitting(t.to_string().into_bytes(), room)
}

/// `FeelType::from_str`: the command of the type, or none where it is unknown. What is no string of
/// the Rust is unknown.
pub fn from_str(s: &[u8]) -> Option<u8> {
    let t = FeelType::from_str(from_utf8(s).ok()?).ok()?;
    let command = write_type(&t);
    assert_eq!(command.len(), 1, "a simple type");
    Some(command[0])
}

/// `is_built_in_type_name`. What is no string of the Rust is none.
pub fn is_built_in_type_name(s: &[u8]) -> bool {
    from_utf8(s).is_ok_and(types::is_built_in_type_name)
}

/// The bytes of `Name::new`, or the refusal.
pub fn name_new(parts: &[u8], room: usize) -> Result<Vec<u8>, u8> {
    let parts = read_parts(parts).ok_or(19)?;
    fitting(String::from(Name::new(&parts)).into_bytes(), room)
}

/// The bytes of `Name::from`, or the refusal: 19 of more than 16,384 bytes. A byte above 7F stands in
/// the Rust's string as the letter from U+0180 on in its turn, so it is no blank.
pub fn trim(s: &[u8], room: usize) -> Result<Vec<u8>, u8> {
    if s.len() > MAX_LENGTH {
        return Err(19);
    }
    let letter = |byte: &u8| match byte {
        0x00..=0x7F => char::from(*byte),
        _ => char::from_u32(0x0100 + u32::from(*byte)).expect("a letter"),
    };
    let string: String = s.iter().map(letter).collect();
    let name = Name::from(string);
    let bytes = name.as_str().chars().map(|letter| letter as u32 as u8);
    fitting(bytes.collect(), room)
}

/// The type with the names that stand in the table at their numbers.
fn named(feel_type: FeelType, names: &[Name]) -> Option<FeelType> {
    let inside = |inner: Box<FeelType>| named(*inner, names).map(Box::new);
    Some(match feel_type {
        FeelType::List(inner) => FeelType::List(inside(inner)?),
        FeelType::Range(inner) => FeelType::Range(inside(inner)?),
        FeelType::Context(entries) => {
            let entry = |(number, inner)| {
                let name = names.get(usize::from(name_number(&number)))?;
                Some((name.clone(), named(inner, names)?))
            };
            FeelType::Context(entries.into_iter().map(entry).collect::<Option<_>>()?)
        }
        FeelType::Function(parameters, result) => {
            let parameters = parameters.into_iter().map(|inner| named(inner, names));
            FeelType::Function(parameters.collect::<Option<_>>()?, inside(result)?)
        }
        simple => simple,
    })
}

/// The names of a table: their texts ascend strictly.
fn read_table(bytes: &[u8]) -> Option<Vec<Name>> {
    let (count, rest) = bytes.split_first_chunk()?;
    let texts = read_texts(u16::from_le_bytes(*count).into(), rest)?;
    let is_text = |text: &&str| {
        let printable = text.bytes().all(|byte| (0x20..=0x7E).contains(&byte));
        printable && !text.starts_with(' ') && !text.ends_with(' ')
    };
    let ascending = texts.windows(2).all(|two| two[0] < two[1]);
    let accepted = bytes.len() <= MAX_LENGTH && ascending && texts.iter().all(is_text);
    accepted.then(|| texts.into_iter().map(Name::from).collect())
}

/// The parts of a name.
fn read_parts(bytes: &[u8]) -> Option<Vec<&str>> {
    let (count, rest) = bytes.split_first()?;
    let parts = read_texts((*count).into(), rest)?;
    let accepted = bytes.len() <= MAX_LENGTH && parts.iter().all(|part| part.is_ascii());
    accepted.then_some(parts)
}

/// So many texts, each with its length in a byte before it, and nothing behind them.
fn read_texts(count: usize, mut rest: &[u8]) -> Option<Vec<&str>> {
    let mut texts = vec![];
    for _ in 0..count {
        let (length, behind) = rest.split_first()?;
        let (text, behind) = behind.split_at_checked((*length).into())?;
        texts.push(from_utf8(text).ok()?);
        rest = behind;
    }
    rest.is_empty().then_some(texts)
}
