//! Lean Rust on the same bytes, nothing proved: what a call costs that reads slices, allocates
//! nothing and has no strings. It is plain code by documents 01 and 02 and answers as the calls do, refusals
//! too; the tests hold it to the published Rust. The arguments are read in turn, then comes the
//! answer.

mod conformance;
mod ranges;
mod read;
mod table;
#[cfg(test)]
mod tests;
mod walk;

use conformance::Rules;
use read::{read_type, read_value};
use table::Loaded;
use walk::{Entries, skip_value};

/// The level of a value.
#[inline(never)]
pub fn check_value(v: &[u8]) -> Result<usize, u8> {
    read_value(v)
}

/// The level of a type.
#[inline(never)]
pub fn check_type(t: &[u8]) -> Result<usize, u8> {
    read_type(t)
}

#[inline(never)]
pub fn type_is_conformant(a: &[u8], b: &[u8]) -> Result<bool, u8> {
    read_type(a)?;
    read_type(b)?;
    Ok(conformance::of_type(a, b, Rules::Ported))
}

#[inline(never)]
pub fn strict_type_is_conformant(a: &[u8], b: &[u8]) -> Result<bool, u8> {
    read_type(a)?;
    read_type(b)?;
    Ok(conformance::of_type(a, b, Rules::Strict))
}

#[inline(never)]
pub fn value_is_conformant(v: &[u8], t: &[u8]) -> Result<bool, u8> {
    read_value(v)?;
    read_type(t)?;
    Ok(conformance::of_value(v, t, Rules::Ported))
}

#[inline(never)]
pub fn strict_value_is_conformant(v: &[u8], t: &[u8]) -> Result<bool, u8> {
    read_value(v)?;
    read_type(t)?;
    Ok(conformance::of_value(v, t, Rules::Strict))
}

/// Yes where the table loads.
#[inline(never)]
pub fn table_check(table: &[u8]) -> Result<bool, u8> {
    Loaded::read(table).map(|_| true)
}

#[inline(never)]
pub fn table_type_is_conformant(table: &[u8], a: &[u8], b: &[u8]) -> Result<bool, u8> {
    let table = Loaded::read(table)?;
    read_type(a)?;
    read_type(b)?;
    Ok(conformance::of_type(a, b, Rules::Over(&table)))
}

#[inline(never)]
pub fn table_value_is_conformant(table: &[u8], v: &[u8], t: &[u8]) -> Result<bool, u8> {
    let table = Loaded::read(table)?;
    read_value(v)?;
    read_type(t)?;
    Ok(conformance::of_value(v, t, Rules::Over(&table)))
}

/// Whether a range is valid.
#[inline(never)]
pub fn value_is_valid_range(v: &[u8]) -> Result<bool, u8> {
    read_value(v)?;
    Ok(v[0] == 0x09 && ranges::is_valid(v))
}

#[inline(never)]
pub fn type_instance_of(a: &[u8], b: &[u8]) -> Result<bool, u8> {
    read_type(a)?;
    read_type(b)?;
    Ok(conformance::is_instance(a, b))
}

/// The bytes of the entry with this name.
#[inline(never)]
pub fn context_get_entry(c: &[u8], name: u16) -> Result<Option<&[u8]>, u8> {
    read_value(c)?;
    match c[0] {
        0x0B => Ok(search(c, &[name])),
        _ => Err(12),
    }
}

/// The bytes of the value at the end of the path.
#[inline(never)]
pub fn context_search_deep<'a>(c: &'a [u8], path: &[u16]) -> Result<Option<&'a [u8]>, u8> {
    read_value(c)?;
    match c[0] {
        _ if path.len() > 31 => Err(11),
        0x0B => Ok(search(c, path)),
        _ => Err(12),
    }
}

fn search<'a>(c: &'a [u8], path: &[u16]) -> Option<&'a [u8]> {
    if path.is_empty() {
        return None;
    }
    let mut at = 0;
    for name in path {
        if c[at] != 0x0B {
            return None;
        }
        at = Entries::new(c, at + 1, skip_value).find(*name)?;
    }
    Some(&c[at..skip_value(c, at)])
}
