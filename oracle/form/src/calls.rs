//! The answers of the calls over types and over values, as bytes: the arguments are read in turn,
//! then comes the scratch, then the room in the output. What the published Rust has is asked of it.

use crate::read::interval_type;
use crate::{
    BIFS, MAX_LENGTH, MAX_VALUE_LEVEL, Reading, Table, bounds, conforms, inferred, read_type,
    read_value, value_conforms, value_level, write_type, write_value,
};
use dsntk_feel::FeelType;
use dsntk_feel::ranges::IntervalType;
use dsntk_feel::values::Value;

/// `FeelType::is_conformant`, or the refusal.
pub fn is_conformant(a: &[u8], b: &[u8]) -> Result<bool, u8> {
    conformance(a, b, Reading::Ported)
}

/// Whether the first type strictly conforms to the second, or the refusal.
pub fn strict_is_conformant(a: &[u8], b: &[u8]) -> Result<bool, u8> {
    conformance(a, b, Reading::Strict)
}

/// `FeelType::instance_of`, or the refusal.
pub fn instance_of(a: &[u8], b: &[u8]) -> Result<bool, u8> {
    let (a, b) = read_two(a, b)?;
    Ok(a.instance_of(&b))
}

/// `FeelType::is_simple_built_in_type`, or the refusal.
pub fn is_simple_built_in_type(t: &[u8]) -> Result<bool, u8> {
    let (t, _) = read_type(t)?;
    Ok(t.is_simple_built_in_type())
}

/// `FeelType::is_null`, or the refusal.
pub fn is_null(t: &[u8]) -> Result<bool, u8> {
    let (t, _) = read_type(t)?;
    Ok(t.is_null())
}

/// The bytes of the common supertype, or the refusal.
pub fn common_supertype(a: &[u8], b: &[u8], scratch: usize, room: usize) -> Result<Vec<u8>, u8> {
    bound(a, b, scratch, room, |a, b| {
        bounds::common_supertype(a, b, Reading::Ported)
    })
}

/// The bytes of the strict common supertype, or the refusal.
pub fn strict_common_supertype(
    a: &[u8],
    b: &[u8],
    scratch: usize,
    room: usize,
) -> Result<Vec<u8>, u8> {
    bound(a, b, scratch, room, |a, b| {
        bounds::common_supertype(a, b, Reading::Strict)
    })
}

/// The bytes of the common subtype, or the refusal.
pub fn common_subtype(a: &[u8], b: &[u8], scratch: usize, room: usize) -> Result<Vec<u8>, u8> {
    bound(a, b, scratch, room, |a, b| {
        bounds::common_subtype(a, b, Reading::Ported)
    })
}

/// The bytes of the strict common subtype, or the refusal.
pub fn strict_common_subtype(
    a: &[u8],
    b: &[u8],
    scratch: usize,
    room: usize,
) -> Result<Vec<u8>, u8> {
    bound(a, b, scratch, room, |a, b| {
        bounds::common_subtype(a, b, Reading::Strict)
    })
}

/// The bytes of the reduced form, or the refusal.
pub fn reduced(t: &[u8], room: usize) -> Result<Vec<u8>, u8> {
    let (t, _) = read_type(t)?;
    written(&bounds::reduced(&t), room)
}

/// `Value::is_conformant`, or the refusal.
pub fn value_is_conformant(v: &[u8], t: &[u8]) -> Result<bool, u8> {
    value_conformance(v, t, Reading::Ported)
}

/// Whether the value strictly conforms to the type, or the refusal.
pub fn strict_value_is_conformant(v: &[u8], t: &[u8]) -> Result<bool, u8> {
    value_conformance(v, t, Reading::Strict)
}

/// The bytes of the least type, or the refusal.
pub fn value_least_type(v: &[u8], scratch: usize, room: usize) -> Result<Vec<u8>, u8> {
    least_type(v, scratch, room, Reading::Ported)
}

/// The bytes of the strict least type, or the refusal.
pub fn strict_value_least_type(v: &[u8], scratch: usize, room: usize) -> Result<Vec<u8>, u8> {
    least_type(v, scratch, room, Reading::Strict)
}

/// Yes where the table loads, or the refusal.
pub fn table_check(table: &[u8]) -> Result<bool, u8> {
    Table::read(table).map(|_| true)
}

/// Whether the first type conforms to the second over the table, or the refusal.
pub fn table_is_conformant(table: &[u8], a: &[u8], b: &[u8]) -> Result<bool, u8> {
    conformance(a, b, over(table)?)
}

/// The bytes of the common supertype over the table, or the refusal.
pub fn table_common_supertype(
    table: &[u8],
    a: &[u8],
    b: &[u8],
    scratch: usize,
    room: usize,
) -> Result<Vec<u8>, u8> {
    let reading = over(table)?;
    bound(a, b, scratch, room, |a, b| {
        bounds::common_supertype(a, b, reading)
    })
}

/// The bytes of the common subtype over the table, or the refusal.
pub fn table_common_subtype(
    table: &[u8],
    a: &[u8],
    b: &[u8],
    scratch: usize,
    room: usize,
) -> Result<Vec<u8>, u8> {
    let reading = over(table)?;
    bound(a, b, scratch, room, |a, b| {
        bounds::common_subtype(a, b, reading)
    })
}

/// Whether the value conforms to the type over the table, or the refusal.
pub fn table_value_is_conformant(table: &[u8], v: &[u8], t: &[u8]) -> Result<bool, u8> {
    value_conformance(v, t, over(table)?)
}

/// The bytes of the least type over the table, or the refusal.
pub fn table_value_least_type(
    table: &[u8],
    v: &[u8],
    scratch: usize,
    room: usize,
) -> Result<Vec<u8>, u8> {
    least_type(v, scratch, room, over(table)?)
}

/// The bytes of `Value::type_of`, or the refusal.
pub fn value_type_of(v: &[u8], scratch: usize, room: usize) -> Result<Vec<u8>, u8> {
    let (value, _) = read_value(v)?;
    if scratch < 4 * v.len() {
        return Err(14);
    }
    written(&inferred::type_of(&value), room)
}

/// The bytes of `FeelType::get_value_checked`, or the refusal.
pub fn get_value_checked(t: &[u8], v: &[u8], room: usize) -> Result<Vec<u8>, u8> {
    let (t, _) = read_type(t)?;
    let (v, _) = read_value(v)?;
    let answer = t.get_value_checked(&v).map_err(|_| 15)?;
    written_value(&answer, room)
}

/// The bytes of `FeelType::get_conformant_value`, or the refusal.
pub fn get_conformant_value(t: &[u8], v: &[u8], room: usize) -> Result<Vec<u8>, u8> {
    let (t, _) = read_type(t)?;
    let (v, _) = read_value(v)?;
    written_value(&t.get_conformant_value(&v), room)
}

/// The bytes of `Value::coerced`, or the refusal.
pub fn coerced(v: &[u8], t: &[u8], room: usize) -> Result<Vec<u8>, u8> {
    let (v, _) = read_value(v)?;
    let (t, _) = read_type(t)?;
    written_value(&v.coerced(&t), room)
}

/// `Value::is_invalid_coercion`, or the refusal.
pub fn value_is_invalid_coercion(v: &[u8]) -> Result<bool, u8> {
    value_is(v, Value::is_invalid_coercion)
}

/// `Value::is_valid_range`, or the refusal.
pub fn value_is_valid_range(v: &[u8]) -> Result<bool, u8> {
    value_is(v, Value::is_valid_range)
}

/// `Value::is_null`, or the refusal.
pub fn value_is_null(v: &[u8]) -> Result<bool, u8> {
    value_is(v, Value::is_null)
}

/// `Value::is_true`, or the refusal.
pub fn value_is_true(v: &[u8]) -> Result<bool, u8> {
    value_is(v, Value::is_true)
}

/// `Value::is_false`, or the refusal.
pub fn value_is_false(v: &[u8]) -> Result<bool, u8> {
    value_is(v, Value::is_false)
}

/// `Value::is_number`, or the refusal.
pub fn value_is_number(v: &[u8]) -> Result<bool, u8> {
    value_is(v, Value::is_number)
}

/// `Value::is_string`, or the refusal.
pub fn value_is_string(v: &[u8]) -> Result<bool, u8> {
    value_is(v, Value::is_string)
}

/// `Value::is_list`, or the refusal.
pub fn value_is_list(v: &[u8]) -> Result<bool, u8> {
    value_is(v, Value::is_list)
}

/// `Value::is_range`, or the refusal.
pub fn value_is_range(v: &[u8]) -> Result<bool, u8> {
    value_is(v, Value::is_range)
}

/// `IntervalType::opened`, or the refusal.
pub fn interval_opened(i: u8) -> Result<bool, u8> {
    interval_is(i, IntervalType::opened)
}

/// `IntervalType::closed`, or the refusal.
pub fn interval_closed(i: u8) -> Result<bool, u8> {
    interval_is(i, IntervalType::closed)
}

/// `IntervalType::undefined`, or the refusal.
pub fn interval_undefined(i: u8) -> Result<bool, u8> {
    interval_is(i, IntervalType::undefined)
}

/// The bytes of `Bif::feel_type`, or the refusal.
pub fn bif_feel_type(b: u8, room: usize) -> Result<Vec<u8>, u8> {
    let bif = BIFS.get(usize::from(b)).ok_or(2)?;
    written(&bif.feel_type(), room)
}

fn value_is(v: &[u8], method: fn(&Value) -> bool) -> Result<bool, u8> {
    let (v, _) = read_value(v)?;
    Ok(method(&v))
}

fn interval_is(i: u8, method: fn(&IntervalType) -> bool) -> Result<bool, u8> {
    Ok(method(&interval_type(i).ok_or(2)?))
}

/// The reading over a table, or its refusal.
fn over(table: &[u8]) -> Result<Reading, u8> {
    Table::read(table).map(Reading::Table)
}

fn conformance(a: &[u8], b: &[u8], reading: Reading) -> Result<bool, u8> {
    let (a, b) = read_two(a, b)?;
    Ok(conforms(&a, &b, reading))
}

fn value_conformance(v: &[u8], t: &[u8], reading: Reading) -> Result<bool, u8> {
    let (v, _) = read_value(v)?;
    let (t, _) = read_type(t)?;
    Ok(value_conforms(&v, &t, reading))
}

fn least_type(v: &[u8], scratch: usize, room: usize, reading: Reading) -> Result<Vec<u8>, u8> {
    let (value, _) = read_value(v)?;
    let answer = inferred::least_type(&value, reading).ok_or(13)?;
    if scratch < 4 * v.len() {
        return Err(14);
    }
    written(&answer, room)
}

fn bound(
    a: &[u8],
    b: &[u8],
    scratch: usize,
    room: usize,
    bound: impl FnOnce(&FeelType, &FeelType) -> FeelType,
) -> Result<Vec<u8>, u8> {
    let wanted = a.len() + b.len();
    let (a, b) = read_two(a, b)?;
    if scratch < wanted {
        return Err(14);
    }
    written(&bound(&a, &b), room)
}

fn read_two(a: &[u8], b: &[u8]) -> Result<(FeelType, FeelType), u8> {
    let (a, _) = read_type(a)?;
    let (b, _) = read_type(b)?;
    Ok((a, b))
}

fn written(answer: &FeelType, room: usize) -> Result<Vec<u8>, u8> {
    fitting(write_type(answer), room)
}

/// A value must be one that can be read.
pub(crate) fn written_value(answer: &Value, room: usize) -> Result<Vec<u8>, u8> {
    let bytes = write_value(answer);
    if bytes.len() > MAX_LENGTH || value_level(answer) > MAX_VALUE_LEVEL {
        return Err(17);
    }
    fitting(bytes, room)
}

pub(crate) fn fitting(bytes: Vec<u8>, room: usize) -> Result<Vec<u8>, u8> {
    if room < bytes.len() {
        Err(18)
    } else {
        Ok(bytes)
    }
}
