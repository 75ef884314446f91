//! The calls over values. A value is a slice of bytes, as [Value::to_bytes](crate::Value::to_bytes)
//! gives it.

use crate::Refusal;
use crate::answer::{counted, given, length, written, written_value, yes};
use crate::ffi;

/// Reads a value: its level, 1 to 31, or refusal 1 to 5.
///
/// ```
/// use hedvaste::values;
/// assert_eq!(values::check_value(&[0x0A, 1, 0, 0x01, 1]), Ok(2));
/// assert_eq!(values::check_value(&[0x01, 1, 0]).unwrap_err().number(), 5);
/// ```
pub fn check_value(v: &[u8]) -> Result<u32, Refusal> {
    // SAFETY: pointer and length are those of a slice, here and in every call of this module.
    given(unsafe { ffi::feel_check_value(v.as_ptr(), v.len()) })
}

/// `Value::is_conformant`: does the value `v` conform to the type `t`?
///
/// ```
/// use hedvaste::values;
/// assert_eq!(values::is_conformant(&[0x01, 1], &[0x21]), Ok(true));
/// assert_eq!(values::is_conformant(&[0x01, 1], &[0x22]), Ok(false));
/// ```
pub fn is_conformant(v: &[u8], t: &[u8]) -> Result<bool, Refusal> {
    // SAFETY: as above.
    yes(unsafe { ffi::feel_value_is_conformant(v.as_ptr(), v.len(), t.as_ptr(), t.len()) })
}

/// The least type of a data value; refusal 13 where it is none.
///
/// ```
/// use hedvaste::values;
/// // [null, true]
/// let v = [0x0A, 2, 0, 0x00, 0, 0x01, 1];
/// assert_eq!(values::least_type(&v), Ok(vec![0x2A, 0x21]));
/// assert_eq!(values::least_type(&[0x0F]).unwrap_err().number(), 13);
/// ```
pub fn least_type(v: &[u8]) -> Result<Vec<u8>, Refusal> {
    // A type is never longer than its value: every command takes fewer bytes or as many.
    written(counted(v), |out| least_type_into(v, out))
}

/// [least_type] at the front of `out`: its length.
///
/// ```
/// let mut out = [0; 2];
/// assert_eq!(hedvaste::values::least_type_into(&[0x0A, 0, 0], &mut out), Ok(2));
/// assert_eq!(out, [0x2A, 0x29]);
/// ```
pub fn least_type_into(v: &[u8], out: &mut [u8]) -> Result<usize, Refusal> {
    inferred_into(v, out, ffi::feel_value_least_type)
}

/// Does the value `v` strictly conform to the type `t`? As [is_conformant], but a function definition
/// conforms exactly when its function type strictly does.
///
/// ```
/// use hedvaste::{Type, values};
/// // A definition that takes a number and gives any value, beside one that takes any value.
/// let v = [0x0C, 1, 0, 0, 0x20, 7, 0, 0x22];
/// let t = Type::function([Type::Any], Type::Any).to_bytes()?;
/// assert!(values::is_conformant(&v, &t)?);
/// assert!(!values::strict_is_conformant(&v, &t)?);
/// # Ok::<(), hedvaste::Refusal>(())
/// ```
pub fn strict_is_conformant(v: &[u8], t: &[u8]) -> Result<bool, Refusal> {
    // SAFETY: as above.
    yes(unsafe { ffi::feel_strict_value_is_conformant(v.as_ptr(), v.len(), t.as_ptr(), t.len()) })
}

/// The least type of a value of data and function definitions, under the strict reading; refusal 13
/// where a built-in function, a type or an irrelevant mark stands in it.
///
/// ```
/// use hedvaste::values;
/// // Two definitions without parameters, of number and of string.
/// let v = [0x0A, 2, 0, 0x0C, 0, 0, 0, 0x22, 0x0C, 0, 0, 0, 0x23];
/// assert_eq!(values::strict_least_type(&v), Ok(vec![0x2A, 0x2D, 0, 0x20]));
/// assert_eq!(values::least_type(&v).unwrap_err().number(), 13);
/// assert_eq!(values::strict_least_type(&[0x0F]).unwrap_err().number(), 13);
/// ```
pub fn strict_least_type(v: &[u8]) -> Result<Vec<u8>, Refusal> {
    // As long as the value at most, as above: a function type has fewer bytes than its definition.
    written(counted(v), |out| strict_least_type_into(v, out))
}

/// [strict_least_type] at the front of `out`: its length.
///
/// ```
/// let mut out = [0; 3];
/// let v = [0x0C, 0, 0, 0, 0x22];
/// assert_eq!(hedvaste::values::strict_least_type_into(&v, &mut out), Ok(3));
/// assert_eq!(out, [0x2D, 0, 0x22]);
/// ```
pub fn strict_least_type_into(v: &[u8], out: &mut [u8]) -> Result<usize, Refusal> {
    inferred_into(v, out, ffi::feel_strict_value_least_type)
}

/// `Value::type_of`: the type as the Rust infers it.
///
/// ```
/// // [null, true]
/// let v = [0x0A, 2, 0, 0x00, 0, 0x01, 1];
/// assert_eq!(hedvaste::values::type_of(&v), Ok(vec![0x2A, 0x20]));
/// ```
pub fn type_of(v: &[u8]) -> Result<Vec<u8>, Refusal> {
    // As long as the value at most, as above.
    written(counted(v), |out| type_of_into(v, out))
}

/// [type_of] at the front of `out`: its length.
///
/// ```
/// let mut out = [0; 1];
/// assert_eq!(hedvaste::values::type_of_into(&[0x0F], &mut out), Ok(1));
/// assert_eq!(out, [0x20]);
/// ```
pub fn type_of_into(v: &[u8], out: &mut [u8]) -> Result<usize, Refusal> {
    inferred_into(v, out, ffi::feel_value_type_of)
}

/// `Value::coerced`: `v` coerced to the type `t`; null with trace 1 where no rule applies.
///
/// ```
/// use hedvaste::values;
/// // true to list<boolean>, and to number.
/// assert_eq!(values::coerced(&[0x01, 1], &[0x2A, 0x21]), Ok(vec![0x0A, 1, 0, 0x01, 1]));
/// assert_eq!(values::coerced(&[0x01, 1], &[0x22]), Ok(vec![0x00, 1]));
/// ```
pub fn coerced(v: &[u8], t: &[u8]) -> Result<Vec<u8>, Refusal> {
    written_value(|out| coerced_into(v, t, out))
}

/// [coerced] at the front of `out`: its length.
///
/// ```
/// let mut out = [0; 2];
/// assert_eq!(hedvaste::values::coerced_into(&[0x0A, 1, 0, 0x01, 1], &[0x21], &mut out), Ok(2));
/// assert_eq!(out, [0x01, 1]);
/// ```
pub fn coerced_into(v: &[u8], t: &[u8], out: &mut [u8]) -> Result<usize, Refusal> {
    // SAFETY: as above; the output is borrowed alone.
    length(unsafe {
        ffi::feel_value_coerced(
            v.as_ptr(),
            v.len(),
            t.as_ptr(),
            t.len(),
            out.as_mut_ptr(),
            out.len(),
        )
    })
}

/// `Value::is_invalid_coercion`: is it null with trace 1?
///
/// ```
/// assert_eq!(hedvaste::values::is_invalid_coercion(&[0x00, 1]), Ok(true));
/// assert_eq!(hedvaste::values::is_invalid_coercion(&[0x00, 0]), Ok(false));
/// ```
pub fn is_invalid_coercion(v: &[u8]) -> Result<bool, Refusal> {
    asked(v, ffi::feel_value_is_invalid_coercion)
}

/// `Value::is_valid_range`. Two numbers, whole or decimal, are compared by their exact value.
///
/// ```
/// use hedvaste::{IntervalType::Closed, Value, values};
/// let up = Value::range(Value::Number(1), Closed, Value::Number(2), Closed).to_bytes()?;
/// let down = Value::range(Value::Number(2), Closed, Value::Number(1), Closed).to_bytes()?;
/// assert!(values::is_valid_range(&up)?);
/// assert!(!values::is_valid_range(&down)?);
/// let [short, long] = [Value::decimal(25, 1), Value::decimal(250, 2)]; // 2.5 and 2.50
/// let one = Value::range(short.clone(), Closed, long.clone(), Closed).to_bytes()?;
/// let other = Value::range(long, Closed, short, Closed).to_bytes()?;
/// assert!(values::is_valid_range(&one)? && values::is_valid_range(&other)?);
/// # Ok::<(), hedvaste::Refusal>(())
/// ```
pub fn is_valid_range(v: &[u8]) -> Result<bool, Refusal> {
    asked(v, ffi::feel_value_is_valid_range)
}

/// `Value::is_null`.
///
/// ```
/// assert_eq!(hedvaste::values::is_null(&[0x00, 3]), Ok(true));
/// ```
pub fn is_null(v: &[u8]) -> Result<bool, Refusal> {
    asked(v, ffi::feel_value_is_null)
}

/// `Value::is_true`.
///
/// ```
/// assert_eq!(hedvaste::values::is_true(&[0x01, 1]), Ok(true));
/// ```
pub fn is_true(v: &[u8]) -> Result<bool, Refusal> {
    asked(v, ffi::feel_value_is_true)
}

/// `Value::is_false`.
///
/// ```
/// assert_eq!(hedvaste::values::is_false(&[0x01, 1]), Ok(false));
/// ```
pub fn is_false(v: &[u8]) -> Result<bool, Refusal> {
    asked(v, ffi::feel_value_is_false)
}

/// `Value::is_number`.
///
/// ```
/// let seven = hedvaste::Value::Number(7).to_bytes()?;
/// assert!(hedvaste::values::is_number(&seven)?);
/// let half = hedvaste::Value::decimal(5, 1).to_bytes()?;
/// assert!(hedvaste::values::is_number(&half)?);
/// # Ok::<(), hedvaste::Refusal>(())
/// ```
pub fn is_number(v: &[u8]) -> Result<bool, Refusal> {
    asked(v, ffi::feel_value_is_number)
}

/// `Value::is_string`.
///
/// ```
/// assert_eq!(hedvaste::values::is_string(&[0x03, 7, 0]), Ok(true));
/// ```
pub fn is_string(v: &[u8]) -> Result<bool, Refusal> {
    asked(v, ffi::feel_value_is_string)
}

/// `Value::is_list`.
///
/// ```
/// assert_eq!(hedvaste::values::is_list(&[0x0A, 0, 0]), Ok(true));
/// ```
pub fn is_list(v: &[u8]) -> Result<bool, Refusal> {
    asked(v, ffi::feel_value_is_list)
}

/// `Value::is_range`.
///
/// ```
/// assert_eq!(hedvaste::values::is_range(&[0x09, 0, 0, 0x0F, 0x0F]), Ok(true));
/// ```
pub fn is_range(v: &[u8]) -> Result<bool, Refusal> {
    asked(v, ffi::feel_value_is_range)
}

type Question = unsafe extern "C" fn(*const u8, usize) -> u64;

fn asked(v: &[u8], function: Question) -> Result<bool, Refusal> {
    // SAFETY: as above.
    yes(unsafe { function(v.as_ptr(), v.len()) })
}

type Inferred = unsafe extern "C" fn(*const u8, usize, *mut u8, usize, *mut u8, usize) -> u64;

fn inferred_into(v: &[u8], out: &mut [u8], function: Inferred) -> Result<usize, Refusal> {
    let mut scratch = vec![0; 4 * counted(v)];
    // SAFETY: as above; scratch and output are buffers of their own.
    length(unsafe {
        function(
            v.as_ptr(),
            v.len(),
            scratch.as_mut_ptr(),
            scratch.len(),
            out.as_mut_ptr(),
            out.len(),
        )
    })
}
