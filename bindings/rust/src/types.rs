//! The calls over types. A type is a slice of bytes, as [Type::to_bytes](crate::Type::to_bytes)
//! gives it.

use crate::Refusal;
use crate::answer::{counted, given, length, written, written_value, yes};
use crate::ffi;

/// Reads a type: its level, 1 to 32, or refusal 6 to 10.
///
/// ```
/// use hedvaste::types;
/// assert_eq!(types::check_type(&[0x2A, 0x22]), Ok(2));
/// assert_eq!(types::check_type(&[0x2A]).unwrap_err().number(), 7);
/// ```
pub fn check_type(t: &[u8]) -> Result<u32, Refusal> {
    // SAFETY: pointer and length are those of a slice, here and in every call of this module.
    given(unsafe { ffi::feel_check_type(t.as_ptr(), t.len()) })
}

/// `FeelType::is_conformant`: does the type `a` conform to the type `b`?
///
/// ```
/// use hedvaste::{Type, types};
/// let one = Type::context([(1, Type::Number)]).to_bytes()?;
/// let two = Type::context([(1, Type::Number), (2, Type::Date)]).to_bytes()?;
/// assert!(types::is_conformant(&two, &one)?);
/// assert!(!types::is_conformant(&one, &two)?);
/// # Ok::<(), hedvaste::Refusal>(())
/// ```
pub fn is_conformant(a: &[u8], b: &[u8]) -> Result<bool, Refusal> {
    // SAFETY: as above.
    yes(unsafe { ffi::feel_type_is_conformant(a.as_ptr(), a.len(), b.as_ptr(), b.len()) })
}

/// `FeelType::instance_of`: is the type `a` an instance of the type `b`?
///
/// ```
/// use hedvaste::types;
/// assert_eq!(types::instance_of(&[0x2A, 0x22], &[0x2A, 0x20]), Ok(true));
/// assert_eq!(types::instance_of(&[0x22], &[0x22]), Ok(false));
/// ```
pub fn instance_of(a: &[u8], b: &[u8]) -> Result<bool, Refusal> {
    // SAFETY: as above.
    yes(unsafe { ffi::feel_type_instance_of(a.as_ptr(), a.len(), b.as_ptr(), b.len()) })
}

/// The least type to which both conform, reduced.
///
/// ```
/// use hedvaste::types;
/// let supertype = types::common_supertype(&[0x2D, 1, 0x22, 0x22], &[0x2D, 1, 0x23, 0x23]);
/// assert_eq!(supertype, Ok(vec![0x2D, 1, 0x29, 0x20]));
/// ```
pub fn common_supertype(a: &[u8], b: &[u8]) -> Result<Vec<u8>, Refusal> {
    written(together(a, b), |out| common_supertype_into(a, b, out))
}

/// [common_supertype] at the front of `out`: its length.
///
/// ```
/// let mut out = [0; 1];
/// assert_eq!(hedvaste::types::common_supertype_into(&[0x22], &[0x29], &mut out), Ok(1));
/// assert_eq!(out, [0x22]);
/// ```
pub fn common_supertype_into(a: &[u8], b: &[u8], out: &mut [u8]) -> Result<usize, Refusal> {
    bound_into(a, b, out, ffi::feel_type_common_supertype)
}

/// The greatest type that conforms to both, reduced.
///
/// ```
/// use hedvaste::types;
/// assert_eq!(types::common_subtype(&[0x2A, 0x20], &[0x2A, 0x22]), Ok(vec![0x2A, 0x22]));
/// ```
pub fn common_subtype(a: &[u8], b: &[u8]) -> Result<Vec<u8>, Refusal> {
    written(together(a, b), |out| common_subtype_into(a, b, out))
}

/// [common_subtype] at the front of `out`: its length.
///
/// ```
/// let mut out = [0; 1];
/// assert_eq!(hedvaste::types::common_subtype_into(&[0x22], &[0x23], &mut out), Ok(1));
/// assert_eq!(out, [0x29]);
/// ```
pub fn common_subtype_into(a: &[u8], b: &[u8], out: &mut [u8]) -> Result<usize, Refusal> {
    bound_into(a, b, out, ffi::feel_type_common_subtype)
}

/// The reduced form of a type: the result of every function without parameters becomes Any.
///
/// ```
/// assert_eq!(hedvaste::types::reduced(&[0x2D, 0, 0x22]), Ok(vec![0x2D, 0, 0x20]));
/// ```
pub fn reduced(t: &[u8]) -> Result<Vec<u8>, Refusal> {
    // It is never longer than the type: a result becomes one byte.
    written(counted(t), |out| reduced_into(t, out))
}

/// [reduced] at the front of `out`: its length.
///
/// ```
/// let mut out = [0; 9];
/// assert_eq!(hedvaste::types::reduced_into(&[0x2D, 0, 0x2A, 0x22], &mut out), Ok(3));
/// ```
pub fn reduced_into(t: &[u8], out: &mut [u8]) -> Result<usize, Refusal> {
    // SAFETY: as above; the output is borrowed alone, here and below.
    length(unsafe { ffi::feel_type_reduced(t.as_ptr(), t.len(), out.as_mut_ptr(), out.len()) })
}

/// `FeelType::is_simple_built_in_type`: is it one of the ten simple types?
///
/// ```
/// use hedvaste::types;
/// assert_eq!(types::is_simple_built_in_type(&[0x22]), Ok(true));
/// assert_eq!(types::is_simple_built_in_type(&[0x2A, 0x22]), Ok(false));
/// ```
pub fn is_simple_built_in_type(t: &[u8]) -> Result<bool, Refusal> {
    // SAFETY: as above.
    yes(unsafe { ffi::feel_type_is_simple_built_in_type(t.as_ptr(), t.len()) })
}

/// `FeelType::is_null`: is it the type Null?
///
/// ```
/// assert_eq!(hedvaste::types::is_null(&[0x29]), Ok(true));
/// assert_eq!(hedvaste::types::is_null(&[0x20]), Ok(false));
/// ```
pub fn is_null(t: &[u8]) -> Result<bool, Refusal> {
    // SAFETY: as above.
    yes(unsafe { ffi::feel_type_is_null(t.as_ptr(), t.len()) })
}

/// `FeelType::get_value_checked`: the value `v` retrieved by the type `t`, or refusal 15.
///
/// ```
/// use hedvaste::types;
/// // Of {1: true, 2: true} the type names the first entry alone.
/// let v = [0x0B, 2, 0, 1, 0, 0x01, 1, 2, 0, 0x01, 1];
/// let t = [0x2C, 1, 0, 1, 0, 0x21];
/// assert_eq!(types::get_value_checked(&t, &v), Ok(vec![0x0B, 1, 0, 1, 0, 0x01, 1]));
/// assert_eq!(types::get_value_checked(&[0x22], &v).unwrap_err().number(), 15);
/// ```
pub fn get_value_checked(t: &[u8], v: &[u8]) -> Result<Vec<u8>, Refusal> {
    written_value(|out| get_value_checked_into(t, v, out))
}

/// [get_value_checked] at the front of `out`: its length.
///
/// ```
/// let mut out = [0; 2];
/// assert_eq!(hedvaste::types::get_value_checked_into(&[0x21], &[0x01, 1], &mut out), Ok(2));
/// assert_eq!(out, [0x01, 1]);
/// ```
pub fn get_value_checked_into(t: &[u8], v: &[u8], out: &mut [u8]) -> Result<usize, Refusal> {
    retrieve_into(t, v, out, ffi::feel_type_get_value_checked)
}

/// `FeelType::get_conformant_value`: `v` retrieved by `t` where it conforms, otherwise null with
/// trace 2; null with trace 0 by the type Null.
///
/// ```
/// use hedvaste::types;
/// assert_eq!(types::get_conformant_value(&[0x21], &[0x01, 1]), Ok(vec![0x01, 1]));
/// assert_eq!(types::get_conformant_value(&[0x22], &[0x01, 1]), Ok(vec![0x00, 2]));
/// ```
pub fn get_conformant_value(t: &[u8], v: &[u8]) -> Result<Vec<u8>, Refusal> {
    written_value(|out| get_conformant_value_into(t, v, out))
}

/// [get_conformant_value] at the front of `out`: its length.
///
/// ```
/// let mut out = [7; 3];
/// assert_eq!(hedvaste::types::get_conformant_value_into(&[0x29], &[0x0F], &mut out), Ok(2));
/// assert_eq!(out, [0x00, 0, 7]);
/// ```
pub fn get_conformant_value_into(t: &[u8], v: &[u8], out: &mut [u8]) -> Result<usize, Refusal> {
    retrieve_into(t, v, out, ffi::feel_type_get_conformant_value)
}

/// Does the type `a` strictly conform to the type `b`? As [is_conformant], but functions without
/// parameters compare their results too, at every depth.
///
/// ```
/// use hedvaste::types;
/// let (number, string) = ([0x2D, 0, 0x22], [0x2D, 0, 0x23]); // function<>->number, ..->string
/// assert_eq!(types::is_conformant(&number, &string), Ok(true));
/// assert_eq!(types::strict_is_conformant(&number, &string), Ok(false));
/// assert_eq!(types::strict_is_conformant(&number, &[0x2D, 0, 0x20]), Ok(true));
/// ```
pub fn strict_is_conformant(a: &[u8], b: &[u8]) -> Result<bool, Refusal> {
    // SAFETY: as above.
    yes(unsafe { ffi::feel_strict_type_is_conformant(a.as_ptr(), a.len(), b.as_ptr(), b.len()) })
}

/// The least type to which both strictly conform. Nothing is reduced.
///
/// ```
/// use hedvaste::types;
/// assert_eq!(types::common_supertype(&[0x29], &[0x2D, 0, 0x21]), Ok(vec![0x2D, 0, 0x20]));
/// assert_eq!(types::strict_common_supertype(&[0x29], &[0x2D, 0, 0x21]), Ok(vec![0x2D, 0, 0x21]));
/// ```
pub fn strict_common_supertype(a: &[u8], b: &[u8]) -> Result<Vec<u8>, Refusal> {
    written(together(a, b), |out| {
        strict_common_supertype_into(a, b, out)
    })
}

/// [strict_common_supertype] at the front of `out`: its length.
///
/// ```
/// let mut out = [0; 3];
/// let (number, string) = ([0x2D, 0, 0x22], [0x2D, 0, 0x23]);
/// assert_eq!(hedvaste::types::strict_common_supertype_into(&number, &string, &mut out), Ok(3));
/// assert_eq!(out, [0x2D, 0, 0x20]);
/// ```
pub fn strict_common_supertype_into(a: &[u8], b: &[u8], out: &mut [u8]) -> Result<usize, Refusal> {
    bound_into(a, b, out, ffi::feel_strict_type_common_supertype)
}

/// The greatest type that strictly conforms to both. Nothing is reduced.
///
/// ```
/// use hedvaste::types;
/// let (number, string) = ([0x2D, 0, 0x22], [0x2D, 0, 0x23]);
/// assert_eq!(types::common_subtype(&number, &string), Ok(vec![0x2D, 0, 0x20]));
/// assert_eq!(types::strict_common_subtype(&number, &string), Ok(vec![0x2D, 0, 0x29]));
/// ```
pub fn strict_common_subtype(a: &[u8], b: &[u8]) -> Result<Vec<u8>, Refusal> {
    written(together(a, b), |out| strict_common_subtype_into(a, b, out))
}

/// [strict_common_subtype] at the front of `out`: its length.
///
/// ```
/// let mut out = [0; 3];
/// let number = [0x2D, 0, 0x22];
/// assert_eq!(hedvaste::types::strict_common_subtype_into(&[0x20], &number, &mut out), Ok(3));
/// assert_eq!(out, number);
/// ```
pub fn strict_common_subtype_into(a: &[u8], b: &[u8], out: &mut [u8]) -> Result<usize, Refusal> {
    bound_into(a, b, out, ffi::feel_strict_type_common_subtype)
}

/// The scratch of a common supertype or subtype, and the longest answer: never longer than the two
/// types together.
fn together(a: &[u8], b: &[u8]) -> usize {
    counted(a) + counted(b)
}

type Bound =
    unsafe extern "C" fn(*const u8, usize, *const u8, usize, *mut u8, usize, *mut u8, usize) -> u64;

fn bound_into(a: &[u8], b: &[u8], out: &mut [u8], function: Bound) -> Result<usize, Refusal> {
    let mut scratch = vec![0; together(a, b)];
    // SAFETY: as above; the scratch is a buffer of its own.
    length(unsafe {
        function(
            a.as_ptr(),
            a.len(),
            b.as_ptr(),
            b.len(),
            scratch.as_mut_ptr(),
            scratch.len(),
            out.as_mut_ptr(),
            out.len(),
        )
    })
}

type Retrieve = unsafe extern "C" fn(*const u8, usize, *const u8, usize, *mut u8, usize) -> u64;

fn retrieve_into(t: &[u8], v: &[u8], out: &mut [u8], function: Retrieve) -> Result<usize, Refusal> {
    // SAFETY: as above.
    length(unsafe {
        function(
            t.as_ptr(),
            t.len(),
            v.as_ptr(),
            v.len(),
            out.as_mut_ptr(),
            out.len(),
        )
    })
}
