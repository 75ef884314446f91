//! The calls over a table of the simple types. A table is a hundred bytes 0 or 1, row conforms to
//! column, in the order of the commands 20 to 29, Any first and Null last, as [fixed] and [with] give
//! it. Every call reads it first: refusal 26 where it is not a hundred such bytes, 27 where it is no
//! order from Null up to Any, 28 where two types lack a least common supertype. All else is as in the
//! calls of [types](crate::types) and [values](crate::values), the strict ones left aside: functions
//! without parameters do not compare their results, and answers are reduced.

use crate::Refusal;
use crate::answer::{counted, length, written, yes};
use crate::ffi;

/// How many simple types there are.
const COUNT: usize = 10;

/// How many bytes a table has.
pub const LENGTH: usize = COUNT * COUNT;

/// The table of the fixed relation: Null conforms to all, all conform to Any, each to itself.
///
/// ```
/// use hedvaste::tables;
/// let table = tables::fixed();
/// assert_eq!(tables::check(&table), Ok(()));
/// assert_eq!(tables::type_is_conformant(&table, &[0x24], &[0x26]), Ok(false));
/// ```
pub fn fixed() -> [u8; LENGTH] {
    let mut table = [0; LENGTH];
    for t in 0..COUNT {
        table[COUNT * t + t] = 1;
        table[COUNT * t] = 1;
        table[COUNT * (COUNT - 1) + t] = 1;
    }
    table
}

/// The fixed relation's table, and each first type conforms to the second: commands 20 to 29.
/// Nothing is carried through a third type; [check] says whether the table loads.
///
/// ```
/// use hedvaste::tables;
/// // A date is accepted wherever a date and time is expected.
/// let table = tables::with(&[(0x24, 0x26)]);
/// assert_eq!(tables::type_is_conformant(&table, &[0x24], &[0x26]), Ok(true));
/// ```
///
/// # Panics
/// Where a command is no simple type's.
pub fn with(pairs: &[(u8, u8)]) -> [u8; LENGTH] {
    let place = |command: u8| match command {
        0x20..=0x29 => usize::from(command - 0x20),
        _ => panic!("{command:02X} is no simple type"),
    };
    let mut table = fixed();
    for (below, above) in pairs {
        table[COUNT * place(*below) + place(*above)] = 1;
    }
    table
}

/// Does the table load? Refusal 26, 27 or 28 where it does not.
///
/// ```
/// use hedvaste::tables;
/// assert_eq!(tables::check(&tables::with(&[(0x24, 0x26)])), Ok(()));
/// assert_eq!(tables::check(&[1; 99]).unwrap_err().number(), 26);
/// // Each conforms to the other.
/// let mutual = tables::with(&[(0x24, 0x26), (0x26, 0x24)]);
/// assert_eq!(tables::check(&mutual).unwrap_err().number(), 27);
/// // Booleans and numbers are both strings and dates.
/// let two = tables::with(&[(0x21, 0x23), (0x21, 0x24), (0x22, 0x23), (0x22, 0x24)]);
/// assert_eq!(tables::check(&two).unwrap_err().number(), 28);
/// ```
pub fn check(table: &[u8]) -> Result<(), Refusal> {
    // SAFETY: pointer and length are those of a slice, here and in every call of this module.
    yes(unsafe { ffi::feel_table_check(table.as_ptr(), table.len()) }).map(|_| ())
}

/// Does the type `a` conform to the type `b` over the table?
///
/// ```
/// use hedvaste::{tables, types};
/// let table = tables::with(&[(0x24, 0x26)]);
/// let (dates, times) = ([0x2A, 0x24], [0x2A, 0x26]); // list<date>, list<date and time>
/// assert_eq!(types::is_conformant(&dates, &times), Ok(false));
/// assert_eq!(tables::type_is_conformant(&table, &dates, &times), Ok(true));
/// ```
pub fn type_is_conformant(table: &[u8], a: &[u8], b: &[u8]) -> Result<bool, Refusal> {
    asked(table, a, b, ffi::feel_table_type_is_conformant)
}

/// The least type to which both conform over the table, reduced.
///
/// ```
/// use hedvaste::tables;
/// let table = tables::with(&[(0x24, 0x26)]);
/// assert_eq!(tables::common_supertype(&table, &[0x24], &[0x26]), Ok(vec![0x26]));
/// assert_eq!(tables::common_supertype(&table, &[0x24], &[0x25]), Ok(vec![0x20]));
/// ```
pub fn common_supertype(table: &[u8], a: &[u8], b: &[u8]) -> Result<Vec<u8>, Refusal> {
    written(together(a, b), |out| {
        common_supertype_into(table, a, b, out)
    })
}

/// [common_supertype] at the front of `out`: its length.
///
/// ```
/// use hedvaste::tables;
/// let mut out = [0; 2];
/// let (table, dates, times) = (tables::with(&[(0x24, 0x26)]), [0x2A, 0x24], [0x2A, 0x26]);
/// assert_eq!(tables::common_supertype_into(&table, &dates, &times, &mut out), Ok(2));
/// assert_eq!(out, times);
/// ```
pub fn common_supertype_into(
    table: &[u8],
    a: &[u8],
    b: &[u8],
    out: &mut [u8],
) -> Result<usize, Refusal> {
    bound_into(table, a, b, out, ffi::feel_table_type_common_supertype)
}

/// The greatest type that conforms to both over the table, reduced.
///
/// ```
/// use hedvaste::tables;
/// let table = tables::with(&[(0x24, 0x26)]);
/// assert_eq!(tables::common_subtype(&table, &[0x24], &[0x26]), Ok(vec![0x24]));
/// assert_eq!(tables::common_subtype(&tables::fixed(), &[0x24], &[0x26]), Ok(vec![0x29]));
/// ```
pub fn common_subtype(table: &[u8], a: &[u8], b: &[u8]) -> Result<Vec<u8>, Refusal> {
    written(together(a, b), |out| common_subtype_into(table, a, b, out))
}

/// [common_subtype] at the front of `out`: its length.
///
/// ```
/// use hedvaste::tables;
/// let mut out = [0; 1];
/// let table = tables::with(&[(0x24, 0x26)]);
/// assert_eq!(tables::common_subtype_into(&table, &[0x26], &[0x24], &mut out), Ok(1));
/// assert_eq!(out, [0x24]);
/// ```
pub fn common_subtype_into(
    table: &[u8],
    a: &[u8],
    b: &[u8],
    out: &mut [u8],
) -> Result<usize, Refusal> {
    bound_into(table, a, b, out, ffi::feel_table_type_common_subtype)
}

/// Does the value `v` conform to the type `t` over the table?
///
/// ```
/// use hedvaste::{Type, Value, tables, values};
/// let (v, t) = (Value::Date(7).to_bytes()?, Type::DateTime.to_bytes()?);
/// assert!(!values::is_conformant(&v, &t)?);
/// assert!(tables::value_is_conformant(&tables::with(&[(0x24, 0x26)]), &v, &t)?);
/// # Ok::<(), hedvaste::Refusal>(())
/// ```
pub fn value_is_conformant(table: &[u8], v: &[u8], t: &[u8]) -> Result<bool, Refusal> {
    asked(table, v, t, ffi::feel_table_value_is_conformant)
}

/// The least type of a data value over the table; refusal 13 where it is none.
///
/// ```
/// use hedvaste::{Value, tables, values};
/// let v = Value::list([Value::Date(7), Value::DateTime(7)]).to_bytes()?;
/// assert_eq!(values::least_type(&v)?, [0x2A, 0x20]);
/// assert_eq!(tables::least_type(&tables::with(&[(0x24, 0x26)]), &v)?, [0x2A, 0x26]);
/// # Ok::<(), hedvaste::Refusal>(())
/// ```
pub fn least_type(table: &[u8], v: &[u8]) -> Result<Vec<u8>, Refusal> {
    // As long as the value at most: every command takes fewer bytes or as many.
    written(counted(v), |out| least_type_into(table, v, out))
}

/// [least_type] at the front of `out`: its length.
///
/// ```
/// use hedvaste::tables;
/// let mut out = [0; 2];
/// assert_eq!(tables::least_type_into(&tables::fixed(), &[0x0A, 0, 0], &mut out), Ok(2));
/// assert_eq!(out, [0x2A, 0x29]);
/// ```
pub fn least_type_into(table: &[u8], v: &[u8], out: &mut [u8]) -> Result<usize, Refusal> {
    let mut scratch = vec![0; 4 * counted(v)];
    // SAFETY: as above; scratch and output are buffers of their own.
    length(unsafe {
        ffi::feel_table_value_least_type(
            table.as_ptr(),
            table.len(),
            v.as_ptr(),
            v.len(),
            scratch.as_mut_ptr(),
            scratch.len(),
            out.as_mut_ptr(),
            out.len(),
        )
    })
}

type Question = unsafe extern "C" fn(*const u8, usize, *const u8, usize, *const u8, usize) -> u64;

fn asked(table: &[u8], a: &[u8], b: &[u8], function: Question) -> Result<bool, Refusal> {
    let (first, second) = (a.as_ptr(), b.as_ptr());
    // SAFETY: as above.
    yes(unsafe { function(table.as_ptr(), table.len(), first, a.len(), second, b.len()) })
}

/// The scratch of a common supertype or subtype, and the longest answer: never longer than the two
/// types together.
fn together(a: &[u8], b: &[u8]) -> usize {
    counted(a) + counted(b)
}

type Bound = unsafe extern "C" fn(
    *const u8,
    usize,
    *const u8,
    usize,
    *const u8,
    usize,
    *mut u8,
    usize,
    *mut u8,
    usize,
) -> u64;

fn bound_into(
    table: &[u8],
    a: &[u8],
    b: &[u8],
    out: &mut [u8],
    function: Bound,
) -> Result<usize, Refusal> {
    let mut scratch = vec![0; together(a, b)];
    // SAFETY: as above; the scratch is a buffer of its own.
    length(unsafe {
        function(
            table.as_ptr(),
            table.len(),
            a.as_ptr(),
            a.len(),
            b.as_ptr(),
            b.len(),
            scratch.as_mut_ptr(),
            scratch.len(),
            out.as_mut_ptr(),
            out.len(),
        )
    })
}
