//! The calls over texts: types shown as text, names of types, names made of parts.

use crate::Refusal;
use crate::answer::{counted, found, length, written, written_growing, yes};
use crate::ffi;

/// The first room for the text of a type.
const SHOWN: usize = 1_024;

/// The refusal of a table or parts that are none.
const MALFORMED: Refusal = Refusal::of(19);

/// The bytes of a table: texts of bytes 20 to 7E, no blank at an end, that ascend strictly and are
/// numbered from 0. Refusal 19 where they are none.
///
/// ```
/// use hedvaste::names;
/// assert_eq!(names::table(&["a", "bc"]), Ok(b"\x02\x00\x01a\x02bc".to_vec()));
/// assert_eq!(names::table(&["b", "a"]).unwrap_err().number(), 19);
/// ```
pub fn table<T: AsRef<[u8]>>(texts: &[T]) -> Result<Vec<u8>, Refusal> {
    let count = u16::try_from(texts.len()).map_err(|_| MALFORMED)?;
    let table = texts_of(&count.to_le_bytes(), texts)?;
    // The type Null is shown with every table.
    display(&[0x29], &table).map(|_| table)
}

/// The bytes of the parts of a name: at most 255, each at most 255 bytes 00 to 7F. Refusal 19 where
/// they are none.
///
/// ```
/// use hedvaste::names;
/// assert_eq!(names::parts(&["a", "b"]), Ok(b"\x02\x01a\x01b".to_vec()));
/// assert_eq!(names::parts(&["\u{E9}"]).unwrap_err().number(), 19);
/// ```
pub fn parts<T: AsRef<[u8]>>(parts: &[T]) -> Result<Vec<u8>, Refusal> {
    let count = u8::try_from(parts.len()).map_err(|_| MALFORMED)?;
    let parts = texts_of(&[count], parts)?;
    name_new(&parts).map(|_| parts)
}

/// Display of `FeelType`: the text of the type with the names that the table gives; refusal 20 where
/// it does not have the number of a name.
///
/// ```
/// use hedvaste::{Type, names};
/// let table = names::table(&["age", "name"])?;
/// let t = Type::context([(0, Type::Number), (1, Type::list(Type::String))]).to_bytes()?;
/// assert_eq!(names::display(&t, &table)?, "context<age: number, name: list<string>>");
/// # Ok::<(), hedvaste::Refusal>(())
/// ```
pub fn display(t: &[u8], table: &[u8]) -> Result<String, Refusal> {
    // A name of two bytes may be shown as 255, so no short bound holds; the longest text has less
    // than 2 MB.
    written_growing(SHOWN, |out| display_into(t, table, out)).map(ascii)
}

/// [display] at the front of `out`: its length.
///
/// ```
/// let mut out = [0; 12];
/// assert_eq!(hedvaste::names::display_into(&[0x2A, 0x22], &[0, 0], &mut out), Ok(12));
/// assert_eq!(&out, b"list<number>");
/// ```
pub fn display_into(t: &[u8], table: &[u8], out: &mut [u8]) -> Result<usize, Refusal> {
    // SAFETY: pointer and length are those of a slice, here and in every call of this module; the
    // output is borrowed alone.
    length(unsafe {
        ffi::feel_names_display(
            t.as_ptr(),
            t.len(),
            table.as_ptr(),
            table.len(),
            out.as_mut_ptr(),
            out.len(),
        )
    })
}

/// `FeelType::from_str`: the command of the type with the name `s`, 0x20 to 0x29, or none where it
/// is unknown. The name is compared byte for byte and not trimmed.
///
/// ```
/// use hedvaste::names;
/// assert_eq!(names::from_str(b"date and time"), Some(0x26));
/// assert_eq!(names::from_str(b" number"), None);
/// ```
pub fn from_str(s: &[u8]) -> Option<u8> {
    // SAFETY: as above.
    let answer = unsafe { ffi::feel_names_from_str(s.as_ptr(), s.len()) };
    found(answer).ok().flatten().map(|command| command as u8)
}

/// `is_built_in_type_name`: is it the name of one of the ten simple types?
///
/// ```
/// use hedvaste::names;
/// assert!(names::is_built_in_type_name(b"number"));
/// assert!(!names::is_built_in_type_name(b"Number"));
/// ```
pub fn is_built_in_type_name(s: &[u8]) -> bool {
    // SAFETY: as above.
    let answer = unsafe { ffi::feel_names_is_built_in_type_name(s.as_ptr(), s.len()) };
    yes(answer) == Ok(true)
}

/// `Name::new`: the name made of the parts, each without the blanks at its ends.
///
/// ```
/// use hedvaste::names;
/// let parts = names::parts(&["first ", "name"])?;
/// assert_eq!(names::name_new(&parts)?, "first name");
/// # Ok::<(), hedvaste::Refusal>(())
/// ```
pub fn name_new(parts: &[u8]) -> Result<String, Refusal> {
    // A part has a length byte, which is room for the blank before it.
    written(counted(parts), |out| name_new_into(parts, out)).map(ascii)
}

/// [name_new] at the front of `out`: its length.
///
/// ```
/// let mut out = [0; 2];
/// assert_eq!(hedvaste::names::name_new_into(b"\x02\x00\x01b", &mut out), Ok(2));
/// assert_eq!(&out, b" b");
/// ```
pub fn name_new_into(parts: &[u8], out: &mut [u8]) -> Result<usize, Refusal> {
    // SAFETY: as above.
    length(unsafe {
        ffi::feel_names_name_new(parts.as_ptr(), parts.len(), out.as_mut_ptr(), out.len())
    })
}

/// `Name::from`: `s` without the blanks 09 to 0D and 20 at both its ends. It may have any bytes, at
/// most 16,384 of them: refusal 19.
///
/// ```
/// use hedvaste::names;
/// assert_eq!(names::trim(b"\ta b \n")?, b"a b");
/// assert_eq!(names::trim(&[0x20; 16_385]).unwrap_err().number(), 19);
/// # Ok::<(), hedvaste::Refusal>(())
/// ```
pub fn trim(s: &[u8]) -> Result<Vec<u8>, Refusal> {
    // Never longer than `s`.
    written(counted(s), |out| trim_into(s, out))
}

/// [trim] at the front of `out`: its length.
///
/// ```
/// let mut out = [0; 1];
/// assert_eq!(hedvaste::names::trim_into(b" a ", &mut out), Ok(1));
/// assert_eq!(hedvaste::names::trim_into(b" ab ", &mut out).unwrap_err().number(), 18);
/// ```
pub fn trim_into(s: &[u8], out: &mut [u8]) -> Result<usize, Refusal> {
    // SAFETY: as above.
    length(unsafe { ffi::feel_names_trim(s.as_ptr(), s.len(), out.as_mut_ptr(), out.len()) })
}

/// A count and the texts, each behind its length.
fn texts_of<T: AsRef<[u8]>>(count: &[u8], texts: &[T]) -> Result<Vec<u8>, Refusal> {
    let mut bytes = count.to_vec();
    for text in texts.iter().map(AsRef::as_ref) {
        bytes.push(u8::try_from(text.len()).map_err(|_| MALFORMED)?);
        bytes.extend(text);
    }
    Ok(bytes)
}

/// Texts and names have bytes up to 7F only.
fn ascii(bytes: Vec<u8>) -> String {
    String::from_utf8_lossy(&bytes).into_owned()
}
