//! The built-in functions, by their position in `Bif`: 0 to 85.

use crate::Refusal;
use crate::answer::{length, written_growing};
use crate::ffi;

/// `Bif::feel_type`: the type of the built-in function at position `b`; a position over 85 is
/// refused 2.
///
/// ```
/// // Abs is function<number> to number.
/// assert_eq!(hedvaste::bifs::feel_type(0), Ok(vec![0x2D, 1, 0x22, 0x22]));
/// assert_eq!(hedvaste::bifs::feel_type(86).unwrap_err().number(), 2);
/// ```
pub fn feel_type(b: u8) -> Result<Vec<u8>, Refusal> {
    // The longest has four bytes; another library may have longer ones.
    written_growing(4, |out| feel_type_into(b, out))
}

/// [feel_type] at the front of `out`: its length.
///
/// ```
/// let mut out = [0; 3];
/// assert_eq!(hedvaste::bifs::feel_type_into(1, &mut out), Ok(1));
/// assert_eq!(out, [0x20, 0, 0]);
/// ```
pub fn feel_type_into(b: u8, out: &mut [u8]) -> Result<usize, Refusal> {
    // SAFETY: pointer and length are those of a slice.
    length(unsafe { ffi::feel_bif_feel_type(b, out.as_mut_ptr(), out.len()) })
}
