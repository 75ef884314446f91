//! The questions on an interval byte: 0 Opened, 1 OpenedUndef, 2 Closed, 3 ClosedUndef. A byte over
//! 3 is refused 2.

use crate::Refusal;
use crate::answer::yes;
use crate::ffi;

/// `IntervalType::opened`.
///
/// ```
/// assert_eq!(hedvaste::intervals::opened(1), Ok(true));
/// assert_eq!(hedvaste::intervals::opened(4).unwrap_err().number(), 2);
/// ```
pub fn opened(i: u8) -> Result<bool, Refusal> {
    // SAFETY: nothing is lent, here and below.
    yes(unsafe { ffi::feel_interval_opened(i) })
}

/// `IntervalType::closed`.
///
/// ```
/// assert_eq!(hedvaste::intervals::closed(2), Ok(true));
/// ```
pub fn closed(i: u8) -> Result<bool, Refusal> {
    // SAFETY: as above.
    yes(unsafe { ffi::feel_interval_closed(i) })
}

/// `IntervalType::undefined`.
///
/// ```
/// assert_eq!(hedvaste::intervals::undefined(2), Ok(false));
/// ```
pub fn undefined(i: u8) -> Result<bool, Refusal> {
    // SAFETY: as above.
    yes(unsafe { ffi::feel_interval_undefined(i) })
}
