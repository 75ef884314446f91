//! The type layer of FEEL for pass booking records, safe to call from Rust. Every call goes to the
//! proved library `libfeel.a`; what it answers is what document 01 defines, byte for byte.
//!
//! A record is a slice of bytes, at most 16,384. [Value] and [Type] are trees of the same records,
//! to build and to take apart. A call answers, or refuses by a number: [Refusal]. Outputs and
//! scratch are handled here; each call that writes also has a form `.._into` for an own output.
//!
//! A booking: its owner's name as a text, when it is valid, whether it is paid.
//!
//! ```
//! use hedvaste::{IntervalType, Type, Value, contexts, names, types, values};
//!
//! const NAME: u16 = 0;
//! const PAID: u16 = 1;
//! const VALID: u16 = 2;
//!
//! // Built.
//! let valid = Value::range(
//!     Value::DateTime(3_600),
//!     IntervalType::Closed,
//!     Value::DateTime(7_200),
//!     IntervalType::Opened,
//! );
//! let booking = Value::context([
//!     (NAME, Value::String(7)),
//!     (VALID, valid),
//!     (PAID, Value::Boolean(true)),
//! ])
//! .to_bytes()?;
//!
//! // Judged: the rule expects a name and when it is valid.
//! let expected = Type::context([
//!     (NAME, Type::String),
//!     (VALID, Type::range(Type::DateTime)),
//! ])
//! .to_bytes()?;
//! assert!(values::is_conformant(&booking, &expected)?);
//! assert!(types::is_conformant(&values::least_type(&booking)?, &expected)?);
//! let table = names::table(&["name", "paid", "valid"])?;
//! assert_eq!(
//!     names::display(&expected, &table)?,
//!     "context<name: string, valid: range<date and time>>"
//! );
//!
//! // Coerced: a rule for many bookings gets a list of one.
//! let many = Type::list(Type::from_bytes(&expected)?).to_bytes()?;
//! let coerced = Value::from_bytes(&values::coerced(&booking, &many)?)?;
//! assert_eq!(coerced, Value::list([Value::from_bytes(&booking)?]));
//!
//! // Looked into, and refused with a number.
//! assert!(values::is_true(contexts::get_entry(&booking, PAID)?.unwrap())?);
//! let refusal = types::get_value_checked(&many, &booking).unwrap_err();
//! assert_eq!(refusal.to_string(), "refused 15, the value cannot be retrieved with the type");
//! # Ok::<(), hedvaste::Refusal>(())
//! ```

mod answer;
pub mod bifs;
pub mod contexts;
mod ffi;
mod form;
pub mod intervals;
pub mod names;
mod refusal;
pub mod tables;
mod ty;
pub mod types;
mod value;
pub mod values;

pub use refusal::Refusal;
pub use ty::Type;
pub use value::{IntervalType, Trace, Value};

/// The most bytes a value or a type may have.
pub const MAX_LENGTH: usize = 16_384;
