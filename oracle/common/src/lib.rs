//! Stand-in for `dsntk-common`, which is not among the published files: the error type, the
//! result type and the two traits that the published files name.

use std::fmt;

pub use dsntk_common_macros::ToErrorMessage;

/// An error: the name of its kind and its message.
#[derive(Debug, Clone, PartialEq, Eq)]
pub struct DsntkError(String);

impl fmt::Display for DsntkError {
    fn fmt(&self, f: &mut fmt::Formatter<'_>) -> fmt::Result {
        write!(f, "{}", self.0)
    }
}

impl std::error::Error for DsntkError {}

/// A result with [DsntkError] as the usual error.
pub type Result<T, E = DsntkError> = std::result::Result<T, E>;

/// Conversion to JSON text.
pub trait Jsonify {
    fn jsonify(&self) -> String;
}

/// The message of an error kind; the derive macro of the same name implements it.
pub trait ToErrorMessage {
    fn message(self) -> String;
}

impl<T: ToErrorMessage> From<T> for DsntkError {
    fn from(error: T) -> Self {
        let path = std::any::type_name::<T>();
        let kind = path.rsplit("::").next().unwrap_or(path);
        DsntkError(format!("<{kind}> {}", error.message()))
    }
}
