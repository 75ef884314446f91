//! Stand-in for the body of a function, which is not among the published files: here it is the
//! 16-bit body number of document 01's command 0C.

/// The body of a function: its number.
#[derive(Debug, Clone, PartialEq)]
pub struct FunctionBody(pub u16);
