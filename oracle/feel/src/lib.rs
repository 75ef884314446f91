//! The published `dsntk-feel` files, unchanged, as one library. This file, `function_body` and
//! `strings` stand in for those that were not published; `dto.rs` needs a registry crate and is
//! left out. The attributes keep `cargo fmt` and the compiler's warnings off the published files.

#[path = "../../../docs/src/feel/src/bif.rs"]
#[cfg_attr(rustfmt, rustfmt::skip)]
#[allow(warnings, clippy::all)]
pub mod bif;
#[path = "../../../docs/src/feel/src/closure.rs"]
#[cfg_attr(rustfmt, rustfmt::skip)]
#[allow(warnings, clippy::all)]
pub mod closure;
#[path = "../../../docs/src/feel/src/context.rs"]
#[cfg_attr(rustfmt, rustfmt::skip)]
#[allow(warnings, clippy::all)]
pub mod context;
#[path = "../../../docs/src/feel/src/errors.rs"]
#[cfg_attr(rustfmt, rustfmt::skip)]
#[allow(warnings, clippy::all)]
pub mod errors;
#[path = "../../../docs/src/feel/src/names.rs"]
#[cfg_attr(rustfmt, rustfmt::skip)]
#[allow(warnings, clippy::all)]
pub mod names;
#[path = "../../../docs/src/feel/src/qualified_names.rs"]
#[cfg_attr(rustfmt, rustfmt::skip)]
#[allow(warnings, clippy::all)]
pub mod qualified_names;
#[path = "../../../docs/src/feel/src/ranges.rs"]
#[cfg_attr(rustfmt, rustfmt::skip)]
#[allow(warnings, clippy::all)]
pub mod ranges;
#[path = "../../../docs/src/feel/src/types.rs"]
#[cfg_attr(rustfmt, rustfmt::skip)]
#[allow(warnings, clippy::all)]
pub mod types;
#[path = "../../../docs/src/feel/src/values.rs"]
#[cfg_attr(rustfmt, rustfmt::skip)]
#[allow(warnings, clippy::all)]
pub mod values;

mod function_body;
pub mod strings;

pub use function_body::FunctionBody;
pub use names::Name;
pub use qualified_names::QualifiedName;
pub use types::FeelType;
