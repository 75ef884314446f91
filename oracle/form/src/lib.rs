//! Document 01's byte form over the published Rust's own `FeelType` and `Value`: the readers with
//! their refusals, the level of a tree, and the writers; its reduced form, common supertype and
//! subtype, and least type; and the answers of its calls over types, over values, over contexts and
//! over texts. Written from the document alone; command 10, decimal numbers, the strict reading of
//! functions and the members' table of simple types from document 02.

mod bifs;
mod bounds;
pub mod calls;
pub mod contexts;
mod inferred;
mod level;
pub mod names;
mod read;
mod reading;
mod refusals;
mod table;
mod texts;
mod write;

pub use bifs::BIFS;
pub use bounds::{common_subtype, common_supertype, reduced};
pub use inferred::{least_type, lists_inside, type_of, type_of_parts};
pub use level::{type_level, value_level};
pub use read::{read_type, read_value};
pub use reading::{Reading, conforms, value_conforms};
pub use refusals::words;
pub use table::Table;
pub use texts::{name, text};
pub use write::{write_type, write_value};

/// The most bytes a value or a type may have.
pub const MAX_LENGTH: usize = 16_384;

/// The highest level of a value, types inside it counted.
pub const MAX_VALUE_LEVEL: usize = 31;

/// The highest level of a type.
pub const MAX_TYPE_LEVEL: usize = 32;
