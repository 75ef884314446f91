//! Generators of cases, as plain bytes. For the readers: all short strings, records at the limits
//! of level and length, random well-formed records, and damaged copies. For the calls over two
//! types: all short types, types near each other, pairs at the limits, and pairs that differ at a
//! parameterless function. For the calls over
//! values: all values with few nodes, values near each other, decimal numbers, function definitions
//! beside function types, data at the limits. For the calls over contexts: contexts inside each other, and paths.
//! For the calls over a table of simple types: tables that load, tables with a fault, records near each
//! other by a table.
//! For the calls over texts: tables, and the parts of names. Nothing here reads or writes by the code
//! of `feel-form`, so that a fault there does not shape the cases.

mod chains;
mod contexts;
mod damage;
mod decimals;
mod definitions;
mod draft;
mod holders;
mod lengths;
mod limits;
mod near;
mod parameterless;
mod random;
mod small;
mod small_values;
mod strings;
mod tables;
mod texts;
mod tree;
mod value_tree;

pub use chains::{
    DATA_IN_DATA, Ending, TYPE_IN_TYPE, TYPE_IN_VALUE, VALUE_IN_VALUE, Wrapper, chain, each_chain,
    each_data_chain,
};
pub use contexts::{context_chain, filled_list, random_context, random_path};
pub use damage::each_damage;
pub use decimals::{MAX_EXPONENT, decimal, each_decimal, near_number, whole};
pub use definitions::each_definition;
pub use draft::{Draft, random_draft};
pub use holders::{HOLDERS, Holder, VALUE_STEPS, ValueStep, definition, held, value_around};
pub use lengths::{each_long, long_data, long_records};
pub use limits::{EachPair, each_deep_pair, each_long_pair};
pub use near::{Move, instances, near};
pub use parameterless::{
    ENDS, End, STEPS, Step, around, around_once, ends, near_result, value_with_parameterless,
    with_parameterless,
};
pub use random::Random;
pub use small::{small_contexts, small_types};
pub use small_values::small_values;
pub use strings::each_string;
pub use tables::{
    TABLE_FAULTS, TABLE_SHAPES, TableFault, TableShape, any_table, faulty_table, fixed_table,
    near_leaves, near_simple, random_order, related, shaped_table, table_has, table_with, value_of,
};
pub use texts::{dense_texts, long_texts, parts_of, random_texts, renamed, table_of};
pub use tree::{ANY, NULL, Tree};
pub use value_tree::{Parts, ValueTree, near_value, null};

/// What a record is to be read as.
#[derive(Debug, Clone, Copy, PartialEq, Eq)]
pub enum Kind {
    Value,
    Type,
}

/// Receives the cases one after the other.
pub type Each<'a> = dyn FnMut(&[u8]) + 'a;
