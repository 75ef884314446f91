//! Compares the C functions of `libfeel.a` with the Rust, call by call. A new call is a new entry
//! in [calls::CALLS]: its cases, its expected answer from the Rust, and the C function.

pub mod answer;
pub mod call;
pub mod calls;
mod coercion_cases;
mod context_answers;
mod context_cases;
mod context_theorems;
pub mod decimals;
pub mod lent;
pub mod levels;
pub mod library;
mod mapping;
mod names_answers;
mod names_cases;
mod records;
mod robust_args;
pub mod robust_cases;
pub mod run;
pub mod section;
pub mod strict;
mod strict_theorems;
pub mod table;
mod table_answers;
mod table_cases;
mod table_theorems;
mod theorems;
#[cfg(feature = "self-check")]
mod twin;
mod type_answers;
mod type_cases;
mod value_answers;
mod value_cases;
