//! The readings of conformance, of types and of values. Document 01's is asked of the published Rust.
//! The strict one is written from document 02's request K8, the one over a table from its request K9;
//! no published function has them.

use crate::Table;
use dsntk_feel::FeelType;
use dsntk_feel::values::Value;

/// How types are read.
#[derive(Debug, Clone, Copy, PartialEq, Eq)]
pub enum Reading {
    /// As the published Rust does: the result of a parameterless function does not count, and the
    /// parameters of a function definition are compared the same way as its result.
    Ported,
    /// As DMN does: every result counts, and a function definition conforms as its function type.
    Strict,
    /// As the published Rust does, with this relation among the simple types.
    Table(Table),
}

impl Reading {
    /// Whether functions are read as DMN does.
    pub fn is_strict(self) -> bool {
        self == Reading::Strict
    }

    /// The relation among the simple types.
    pub fn table(self) -> Table {
        match self {
            Reading::Ported | Reading::Strict => Table::FIXED,
            Reading::Table(table) => table,
        }
    }
}

/// Whether type `a` conforms to type `b`.
pub fn conforms(a: &FeelType, b: &FeelType, reading: Reading) -> bool {
    match reading {
        Reading::Ported => a.is_conformant(b),
        Reading::Strict | Reading::Table(_) => written_out(a, b, reading),
    }
}

/// Whether a value conforms to a type.
pub fn value_conforms(v: &Value, t: &FeelType, reading: Reading) -> bool {
    match reading {
        Reading::Ported => v.is_conformant(t),
        Reading::Strict | Reading::Table(_) => value_written_out(v, t, reading),
    }
}

fn written_out(a: &FeelType, b: &FeelType, reading: Reading) -> bool {
    let to = |a: &FeelType, b: &FeelType| written_out(a, b, reading);
    match (a, b) {
        (FeelType::Null, _) | (_, FeelType::Any) => true,
        (FeelType::List(a), FeelType::List(b)) => to(a, b),
        (FeelType::Range(a), FeelType::Range(b)) => to(a, b),
        (FeelType::Context(a), FeelType::Context(b)) => b
            .iter()
            .all(|(name, of_b)| a.get(name).is_some_and(|of_a| to(of_a, of_b))),
        (FeelType::Function(a, to_a), FeelType::Function(b, to_b)) => {
            let is_left_out = a.is_empty() && !reading.is_strict();
            a.len() == b.len()
                && a.iter().zip(b).all(|(a, b)| to(b, a))
                && (is_left_out || to(to_a, to_b))
        }
        (a, b) => reading.table().conforms(a, b),
    }
}

fn value_written_out(v: &Value, t: &FeelType, reading: Reading) -> bool {
    let meets = |v: &Value, t: &FeelType| value_written_out(v, t, reading);
    let to = |a: &FeelType, b: &FeelType| written_out(a, b, reading);
    match (v, t) {
        (_, FeelType::Any) | (Value::Null(_), _) => true,
        (Value::Range(start, _, end, _), FeelType::Range(inner)) => {
            meets(start, inner) && meets(end, inner)
        }
        (Value::List(items), FeelType::List(inner)) => items.iter().all(|item| meets(item, inner)),
        (Value::Context(context), FeelType::Context(entries)) => entries
            .iter()
            .all(|(name, wanted)| context.get(name).is_some_and(|entry| meets(entry, wanted))),
        // Its inferred type is its function type.
        (Value::FunctionDefinition(..), t) if reading.is_strict() => to(&v.type_of(), t),
        (
            Value::FunctionDefinition(own, _, _, _, _, result),
            FeelType::Function(wanted, to_wanted),
        ) => {
            own.len() == wanted.len()
                && to(result, to_wanted)
                && own
                    .iter()
                    .zip(wanted)
                    .all(|((_, own), wanted)| to(own, wanted))
        }
        (v, t) => simple_type(v).is_some_and(|own| reading.table().conforms(&own, t)),
    }
}

/// The type of a value of a simple kind.
pub(crate) fn simple_type(v: &Value) -> Option<FeelType> {
    match v {
        Value::Null(_) => Some(FeelType::Null),
        Value::Boolean(_) => Some(FeelType::Boolean),
        Value::Number(_) => Some(FeelType::Number),
        Value::String(_) => Some(FeelType::String),
        Value::Date(_) => Some(FeelType::Date),
        Value::Time(_) => Some(FeelType::Time),
        Value::DateTime(_) => Some(FeelType::DateTime),
        Value::DaysAndTimeDuration(_) => Some(FeelType::DaysAndTimeDuration),
        Value::YearsAndMonthsDuration(_) => Some(FeelType::YearsAndMonthsDuration),
        _ => None,
    }
}
