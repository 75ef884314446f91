//! The types of a value, over trees: its least type, written from document 01's section "Least
//! type" and document 02's requests K8 and K9, and the type that the Rust infers.

use crate::Reading;
use crate::bounds::common_supertype;
use crate::reading::simple_type;
use dsntk_feel::FeelType;
use dsntk_feel::context::FeelContext;
use dsntk_feel::values::Value;

/// Up to so many lists inside each other the Rust infers the type of the whole value.
const FEW_LISTS: usize = 6;

/// The least type of a data value; none where a built-in function, a type or Irrelevant stands
/// anywhere in it, or a function definition, which has its function type under the strict reading.
pub fn least_type(value: &Value, reading: Reading) -> Option<FeelType> {
    let least = |value: &Value| least_type(value, reading);
    match value {
        Value::Range(start, _, end, _) => {
            let inner = common_supertype(&least(start)?, &least(end)?, reading);
            Some(FeelType::range(&inner))
        }
        Value::List(items) => {
            let mut inner = FeelType::Null;
            for item in items {
                inner = common_supertype(&inner, &least(item)?, reading);
            }
            Some(FeelType::list(&inner))
        }
        Value::Context(context) => {
            let entry = |(name, entry): (&_, &_)| Some((Clone::clone(name), least(entry)?));
            let entries: Option<_> = context.iter().map(entry).collect();
            Some(FeelType::Context(entries?))
        }
        Value::FunctionDefinition(..) if reading.is_strict() => Some(value.type_of()),
        other => simple_type(other),
    }
}

/// `Value::type_of`. The Rust infers the type of a list's first item twice, so its time doubles
/// with every list inside a list; a value with many of them is asked part by part.
pub fn type_of(value: &Value) -> FeelType {
    if lists_inside(value) <= FEW_LISTS {
        value.type_of()
    } else {
        type_of_parts(value)
    }
}

/// `Value::type_of` of each part, from the inside: for its parent a part is then the type value
/// that has its type, and [Value::type_of] of that is the same type.
pub fn type_of_parts(value: &Value) -> FeelType {
    let part = |part: &Value| Value::FeelType(type_of_parts(part));
    match value {
        Value::Range(start, start_type, end, end_type) => Value::Range(
            Box::new(part(start)),
            *start_type,
            Box::new(part(end)),
            *end_type,
        )
        .type_of(),
        Value::List(items) => Value::List(items.iter().map(part).collect()).type_of(),
        Value::Context(context) => {
            let mut parts = FeelContext::new();
            for (name, entry) in context.iter() {
                parts.set_entry(name, part(entry));
            }
            Value::Context(parts).type_of()
        }
        other => other.type_of(),
    }
}

/// How many lists stand inside each other.
pub fn lists_inside(value: &Value) -> usize {
    match value {
        Value::Range(start, _, end, _) => lists_inside(start).max(lists_inside(end)),
        Value::List(items) => 1 + items.iter().map(lists_inside).max().unwrap_or(0),
        Value::Context(context) => context.values().map(lists_inside).max().unwrap_or(0),
        _ => 0,
    }
}
