//! The level of a tree: a leaf has level 1, a parent one more than its deepest child, an empty
//! list or context 1.

use dsntk_feel::FeelType;
use dsntk_feel::values::Value;

/// The level of a type.
pub fn type_level(feel_type: &FeelType) -> usize {
    match feel_type {
        FeelType::List(inner) | FeelType::Range(inner) => 1 + type_level(inner),
        FeelType::Context(entries) => above(entries.values().map(type_level)),
        FeelType::Function(parameters, result) => {
            above(parameters.iter().chain([&**result]).map(type_level))
        }
        _ => 1,
    }
}

/// The level of a value, types inside it counted.
pub fn value_level(value: &Value) -> usize {
    match value {
        Value::Range(start, _, end, _) => above([value_level(start), value_level(end)]),
        Value::List(items) => above(items.iter().map(value_level)),
        Value::Context(context) => above(context.values().map(value_level)),
        Value::FunctionDefinition(parameters, _, _, _, _, result) => {
            let types = parameters.iter().map(|(_, feel_type)| feel_type);
            above(types.chain([result]).map(type_level))
        }
        Value::FeelType(feel_type) => 1 + type_level(feel_type),
        _ => 1,
    }
}

/// The level of a parent, from those of its children.
fn above(children: impl IntoIterator<Item = usize>) -> usize {
    1 + children.into_iter().max().unwrap_or(0)
}
