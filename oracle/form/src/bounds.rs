//! The reduced form of a type, and the common supertype and subtype of two, over trees. Written
//! from document 01's sections "Type against type" and "Common supertype and subtype"; the strict
//! reading of both bounds and the one over a table from document 02's requests K8 and K9.

use crate::Reading;
use dsntk_feel::FeelType;
use std::collections::BTreeMap;

/// The result of every parameterless function, at every depth, becomes Any.
pub fn reduced(feel_type: &FeelType) -> FeelType {
    match feel_type {
        FeelType::List(inner) => FeelType::list(&reduced(inner)),
        FeelType::Range(inner) => FeelType::range(&reduced(inner)),
        FeelType::Context(entries) => {
            let entry = |(name, entry): (&_, &_)| (Clone::clone(name), reduced(entry));
            FeelType::Context(entries.iter().map(entry).collect())
        }
        FeelType::Function(parameters, result) => {
            let parameters: Vec<FeelType> = parameters.iter().map(reduced).collect();
            let result = match parameters.len() {
                0 => FeelType::Any,
                _ => reduced(result),
            };
            FeelType::function(&parameters, &result)
        }
        simple => simple.clone(),
    }
}

/// A type as a bound keeps it: bounds are reduced, the strict ones reduce nothing.
fn kept(feel_type: &FeelType, reading: Reading) -> FeelType {
    if reading.is_strict() {
        feel_type.clone()
    } else {
        reduced(feel_type)
    }
}

/// The least type to which both conform.
pub fn common_supertype(a: &FeelType, b: &FeelType, reading: Reading) -> FeelType {
    let both = |a: &FeelType, b: &FeelType| common_supertype(a, b, reading);
    match (a, b) {
        (FeelType::Null, other) | (other, FeelType::Null) => kept(other, reading),
        (FeelType::List(a), FeelType::List(b)) => FeelType::list(&both(a, b)),
        (FeelType::Range(a), FeelType::Range(b)) => FeelType::range(&both(a, b)),
        (FeelType::Context(a), FeelType::Context(b)) => {
            let mut entries = BTreeMap::new();
            for (name, of_a) in a {
                if let Some(of_b) = b.get(name) {
                    entries.insert(name.clone(), both(of_a, of_b));
                }
            }
            FeelType::Context(entries)
        }
        (FeelType::Function(a, to_a), FeelType::Function(b, to_b)) if a.len() == b.len() => {
            if a.is_empty() && !reading.is_strict() {
                return FeelType::function(&[], &FeelType::Any);
            }
            let subtype = |(a, b)| common_subtype(a, b, reading);
            let parameters: Vec<FeelType> = a.iter().zip(b).map(subtype).collect();
            FeelType::function(&parameters, &both(to_a, to_b))
        }
        (a, b) => reading.table().supertype(a, b).unwrap_or(FeelType::Any),
    }
}

/// The greatest type that conforms to both.
pub fn common_subtype(a: &FeelType, b: &FeelType, reading: Reading) -> FeelType {
    let both = |a: &FeelType, b: &FeelType| common_subtype(a, b, reading);
    match (a, b) {
        (FeelType::Any, other) | (other, FeelType::Any) => kept(other, reading),
        (FeelType::List(a), FeelType::List(b)) => FeelType::list(&both(a, b)),
        (FeelType::Range(a), FeelType::Range(b)) => FeelType::range(&both(a, b)),
        (FeelType::Context(a), FeelType::Context(b)) => {
            let mut entries = BTreeMap::new();
            for (name, of_a) in a {
                let entry = match b.get(name) {
                    Some(of_b) => both(of_a, of_b),
                    None => kept(of_a, reading),
                };
                entries.insert(name.clone(), entry);
            }
            for (name, of_b) in b {
                if !a.contains_key(name) {
                    entries.insert(name.clone(), kept(of_b, reading));
                }
            }
            FeelType::Context(entries)
        }
        (FeelType::Function(a, to_a), FeelType::Function(b, to_b)) if a.len() == b.len() => {
            if a.is_empty() && !reading.is_strict() {
                return FeelType::function(&[], &FeelType::Any);
            }
            let supertype = |(a, b)| common_supertype(a, b, reading);
            let parameters: Vec<FeelType> = a.iter().zip(b).map(supertype).collect();
            FeelType::function(&parameters, &both(to_a, to_b))
        }
        (a, b) => reading.table().subtype(a, b).unwrap_or(FeelType::Null),
    }
}
