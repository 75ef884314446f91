//! The strict reading on samples, with the published Rust as the judge where it can be one: types can
//! be rewritten without parameterless functions, and there the readings agree.

use crate::call::Checks;
use dsntk_feel::FeelType;
use dsntk_feel::values::Value;
use feel_form::{Reading, conforms, least_type, name, reduced, value_conforms};
use std::collections::BTreeMap;

/// The type with one parameter for every function, at every depth: the context of its parameters,
/// under the names from 1 on. The result becomes a context with the result under 0, and Any under the
/// first name that is no parameter's, so that unequal counts do not conform.
fn rewritten(t: &FeelType) -> FeelType {
    match t {
        FeelType::List(inner) => FeelType::list(&rewritten(inner)),
        FeelType::Range(inner) => FeelType::range(&rewritten(inner)),
        FeelType::Context(entries) => {
            let entry = |(name, entry): (&_, &_)| (Clone::clone(name), rewritten(entry));
            FeelType::Context(entries.iter().map(entry).collect())
        }
        FeelType::Function(parameters, result) => {
            let names = (1..).map(name);
            let parameter =
                FeelType::Context(names.zip(parameters.iter().map(rewritten)).collect());
            let count = name(parameters.len() as u16 + 1);
            let result = BTreeMap::from([(name(0), rewritten(result)), (count, FeelType::Any)]);
            FeelType::function(&[parameter], &FeelType::Context(result))
        }
        simple => simple.clone(),
    }
}

/// Strict conformance is the published one of the rewritten types; it implies the published one, and
/// is it on reduced types.
pub fn of_conformance(checks: &mut Checks, a: &FeelType, b: &FeelType) {
    let strict = conforms(a, b, Reading::Strict);
    checks.check(
        strict == rewritten(a).is_conformant(&rewritten(b)),
        "theorem fails: strict conformance is the Rust's of the rewritten types",
    );
    checks.check(
        !strict || a.is_conformant(b),
        "theorem fails: what strictly conforms, conforms",
    );
    checks.check(
        a.is_conformant(b) == conforms(&reduced(a), &reduced(b), Reading::Strict),
        "theorem fails: conformance is the strict one of the reduced types",
    );
}

/// A strict bound, reduced, is the ported one.
pub fn of_bound(checks: &mut Checks, strict: &FeelType, ported: &FeelType) {
    checks.check(
        reduced(strict) == *ported,
        "theorem fails: a strict bound, reduced, is the ported one",
    );
}

/// A function definition conforms as its function type does.
pub fn of_definition(checks: &mut Checks, v: &Value, t: &FeelType) {
    let Value::FunctionDefinition(parameters, _, _, _, _, result) = v else {
        return;
    };
    let parameters: Vec<FeelType> = parameters.iter().map(|(_, t)| t.clone()).collect();
    let own = FeelType::function(&parameters, result);
    checks.check(
        value_conforms(v, t, Reading::Strict) == rewritten(&own).is_conformant(&rewritten(t)),
        "theorem fails: a function definition strictly conforms as its function type",
    );
}

/// Data has one least type under both readings.
pub fn of_least_type(checks: &mut Checks, v: &Value, strict: &FeelType) {
    if let Some(ported) = least_type(v, Reading::Ported) {
        checks.check(
            ported == *strict,
            "theorem fails: data has one least type under both readings",
        );
    }
}

#[cfg(test)]
mod tests {
    use super::*;
    use feel_form::{read_type, write_type};

    fn read(t: &[u8]) -> FeelType {
        read_type(t).expect("accepted").0
    }

    #[test]
    fn every_function_is_rewritten() {
        let t = read(&[0x2D, 0, 0x2A, 0x2D, 1, 0x22, 0x23]);
        let inner = [
            0x2D, 1, 0x2C, 1, 0, 1, 0, 0x22, 0x2C, 2, 0, 0, 0, 0x23, 2, 0, 0x20,
        ];
        let outer = [0x2D, 1, 0x2C, 0, 0, 0x2C, 2, 0, 0, 0, 0x2A];
        assert_eq!(
            write_type(&rewritten(&t)),
            [&outer[..], &inner, &[1, 0, 0x20]].concat()
        );
    }

    #[test]
    fn a_wrong_bound_is_seen() {
        let mut checks = Checks::default();
        of_bound(
            &mut checks,
            &read(&[0x2D, 0, 0x22]),
            &read(&[0x2D, 0, 0x20]),
        );
        assert_eq!((checks.held, checks.failed), (1, None));
        of_bound(&mut checks, &read(&[0x22]), &read(&[0x2D, 0, 0x20]));
        assert!(checks.failed.is_some());
    }
}
