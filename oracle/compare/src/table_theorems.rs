//! The reading over a table on samples, with the published Rust as the judge where it can be one: over
//! the fixed relation's table it decides all, and over any other, types can be rewritten without simple
//! types between Null and Any.

use crate::call::Checks;
use dsntk_feel::FeelType;
use dsntk_feel::values::Value;
use feel_form::{Reading, Table, conforms, least_type, name, value_conforms};
use std::collections::BTreeMap;

/// The simple types between Null and Any.
const INNER: [FeelType; 8] = [
    FeelType::Boolean,
    FeelType::Number,
    FeelType::String,
    FeelType::Date,
    FeelType::Time,
    FeelType::DateTime,
    FeelType::DaysAndTimeDuration,
    FeelType::YearsAndMonthsDuration,
];

/// The type without simple types between Null and Any. Such a type becomes a function to the context
/// that has a name for each type to which it conforms: the lower the type, the more names. A function
/// becomes a range of it, and a range one of a context, so that none of the three conforms to another.
fn rewritten(t: &FeelType, table: &Table) -> FeelType {
    let of = |t: &FeelType| rewritten(t, table);
    match t {
        FeelType::Any | FeelType::Null => t.clone(),
        FeelType::List(inner) => FeelType::list(&of(inner)),
        FeelType::Range(inner) => {
            let entries = BTreeMap::from([(name(0), of(inner))]);
            FeelType::range(&FeelType::Context(entries))
        }
        FeelType::Context(entries) => {
            let entry = |(name, entry): (&_, &_)| (Clone::clone(name), of(entry));
            FeelType::Context(entries.iter().map(entry).collect())
        }
        FeelType::Function(parameters, result) => {
            let parameters: Vec<FeelType> = parameters.iter().map(of).collect();
            FeelType::range(&FeelType::function(&parameters, &of(result)))
        }
        simple => {
            let above = (0..).zip(&INNER).filter(|(_, u)| table.conforms(simple, u));
            let entries = above.map(|(number, _)| (name(number), FeelType::Any));
            FeelType::function(&[FeelType::Any], &FeelType::Context(entries.collect()))
        }
    }
}

/// Conformance over a table is the published one of the rewritten types; what conforms over the fixed
/// relation conforms over every table, and the fixed relation is one of them.
pub fn of_conformance(checks: &mut Checks, table: &Table, a: &FeelType, b: &FeelType) {
    let over = conforms(a, b, Reading::Table(*table));
    checks.check(
        over == rewritten(a, table).is_conformant(&rewritten(b, table)),
        "theorem fails: conformance over a table is the Rust's of the rewritten types",
    );
    checks.check(
        over || !a.is_conformant(b),
        "theorem fails: what conforms, conforms over every table",
    );
    fixed(checks, table, || over == a.is_conformant(b));
}

/// A supertype over a table conforms to the ported one.
pub fn of_supertype(checks: &mut Checks, table: &Table, answer: &FeelType, ported: &FeelType) {
    checks.check(
        conforms(answer, ported, Reading::Table(*table)),
        "theorem fails: a supertype over a table conforms to the ported one",
    );
    fixed(checks, table, || answer == ported);
}

/// The ported subtype conforms to the one over a table.
pub fn of_subtype(checks: &mut Checks, table: &Table, answer: &FeelType, ported: &FeelType) {
    checks.check(
        conforms(ported, answer, Reading::Table(*table)),
        "theorem fails: the ported subtype conforms to the one over a table",
    );
    fixed(checks, table, || answer == ported);
}

/// A value that conforms to a type conforms to it over every table.
pub fn of_value_conformance(checks: &mut Checks, table: &Table, v: &Value, t: &FeelType) {
    let over = value_conforms(v, t, Reading::Table(*table));
    checks.check(
        over || !v.is_conformant(t),
        "theorem fails: a value that conforms, conforms over every table",
    );
    fixed(checks, table, || over == v.is_conformant(t));
}

/// The least type over a table conforms to the ported one.
pub fn of_least_type(checks: &mut Checks, table: &Table, v: &Value, least: &FeelType) {
    let ported = least_type(v, Reading::Ported);
    checks.check(
        ported
            .as_ref()
            .is_some_and(|ported| conforms(least, ported, Reading::Table(*table))),
        "theorem fails: the least type over a table conforms to the ported one",
    );
    fixed(checks, table, || ported.as_ref() == Some(least));
}

/// Over the fixed relation's table the answer is the ported one.
fn fixed(checks: &mut Checks, table: &Table, is_ported: impl FnOnce() -> bool) {
    if *table == Table::FIXED {
        checks.check(
            is_ported(),
            "theorem fails: over the fixed table a call answers as the ported one",
        );
    }
}

#[cfg(test)]
mod tests {
    use super::*;
    use feel_cases::{TableShape, fixed_table, shaped_table};
    use feel_form::{read_type, write_type};

    fn read(t: &[u8]) -> FeelType {
        read_type(t).expect("accepted").0
    }

    fn dates() -> Table {
        let bytes = shaped_table(TableShape::DateBelow, &mut feel_cases::Random::new(1));
        Table::read(&bytes).expect("it loads")
    }

    #[test]
    fn simple_types_are_rewritten() {
        let t = rewritten(&read(&[0x2A, 0x24]), &dates());
        // A date is a date (3) and a date and time (5).
        let names = [0x2C, 2, 0, 3, 0, 0x20, 5, 0, 0x20];
        let expected = [&[0x2A, 0x2D, 1, 0x20], &names[..]].concat();
        assert_eq!(write_type(&t), expected);
        let t = rewritten(&read(&[0x2B, 0x2D, 0, 0x29]), &dates());
        let expected = [0x2B, 0x2C, 1, 0, 0, 0, 0x2B, 0x2D, 0, 0x29];
        assert_eq!(write_type(&t), expected);
    }

    #[test]
    fn answers_over_the_fixed_table_are_held_to_the_ported_ones() {
        let fixed = Table::read(&fixed_table()).expect("it loads");
        let held = |table: &Table, answer: &[u8]| {
            let mut checks = Checks::default();
            of_supertype(&mut checks, table, &read(answer), &read(&[0x20]));
            (checks.held, checks.failed.is_some())
        };
        assert_eq!(held(&fixed, &[0x20]), (2, false));
        assert_eq!(held(&fixed, &[0x26]), (1, true));
        assert_eq!(held(&dates(), &[0x26]), (1, false));
    }
}
