//! The theorems on samples: what holds of the answers, with the published `is_conformant` of types
//! and of values as the judges, or under the strict reading and over a table with those of `form`. The
//! arguments are accepted; of the other types those that are accepted count.

use crate::call::Checks;
use crate::{strict_theorems, table_theorems};
use dsntk_feel::FeelType;
use dsntk_feel::values::Value;
use feel_form::{
    Reading, common_subtype, common_supertype, conforms, least_type, lists_inside, read_type,
    read_value, reduced, type_level, type_of, type_of_parts, value_conforms, value_level,
    write_type, write_value,
};

/// Conformance is reflexive and transitive, and mutual as [mutual] says.
pub fn of_conformance(a: &[u8], b: &[u8], others: &[&[u8]], reading: Reading) -> Checks {
    let mut checks = Checks::default();
    let (a, b) = (read(a), read(b));
    let conforms = |a: &FeelType, b: &FeelType| conforms(a, b, reading);
    checks.check(conforms(&a, &a), "theorem fails: a type conforms to itself");
    mutual(&mut checks, &a, &b, reading);
    if reading == Reading::Strict {
        strict_theorems::of_conformance(&mut checks, &a, &b);
    }
    if let Reading::Table(table) = reading {
        table_theorems::of_conformance(&mut checks, &table, &a, &b);
    }
    let a_to_b = conforms(&a, &b);
    for other in accepted(others) {
        let passed_on = !(a_to_b && conforms(&b, &other)) || conforms(&a, &other);
        checks.check(passed_on, "theorem fails: conformance is transitive");
    }
    checks
}

/// The supertype is the least upper bound, reduced, and no larger than it may be; strictly, it need
/// not be reduced.
pub fn of_supertype(a: &[u8], b: &[u8], others: &[&[u8]], reading: Reading) -> Checks {
    let mut checks = Checks::default();
    let length = a.len() + b.len();
    let (a, b) = (read(a), read(b));
    let answer = common_supertype(&a, &b, reading);
    least_above(&mut checks, [&a, &b], &answer, others, reading);
    form(&mut checks, &answer, reading);
    if reading == Reading::Strict {
        let ported = common_supertype(&a, &b, Reading::Ported);
        strict_theorems::of_bound(&mut checks, &answer, &ported);
    }
    if let Reading::Table(table) = reading {
        let ported = common_supertype(&a, &b, Reading::Ported);
        table_theorems::of_supertype(&mut checks, &table, &answer, &ported);
    }
    size(&mut checks, &answer, length, level(&a, &b));
    checks
}

/// The subtype is the greatest lower bound, reduced, and no larger than it may be; strictly, it need
/// not be reduced.
pub fn of_subtype(a: &[u8], b: &[u8], others: &[&[u8]], reading: Reading) -> Checks {
    let mut checks = Checks::default();
    let length = a.len() + b.len();
    let (a, b) = (read(a), read(b));
    let answer = common_subtype(&a, &b, reading);
    greatest_below(&mut checks, [&a, &b], &answer, others, reading);
    form(&mut checks, &answer, reading);
    if reading == Reading::Strict {
        let ported = common_subtype(&a, &b, Reading::Ported);
        strict_theorems::of_bound(&mut checks, &answer, &ported);
    }
    if let Reading::Table(table) = reading {
        let ported = common_subtype(&a, &b, Reading::Ported);
        table_theorems::of_subtype(&mut checks, &table, &answer, &ported);
    }
    size(&mut checks, &answer, length, level(&a, &b));
    checks
}

/// A type and its reduced form conform to each other; with any other type, as [mutual] says.
pub fn of_reduced(t: &[u8], others: &[&[u8]]) -> Checks {
    let mut checks = Checks::default();
    let tree = read(t);
    let answer = reduced(&tree);
    checks.check(
        tree.is_conformant(&answer) && answer.is_conformant(&tree),
        "theorem fails: a type and its reduced form conform to each other",
    );
    for other in accepted(others) {
        mutual(&mut checks, &tree, &other, Reading::Ported);
    }
    form(&mut checks, &answer, Reading::Ported);
    size(&mut checks, &answer, t.len(), type_level(&tree));
    checks
}

/// Any value conforms to Any. Of data, strictly with function definitions: it conforms to a type
/// exactly when its least type does, and to whatever that type conforms to.
pub fn of_value_conformance(v: &[u8], t: &[u8], others: &[&[u8]], reading: Reading) -> Checks {
    let mut checks = Checks::default();
    let (v, t) = (value(v), read(t));
    let meets = |t: &FeelType| value_conforms(&v, t, reading);
    checks.check(
        meets(&FeelType::Any),
        "theorem fails: every value conforms to Any",
    );
    if let Reading::Table(table) = reading {
        table_theorems::of_value_conformance(&mut checks, &table, &v, &t);
    }
    let Some(least) = least_type(&v, reading) else {
        return checks;
    };
    if reading == Reading::Strict {
        strict_theorems::of_definition(&mut checks, &v, &t);
    }
    as_its_least_type(&mut checks, &v, &least, &t, reading);
    let v_to_t = meets(&t);
    for other in accepted(others) {
        as_its_least_type(&mut checks, &v, &least, &other, reading);
        checks.check(
            !(v_to_t && conforms(&t, &other, reading)) || meets(&other),
            "theorem fails: data conforms to whatever its type conforms to",
        );
    }
    checks
}

/// The least type is one to which the value conforms, it conforms to every type to which the value
/// conforms, and it is reduced and no larger than it may be. It conforms to the inferred one; not so
/// strictly, as the inferred type of a list of function definitions leaves results out of account.
pub fn of_least_type(v: &[u8], others: &[&[u8]], reading: Reading) -> Checks {
    let mut checks = Checks::default();
    let length = v.len();
    let v = value(v);
    let Some(least) = least_type(&v, reading) else {
        return checks;
    };
    checks.check(
        value_conforms(&v, &least, reading),
        "theorem fails: a value conforms to its least type",
    );
    let inferred = type_of(&v);
    if !reading.is_strict() {
        checks.check(
            conforms(&least, &inferred, reading),
            "theorem fails: the least type conforms to the inferred type",
        );
    }
    as_its_least_type(&mut checks, &v, &least, &inferred, reading);
    for other in accepted(others) {
        as_its_least_type(&mut checks, &v, &least, &other, reading);
    }
    form(&mut checks, &least, reading);
    if reading == Reading::Strict {
        strict_theorems::of_least_type(&mut checks, &v, &least);
    }
    if let Reading::Table(table) = reading {
        table_theorems::of_least_type(&mut checks, &table, &v, &least);
    }
    size(&mut checks, &least, length, 1 + value_level(&v));
    checks
}

/// Data conforms to the inferred type; this is no longer than the value, at most one level higher,
/// a type that is read, and the same where the parts are asked one by one.
pub fn of_type_of(v: &[u8], _: &[&[u8]]) -> Checks {
    let mut checks = Checks::default();
    let length = v.len();
    let v = value(v);
    let inferred = type_of(&v);
    if least_type(&v, Reading::Ported).is_some() {
        checks.check(
            v.is_conformant(&inferred),
            "theorem fails: data conforms to the inferred type",
        );
    }
    if lists_inside(&v) <= 8 {
        checks.check(
            type_of_parts(&v) == v.type_of(),
            "the type of the parts is another one",
        );
    }
    let bytes = write_type(&inferred);
    checks.check(
        bytes.len() <= length,
        "theorem fails: the inferred type is never longer than the value",
    );
    let read = read_type(&bytes);
    checks.check(
        read.is_ok_and(|(tree, level)| tree == inferred && level <= 1 + value_level(&v)),
        "theorem fails: the inferred type is accepted, at most one level higher",
    );
    checks
}

/// A retrieved value is neither longer nor deeper than the value, conforms to the type where the
/// value does, and is retrieved unchanged.
pub fn of_retrieval(t: &[u8], v: &[u8]) -> Checks {
    let mut checks = Checks::default();
    let length = v.len();
    let (t, v) = (read(t), value(v));
    if let Ok(answer) = t.get_value_checked(&v) {
        retrieved(&mut checks, &t, &v, length, &answer);
        checks.check(
            t.get_value_checked(&answer)
                .is_ok_and(|again| again == answer),
            "theorem fails: a retrieved value is retrieved unchanged",
        );
    }
    checks
}

/// Behind conformance a value is always retrieved; the answer conforms to the type.
pub fn of_conformant_value(t: &[u8], v: &[u8]) -> Checks {
    let mut checks = Checks::default();
    let length = v.len();
    let (t, v) = (read(t), value(v));
    checks.check(
        t.get_conformant_value(&v).is_conformant(&t),
        "theorem fails: the conformant value conforms to the type",
    );
    if v.is_conformant(&t) {
        let answer = t.get_value_checked(&v);
        checks.check(
            answer.is_ok(),
            "theorem fails: a value that conforms is always retrieved",
        );
        if let Ok(answer) = answer {
            retrieved(&mut checks, &t, &v, length, &answer);
        }
    }
    checks
}

/// A coerced value is coerced unchanged; it conforms to the type, unless it was a function; it is
/// null only where coercion failed, unless it was Null or a one-item list of it before; and it is
/// little larger.
pub fn of_coercion(v: &[u8], t: &[u8]) -> Checks {
    let mut checks = Checks::default();
    let length = v.len();
    let (v, t) = (value(v), read(t));
    let answer = v.coerced(&t);
    checks.check(
        answer.coerced(&t) == answer,
        "theorem fails: a coerced value is coerced unchanged",
    );
    let is_function = matches!(v, Value::FunctionDefinition(..) | Value::BuiltInFunction(_));
    checks.check(
        is_function || answer.is_conformant(&t),
        "theorem fails: a coerced value that was no function conforms to the type",
    );
    let holds_null = match &v {
        Value::List(items) => items.len() == 1 && items[0].is_null(),
        other => other.is_null(),
    };
    checks.check(
        !answer.is_null() || answer.is_invalid_coercion() || holds_null,
        "theorem fails: coercion gives null from other values only where it fails",
    );
    checks.check(
        write_value(&answer).len() <= length + 3 && value_level(&answer) <= value_level(&v) + 1,
        "theorem fails: a coerced value has at most three bytes and one level more",
    );
    checks
}

/// What holds of a retrieved value beside the value, which has this length.
fn retrieved(checks: &mut Checks, t: &FeelType, v: &Value, length: usize, answer: &Value) {
    checks.check(
        write_value(answer).len() <= length,
        "theorem fails: a retrieved value is never longer",
    );
    checks.check(
        value_level(answer) <= value_level(v),
        "theorem fails: a retrieved value is never deeper",
    );
    checks.check(
        !v.is_conformant(t) || answer.is_conformant(t),
        "theorem fails: a retrieved value conforms where the value did",
    );
}

/// Data conforms to a type exactly when its least type does.
fn as_its_least_type(
    checks: &mut Checks,
    v: &Value,
    least: &FeelType,
    t: &FeelType,
    reading: Reading,
) {
    checks.check(
        value_conforms(v, t, reading) == conforms(least, t, reading),
        "theorem fails: data conforms to a type exactly when its least type does",
    );
}

/// Both types conform to the answer, and it conforms to whatever both conform to.
fn least_above(
    checks: &mut Checks,
    [a, b]: [&FeelType; 2],
    answer: &FeelType,
    others: &[&[u8]],
    reading: Reading,
) {
    let conforms = |a: &FeelType, b: &FeelType| conforms(a, b, reading);
    checks.check(
        conforms(a, answer),
        "theorem fails: the first type conforms to the supertype",
    );
    checks.check(
        conforms(b, answer),
        "theorem fails: the second type conforms to the supertype",
    );
    let mut third = |other: &FeelType| {
        checks.check(
            conforms(answer, other) == (conforms(a, other) && conforms(b, other)),
            "theorem fails: the supertype conforms to a third type exactly when both types do",
        );
    };
    third(a);
    third(b);
    accepted(others).for_each(|other| third(&other));
}

/// The answer conforms to both types, and whatever conforms to both conforms to it.
fn greatest_below(
    checks: &mut Checks,
    [a, b]: [&FeelType; 2],
    answer: &FeelType,
    others: &[&[u8]],
    reading: Reading,
) {
    let conforms = |a: &FeelType, b: &FeelType| conforms(a, b, reading);
    checks.check(
        conforms(answer, a),
        "theorem fails: the subtype conforms to the first type",
    );
    checks.check(
        conforms(answer, b),
        "theorem fails: the subtype conforms to the second type",
    );
    let mut third = |other: &FeelType| {
        checks.check(
            conforms(other, answer) == (conforms(other, a) && conforms(other, b)),
            "theorem fails: a third type conforms to the subtype exactly when it does to both",
        );
    };
    third(a);
    third(b);
    accepted(others).for_each(|other| third(&other));
}

/// Two types conform to each other exactly when their reduced forms are equal; strictly, when they
/// are equal.
fn mutual(checks: &mut Checks, a: &FeelType, b: &FeelType, reading: Reading) {
    let is_mutual = conforms(a, b, reading) && conforms(b, a, reading);
    match reading {
        Reading::Ported | Reading::Table(_) => checks.check(
            is_mutual == (reduced(a) == reduced(b)),
            "theorem fails: conformance is mutual exactly when the reduced forms are equal",
        ),
        Reading::Strict => checks.check(
            is_mutual == (write_type(a) == write_type(b)),
            "theorem fails: strict conformance is mutual exactly when the bytes are equal",
        ),
    }
}

/// An answer is reduced; of a strict one nothing is said.
fn form(checks: &mut Checks, answer: &FeelType, reading: Reading) {
    if !reading.is_strict() {
        checks.check(
            reduced(answer) == *answer,
            "theorem fails: an answer is reduced",
        );
    }
}

/// Neither the length nor the level of an answer passes the bound.
fn size(checks: &mut Checks, answer: &FeelType, length: usize, level: usize) {
    checks.check(
        write_type(answer).len() <= length,
        "theorem fails: an answer is never longer than the inputs together",
    );
    checks.check(
        type_level(answer) <= level,
        "theorem fails: the level of an answer is at most the larger of the inputs",
    );
}

/// The larger level of two types.
fn level(a: &FeelType, b: &FeelType) -> usize {
    type_level(a).max(type_level(b))
}

fn read(bytes: &[u8]) -> FeelType {
    read_type(bytes).expect("accepted before").0
}

fn value(bytes: &[u8]) -> Value {
    read_value(bytes).expect("accepted before").0
}

fn accepted(others: &[&[u8]]) -> impl Iterator<Item = FeelType> {
    let types = others.iter().filter_map(|other| read_type(other).ok());
    types.map(|(tree, _)| tree)
}

#[cfg(test)]
mod tests {
    use super::*;

    type Theorem = fn(&mut Checks, [&FeelType; 2], &FeelType, &[&[u8]], Reading);

    /// What fails of an answer for two types, with a third.
    fn failed(theorem: Theorem, a: &[u8], b: &[u8], answer: &[u8], other: &[u8]) -> &'static str {
        let mut checks = Checks::default();
        let two = [&read(a), &read(b)];
        theorem(&mut checks, two, &read(answer), &[other], Reading::Ported);
        checks.failed.unwrap_or("nothing")
    }

    const NUMBERS: &[u8] = &[0x2A, 0x22];
    const STRINGS: &[u8] = &[0x2A, 0x23];
    const LISTS: &[u8] = &[0x2A, 0x20];
    const NULLS: &[u8] = &[0x2A, 0x29];

    #[test]
    fn wrong_supertypes_are_seen() {
        let failed = |answer, other| failed(least_above, NUMBERS, STRINGS, answer, other);
        assert_eq!(failed(LISTS, LISTS), "nothing");
        assert!(failed(NUMBERS, LISTS).contains("the second type conforms"));
        assert!(failed(STRINGS, LISTS).contains("the first type conforms"));
        // Any is above both, but not the least.
        assert!(failed(&[0x20], LISTS).contains("a third type exactly when"));
    }

    #[test]
    fn wrong_subtypes_are_seen() {
        let failed = |answer, other| failed(greatest_below, NUMBERS, STRINGS, answer, other);
        assert_eq!(failed(NULLS, NULLS), "nothing");
        assert!(failed(NUMBERS, NULLS).contains("conforms to the second type"));
        assert!(failed(STRINGS, NULLS).contains("conforms to the first type"));
        assert!(failed(&[0x29], NULLS).contains("a third type conforms"));
    }

    #[test]
    fn the_size_of_an_answer_is_seen() {
        let failed = |answer: &[u8], length, level| {
            let mut checks = Checks::default();
            form(&mut checks, &read(answer), Reading::Ported);
            size(&mut checks, &read(answer), length, level);
            checks.failed.unwrap_or("nothing")
        };
        assert_eq!(failed(&[0x2D, 0, 0x20], 3, 2), "nothing");
        assert!(failed(&[0x2D, 0, 0x22], 3, 2).ends_with("is reduced"));
        assert!(failed(&[0x2D, 0, 0x20], 2, 2).contains("longer"));
        assert!(failed(&[0x2D, 0, 0x20], 3, 1).contains("level"));
    }

    #[test]
    fn wrong_least_types_are_seen() {
        // [null, true] is a list of booleans.
        let v = value(&[0x0A, 2, 0, 0x00, 0, 0x01, 1]);
        let failed = |least: &[u8], t: &[u8]| {
            let mut checks = Checks::default();
            as_its_least_type(&mut checks, &v, &read(least), &read(t), Reading::Ported);
            checks.failed.unwrap_or("nothing")
        };
        let booleans = &[0x2A, 0x21];
        for t in [NULLS, booleans, LISTS, &[0x20]] {
            assert_eq!(failed(booleans, t), "nothing");
        }
        assert!(failed(NULLS, NUMBERS).contains("exactly when"));
        assert!(failed(LISTS, booleans).contains("exactly when"));
    }

    #[test]
    fn wrong_retrieved_values_are_seen() {
        // {1: true, 2: null} with the type context<1: boolean>.
        let v: &[u8] = &[0x0B, 2, 0, 1, 0, 0x01, 1, 2, 0, 0x00, 0];
        let failed = |answer: &[u8]| {
            let mut checks = Checks::default();
            let t = read(&[0x2C, 1, 0, 1, 0, 0x21]);
            retrieved(&mut checks, &t, &value(v), v.len(), &value(answer));
            checks.failed.unwrap_or("nothing")
        };
        assert_eq!(failed(&[0x0B, 1, 0, 1, 0, 0x01, 1]), "nothing");
        assert!(failed(&[0x0B, 0, 0]).contains("conforms where"));
        assert!(failed(&[0x0A, 1, 0, 0x0A, 1, 0, 0x0F]).contains("deeper"));
        let number = [0x02, 0, 0, 0, 0, 0, 0, 0, 0];
        assert!(failed(&[&[0x0A, 1, 0], &number[..]].concat()).contains("longer"));
    }

    #[test]
    fn samples_of_retrieval_and_coercion_hold() {
        // [null after coercion]
        let v: &[u8] = &[0x0A, 1, 0, 0x00, 1];
        for (checks, held) in [
            (of_retrieval(NUMBERS, v), 4),
            (of_retrieval(NUMBERS, &[0x0F]), 0),
            (of_conformant_value(NUMBERS, v), 5),
            (of_conformant_value(&[0x29], v), 1),
            (of_conformant_value(NUMBERS, &[0x0F]), 1),
            (of_coercion(v, &[0x22]), 4),
            (of_coercion(&[0x0F], LISTS), 4),
            (of_coercion(&[0x0D, 0], &[0x2D, 1, 0x22, 0x22]), 4),
        ] {
            assert_eq!((checks.held, checks.failed), (held, None));
        }
    }

    #[test]
    fn samples_of_values_hold() {
        let v: &[u8] = &[0x0A, 2, 0, 0x00, 0, 0x01, 1];
        let definition: &[u8] = &[0x0C, 0, 0, 0, 0x22];
        let others: &[&[u8]] = &[LISTS, NULLS, &[0x2E]];
        let (ported, strict) = (Reading::Ported, Reading::Strict);
        for (checks, held) in [
            (of_value_conformance(v, &[0x2A, 0x21], others, ported), 6),
            (of_value_conformance(v, &[0x2A, 0x21], others, strict), 6),
            (of_value_conformance(&[0x0F], NUMBERS, others, ported), 1),
            (of_value_conformance(definition, NUMBERS, others, ported), 1),
            (of_value_conformance(definition, NUMBERS, others, strict), 7),
            (of_least_type(v, others, ported), 8),
            (of_least_type(v, others, strict), 7),
            (of_least_type(&[0x0F], others, ported), 0),
            (of_least_type(definition, others, ported), 0),
            (of_least_type(definition, others, strict), 6),
            (of_type_of(v, others), 4),
            (of_type_of(&[0x0F], others), 3),
        ] {
            assert_eq!((checks.held, checks.failed), (held, None));
        }
    }

    #[test]
    fn samples_hold() {
        let (a, b): (&[u8], &[u8]) = (&[0x2D, 0, 0x22], &[0x2D, 0, 0x23]);
        let others: &[&[u8]] = &[LISTS, &[0x2E], &[0x20]];
        for (checks, held) in [
            (of_conformance(a, b, others, Reading::Ported), 4),
            (of_conformance(a, b, others, Reading::Strict), 7),
            (of_supertype(a, b, others, Reading::Ported), 9),
            (of_supertype(a, b, others, Reading::Strict), 9),
            (of_subtype(NUMBERS, b, others, Reading::Ported), 9),
            (of_subtype(NUMBERS, b, others, Reading::Strict), 9),
            (of_reduced(a, others), 6),
        ] {
            assert_eq!((checks.held, checks.failed), (held, None));
        }
    }
}
