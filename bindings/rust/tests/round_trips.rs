//! What is built, written and read again is the same; what the calls give can be read.

use hedvaste::{IntervalType, MAX_LENGTH, Trace, Type, Value, contexts, names, types, values};

/// One of every kind of type.
fn each_type() -> Type {
    let simple = [
        Type::Any,
        Type::Boolean,
        Type::Number,
        Type::String,
        Type::Date,
        Type::Time,
        Type::DateTime,
        Type::DaysAndTimeDuration,
        Type::YearsAndMonthsDuration,
        Type::Null,
    ];
    Type::context([
        (0xFFFF, Type::list(Type::range(Type::Date))),
        (0, Type::context([])),
        (
            0x0100,
            Type::function(simple, Type::function([], Type::Any)),
        ),
    ])
}

/// One of every kind of value.
fn each_value() -> Value {
    let leaves = [
        Value::null(),
        Value::Null(Trace::AfterCoercion),
        Value::Null(Trace::NotConformant),
        Value::Null(Trace::Other),
        Value::Boolean(false),
        Value::Boolean(true),
        Value::Number(i64::MIN),
        Value::String(0xABCD),
        Value::Date(-1),
        Value::Time(0),
        Value::DateTime(i64::MAX),
        Value::DaysAndTimeDuration(1),
        Value::YearsAndMonthsDuration(2),
        Value::BuiltInFunction(85),
        Value::FeelType(each_type()),
        Value::Irrelevant,
        Value::decimal(250, 2),
        Value::decimal(i64::MIN, 18),
        Value::Decimal(5, 0),
    ];
    let range = |start, end| Value::range(Value::Number(1), start, Value::null(), end);
    Value::context([
        (0xFFFF, Value::list(leaves)),
        (0, Value::context([])),
        (
            5,
            Value::function([(9, Type::Number), (9, each_type())], 0x0102, Type::Null),
        ),
        (6, range(IntervalType::Opened, IntervalType::OpenedUndef)),
        (7, range(IntervalType::Closed, IntervalType::ClosedUndef)),
    ])
}

#[test]
fn every_kind_of_type_comes_back() {
    let bytes = each_type().to_bytes().unwrap();
    assert_eq!(Type::from_bytes(&bytes), Ok(each_type()));
    assert_eq!(types::check_type(&bytes), Ok(4));
}

#[test]
fn every_kind_of_value_comes_back() {
    let bytes = each_value().to_bytes().unwrap();
    assert_eq!(Value::from_bytes(&bytes), Ok(each_value()));
    assert_eq!(values::check_value(&bytes), Ok(7));
}

#[test]
fn decimals_come_back_as_they_were_written() {
    for exponent in 0..=18 {
        for coefficient in [0, 25, -75, i64::MIN, i64::MAX] {
            let v = Value::decimal(coefficient, exponent);
            let bytes = v.to_bytes().unwrap();
            let operands = [&coefficient.to_le_bytes()[..], &[exponent]].concat();
            assert_eq!(bytes, [&[0x10], &operands[..]].concat());
            assert_eq!(Value::from_bytes(&bytes), Ok(v));
            assert_eq!(values::check_value(&bytes), Ok(1));
            assert_eq!(values::coerced(&bytes, &[0x22]), Ok(bytes));
        }
    }
    assert_ne!(Value::decimal(25, 1), Value::decimal(250, 2));
    assert_ne!(Value::Number(5), Value::decimal(5, 0));
}

#[test]
fn numbers_are_compared_by_their_value() {
    let is_valid = |start: Value, end: Value| {
        let closed = IntervalType::Closed;
        let range = Value::range(start, closed, end, closed);
        values::is_valid_range(&range.to_bytes().unwrap()).unwrap()
    };
    let (short, long) = (Value::decimal(25, 1), Value::decimal(250, 2));
    assert!(is_valid(short.clone(), long.clone()) && is_valid(long, short));
    assert!(is_valid(Value::decimal(-75, 2), Value::decimal(-7, 1)));
    assert!(!is_valid(Value::decimal(-7, 1), Value::decimal(-75, 2)));
    assert!(is_valid(Value::Number(5), Value::decimal(5, 0)));
    let more = Value::decimal(5_000_000_000_000_000_001, 18);
    assert!(is_valid(Value::Number(5), more.clone()) && !is_valid(more, Value::Number(5)));
    assert!(is_valid(
        Value::Number(i64::MIN),
        Value::decimal(i64::MIN, 18)
    ));
}

#[test]
fn entries_are_sorted_wherever_they_stand() {
    let unsorted = Value::Context(vec![(2, Value::Irrelevant), (1, Value::null())]);
    let bytes = unsorted.to_bytes().unwrap();
    assert_eq!(bytes, [0x0B, 2, 0, 1, 0, 0x00, 0, 2, 0, 0x0F]);
    let unsorted = Type::Context(vec![(2, Type::Any), (1, Type::Null)]);
    let bytes = unsorted.to_bytes().unwrap();
    assert_eq!(bytes, [0x2C, 2, 0, 1, 0, 0x29, 2, 0, 0x20]);
}

#[test]
fn the_longest_records_come_back() {
    let list = Value::list(vec![Value::Irrelevant; MAX_LENGTH - 3]);
    let bytes = list.to_bytes().unwrap();
    assert_eq!(bytes.len(), MAX_LENGTH);
    assert_eq!(Value::from_bytes(&bytes), Ok(list));
    // The least scratch that suffices is lent for these too.
    assert_eq!(values::type_of(&bytes), Ok(vec![0x2A, 0x20]));
    assert_eq!(values::coerced(&bytes, &[0x20]), Ok(bytes));
}

#[test]
fn a_bound_may_be_longer_than_a_type() {
    let named = |from: u16| Type::context((from..from + 5_000).map(|name| (name, Type::Any)));
    let [a, b] = [named(0), named(10_000)].map(|t| t.to_bytes().unwrap());
    let subtype = types::common_subtype(&a, &b).unwrap();
    assert_eq!(subtype.len(), 3 + 10_000 * 3);
    assert_eq!(types::common_supertype(&a, &b), Ok(vec![0x2C, 0, 0]));
}

#[test]
fn a_long_text_is_shown_whole() {
    let long = "x".repeat(255);
    let table = names::table(&[&long]).unwrap();
    let entry = || Type::context([(0, Type::YearsAndMonthsDuration)]);
    let t = Type::function(vec![entry(); 255], entry());
    let t = Type::function(vec![t; 10], Type::Any).to_bytes().unwrap();
    let shown = names::display(&t, &table).unwrap();
    assert_eq!(shown.matches(&long).count(), 2_560);
    assert!(shown.starts_with("function<function<context<xxx"));
    assert!(shown.ends_with(": years and months duration>>->Any"));
}

#[test]
fn an_update_is_read_as_a_tree() {
    let c = Value::context([(1, Value::Boolean(true))])
        .to_bytes()
        .unwrap();
    let v = Value::Number(4).to_bytes().unwrap();
    let after = contexts::create_entries(&c, &[1, 2], &v).unwrap();
    let inner = Value::context([(2, Value::Number(4))]);
    assert_eq!(Value::from_bytes(&after), Ok(Value::context([(1, inner)])));
    assert_eq!(contexts::search_deep(&after, &[1, 2]), Ok(Some(&v[..])));
}

#[test]
fn empty_slices_are_lent() {
    assert_eq!(names::from_str(&[]), None);
    assert!(!names::is_built_in_type_name(&[]));
    assert_eq!(names::trim(&[]), Ok(vec![]));
    assert_eq!(contexts::contains_deep(&[0x0B, 0, 0], &[]), Ok(false));
    let refused = types::reduced_into(&[0x20], &mut []).unwrap_err();
    assert_eq!(refused.number(), 18);
}
