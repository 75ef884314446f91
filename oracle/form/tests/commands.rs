//! Every command of document 01, and command 10 of document 02, both ways.

use dsntk_feel::FeelType;
use dsntk_feel::bif::Bif;
use dsntk_feel::values::Value;
use feel_form::{
    BIFS, name, read_type, read_value, text, type_level, value_level, write_type, write_value,
};

/// Reads the value, asks for its level, and writes it again.
fn value(bytes: &[u8], level: usize) -> Value {
    let (value, read_level) = read_value(bytes).expect("accepted");
    assert_eq!(read_level, level);
    assert_eq!(value_level(&value), level);
    assert_eq!(write_value(&value), bytes);
    value
}

/// Reads the type, asks for its level, and writes it again.
fn feel_type(bytes: &[u8], level: usize) -> FeelType {
    let (feel_type, read_level) = read_type(bytes).expect("accepted");
    assert_eq!(read_level, level);
    assert_eq!(type_level(&feel_type), level);
    assert_eq!(write_type(&feel_type), bytes);
    feel_type
}

#[test]
fn the_table_of_built_in_functions_is_the_enum() {
    for (position, bif) in BIFS.into_iter().enumerate() {
        assert_eq!(bif.clone() as usize, position);
        assert_eq!(
            value(&[0x0D, position as u8], 1),
            Value::BuiltInFunction(bif)
        );
    }
    assert_eq!(Bif::Abs as usize, 0);
    assert_eq!(Bif::Sqrt as usize, 67);
    assert_eq!(Bif::YearsAndMonthsDuration as usize, 85);
    assert_eq!(read_value(&[0x0D, 86]), Err(2));
}

#[test]
fn null_keeps_its_trace() {
    let null = |trace| value(&[0x00, trace], 1);
    assert_eq!(null(0), Value::Null(None));
    assert_eq!(null(1), Value::Null(Some("after coercion".to_string())));
    assert!(null(1).is_invalid_coercion());
    for trace in [0, 2, 3] {
        assert!(null(trace).is_null() && !null(trace).is_invalid_coercion());
    }
    assert_eq!(read_value(&[0x00, 4]), Err(2));
}

/// The messages are those that the published Rust writes.
#[test]
fn traces_of_the_published_rust() {
    let number = value(&[0x02, 1, 0, 0, 0, 0, 0, 0, 0], 1);
    assert_eq!(write_value(&number.coerced(&FeelType::String)), [0x00, 1]);
    assert_eq!(
        write_value(&FeelType::String.get_conformant_value(&number)),
        [0x00, 2]
    );
    let context = FeelType::Context([(name(7), FeelType::Number)].into());
    assert_eq!(
        write_value(&context.get_conformant_value(&number)),
        [0x00, 2]
    );
    let other = Value::Null(Some("type is not conformant".to_string()));
    assert_eq!(write_value(&other), [0x00, 3]);
}

#[test]
fn booleans_and_texts() {
    assert!(value(&[0x01, 0], 1).is_false());
    assert!(value(&[0x01, 1], 1).is_true());
    assert_eq!(read_value(&[0x01, 2]), Err(2));
    assert_eq!(value(&[0x03, 42, 0], 1), Value::String(text(42)));
    assert_eq!(
        value(&[0x03, 0x34, 0x12], 1),
        Value::String("04660".to_string())
    );
    assert_eq!(
        value(&[0x03, 0xFF, 0xFF], 1),
        Value::String("65535".to_string())
    );
}

#[test]
fn keys_are_signed_and_little_endian() {
    for command in [0x02, 0x04, 0x05, 0x06, 0x07, 0x08] {
        for (key, bytes) in [
            (1, [1, 0, 0, 0, 0, 0, 0, 0]),
            (-2, [0xFE, 255, 255, 255, 255, 255, 255, 255]),
            (i64::MIN, [0, 0, 0, 0, 0, 0, 0, 0x80]),
            (0x0807060504030201, [1, 2, 3, 4, 5, 6, 7, 8]),
        ] {
            let read = match value(&[&[command], &bytes[..]].concat(), 1) {
                Value::Number(number) if command == 0x02 => {
                    assert_eq!(number.exponent(), None);
                    number.coefficient()
                }
                Value::Date(date) if command == 0x04 => date.0,
                Value::Time(time) if command == 0x05 => time.0,
                Value::DateTime(date_time) if command == 0x06 => date_time.0,
                Value::DaysAndTimeDuration(duration) if command == 0x07 => duration.0,
                Value::YearsAndMonthsDuration(duration) if command == 0x08 => duration.0,
                other => panic!("{command} read as {other}"),
            };
            assert_eq!(read, key);
        }
    }
}

#[test]
fn decimals_keep_how_they_are_written() {
    for exponent in 0..=18 {
        for (coefficient, bytes) in [
            (25, [25, 0, 0, 0, 0, 0, 0, 0]),
            (-2, [0xFE, 255, 255, 255, 255, 255, 255, 255]),
            (i64::MIN, [0, 0, 0, 0, 0, 0, 0, 0x80]),
            (0x0807060504030201, [1, 2, 3, 4, 5, 6, 7, 8]),
        ] {
            let decimal = [&[0x10], &bytes[..], &[exponent]].concat();
            let Value::Number(number) = value(&decimal, 1) else {
                panic!("no number");
            };
            assert_eq!(number.coefficient(), coefficient);
            assert_eq!(number.exponent(), Some(exponent));
        }
    }
    // Equal numbers, other bytes.
    let same = [
        vec![0x10, 25, 0, 0, 0, 0, 0, 0, 0, 1],
        vec![0x10, 250, 0, 0, 0, 0, 0, 0, 0, 2],
    ];
    assert_eq!(value(&same[0], 1), value(&same[1], 1));
    let same = [
        vec![0x02, 5, 0, 0, 0, 0, 0, 0, 0],
        vec![0x10, 5, 0, 0, 0, 0, 0, 0, 0, 0],
    ];
    assert_eq!(value(&same[0], 1), value(&same[1], 1));
    value(&[&[0x0A, 2, 0], &same.concat()[..]].concat(), 2);
    for exponent in 19..=255 {
        let decimal = [0x10, 25, 0, 0, 0, 0, 0, 0, 0, exponent];
        assert_eq!(read_value(&decimal), Err(2));
    }
}

#[test]
fn ranges() {
    for start in 0..4 {
        for end in 0..4 {
            let range = value(&[0x09, start, end, 0x03, 1, 0, 0x03, 2, 0], 2);
            let Value::Range(_, start_type, _, end_type) = &range else {
                panic!("no range: {range}");
            };
            assert_eq!(start_type.closed(), start >= 2);
            assert_eq!(end_type.closed(), end >= 2);
            assert_eq!(start_type.undefined(), start % 2 == 1);
            assert_eq!(end_type.undefined(), end % 2 == 1);
            assert_eq!(range.is_valid_range(), start != 3 && end != 3);
        }
    }
    for operands in [[4, 0], [0, 4], [0xFF, 0xFF]] {
        let bytes = [&[0x09], &operands[..], &[0x0F, 0x0F]].concat();
        assert_eq!(read_value(&bytes), Err(2));
    }
}

#[test]
fn lists_and_contexts() {
    assert_eq!(value(&[0x0A, 0, 0], 1), Value::List(vec![]));
    assert_eq!(
        value(&[0x0A, 2, 0, 0x0F, 0x0A, 0, 0], 2),
        Value::List(vec![Value::Irrelevant, Value::List(vec![])])
    );
    value(&[0x0B, 0, 0], 1);
    let context = value(&[0x0B, 2, 0, 0xFF, 0, 0x0F, 0, 1, 0x0A, 1, 0, 0x0F], 3);
    let Value::Context(entries) = context else {
        panic!("no context");
    };
    assert_eq!(entries.get_entry(&name(255)), Some(&Value::Irrelevant));
    assert_eq!(
        entries.get_entry(&name(256)),
        Some(&Value::List(vec![Value::Irrelevant]))
    );
}

#[test]
fn function_definitions() {
    let bytes = [0x0C, 2, 0x34, 0x12, 0x2A, 0x22, 9, 0, 0x23, 9, 0, 0x21];
    let definition = value(&bytes, 3);
    let Value::FunctionDefinition(parameters, body, _, _, _, result) = &definition else {
        panic!("no function definition: {definition}");
    };
    assert_eq!(
        *parameters,
        [(name(9), FeelType::String), (name(9), FeelType::Boolean)]
    );
    assert_eq!(body.0, 0x1234);
    assert_eq!(*result, FeelType::list(&FeelType::Number));
    assert_eq!(
        definition.type_of(),
        feel_type(&[0x2D, 2, 0x23, 0x21, 0x2A, 0x22], 3)
    );
    value(&[0x0C, 0, 0, 0, 0x20], 2);
    value(&[0x0C, 2, 0, 0, 0x20, 9, 0, 0x23, 3, 0, 0x21], 2);
}

#[test]
fn type_values_and_irrelevant() {
    let list = feel_type(&[0x2A, 0x22], 2);
    assert_eq!(value(&[0x0E, 0x2A, 0x22], 3), Value::FeelType(list));
    assert_eq!(value(&[0x0F], 1), Value::Irrelevant);
}

#[test]
fn simple_types() {
    let simple = [
        FeelType::Any,
        FeelType::Boolean,
        FeelType::Number,
        FeelType::String,
        FeelType::Date,
        FeelType::Time,
        FeelType::DateTime,
        FeelType::DaysAndTimeDuration,
        FeelType::YearsAndMonthsDuration,
        FeelType::Null,
    ];
    for (command, expected) in (0x20..).zip(simple) {
        assert_eq!(feel_type(&[command], 1), expected);
    }
}

#[test]
fn parent_types() {
    assert_eq!(
        feel_type(&[0x2A, 0x2B, 0x24], 3).to_string(),
        "list<range<date>>"
    );
    assert_eq!(feel_type(&[0x2C, 0, 0], 1).to_string(), "context<>");
    assert_eq!(
        feel_type(&[0x2C, 2, 0, 0xFF, 0, 0x22, 0, 1, 0x23], 2).to_string(),
        "context<00255: number, 00256: string>"
    );
    assert_eq!(
        feel_type(&[0x2D, 0, 0x22], 2).to_string(),
        "function<>->number"
    );
    assert_eq!(
        feel_type(&[0x2D, 2, 0x21, 0x24, 0x2A, 0x25], 3).to_string(),
        "function<boolean, date>->list<time>"
    );
}

#[test]
fn all_other_bytes_are_unknown() {
    for byte in 0..=255u8 {
        let bytes = [byte, 0, 0, 0, 0, 0, 0, 0, 0];
        if byte > 0x10 {
            assert_eq!(read_value(&bytes), Err(2), "{byte:02X}");
        }
        if !(0x20..=0x2D).contains(&byte) {
            assert_eq!(read_type(&bytes), Err(7), "{byte:02X}");
        }
    }
}
