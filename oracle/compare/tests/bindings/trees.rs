//! The trees of the bindings beside those of the published Rust, both ways: bytes to trees against
//! the readers of document 01, trees to bytes against its writers.

use crate::OPTIONS;
use compare::call::Call;
use compare::calls::CALLS;
use dsntk_feel::FeelType;
use dsntk_feel::FunctionBody;
use dsntk_feel::closure::Closure;
use dsntk_feel::context::FeelContext;
use dsntk_feel::ranges::IntervalType as Interval;
use dsntk_feel::values::Value as FeelValue;
use dsntk_feel_number::FeelNumber;
use dsntk_feel_temporal::{
    FeelDate, FeelDateTime, FeelDaysAndTimeDuration, FeelTime, FeelYearsAndMonthsDuration,
};
use feel_form::{BIFS, name, read_type, read_value, text, write_type, write_value};
use hedvaste::{IntervalType, Trace, Type, Value};

/// The same type in the published Rust.
fn feel_type(t: &Type) -> FeelType {
    let inside = |inner: &Type| Box::new(feel_type(inner));
    match t {
        Type::Any => FeelType::Any,
        Type::Boolean => FeelType::Boolean,
        Type::Number => FeelType::Number,
        Type::String => FeelType::String,
        Type::Date => FeelType::Date,
        Type::Time => FeelType::Time,
        Type::DateTime => FeelType::DateTime,
        Type::DaysAndTimeDuration => FeelType::DaysAndTimeDuration,
        Type::YearsAndMonthsDuration => FeelType::YearsAndMonthsDuration,
        Type::Null => FeelType::Null,
        Type::List(inner) => FeelType::List(inside(inner)),
        Type::Range(inner) => FeelType::Range(inside(inner)),
        Type::Context(entries) => {
            let entry = |(number, inner): &(u16, Type)| (name(*number), feel_type(inner));
            FeelType::Context(entries.iter().map(entry).collect())
        }
        Type::Function(parameters, result) => {
            let parameters = parameters.iter().map(feel_type).collect();
            FeelType::Function(parameters, inside(result))
        }
    }
}

/// The same value in the published Rust.
fn feel_value(v: &Value) -> FeelValue {
    match v {
        Value::Null(trace) => FeelValue::Null(message(*trace)),
        Value::Boolean(truth) => FeelValue::Boolean(*truth),
        Value::Number(key) => FeelValue::Number(FeelNumber::whole(*key)),
        Value::String(number) => FeelValue::String(text(*number)),
        Value::Date(key) => FeelValue::Date(FeelDate(*key)),
        Value::Time(key) => FeelValue::Time(FeelTime(*key)),
        Value::DateTime(key) => FeelValue::DateTime(FeelDateTime(*key)),
        Value::DaysAndTimeDuration(key) => {
            FeelValue::DaysAndTimeDuration(FeelDaysAndTimeDuration(*key))
        }
        Value::YearsAndMonthsDuration(key) => {
            FeelValue::YearsAndMonthsDuration(FeelYearsAndMonthsDuration(*key))
        }
        Value::Range(start, start_type, end, end_type) => FeelValue::Range(
            Box::new(feel_value(start)),
            interval(*start_type),
            Box::new(feel_value(end)),
            interval(*end_type),
        ),
        Value::List(items) => FeelValue::List(items.iter().map(feel_value).collect()),
        Value::Context(entries) => {
            let mut context = FeelContext::new();
            for (number, child) in entries {
                context.set_entry(&name(*number), feel_value(child));
            }
            FeelValue::Context(context)
        }
        Value::FunctionDefinition(parameters, body, result) => {
            let parameter = |(number, t): &(u16, Type)| (name(*number), feel_type(t));
            FeelValue::FunctionDefinition(
                parameters.iter().map(parameter).collect(),
                FunctionBody(*body),
                false,
                Closure::default(),
                FeelContext::new(),
                feel_type(result),
            )
        }
        Value::BuiltInFunction(position) => {
            FeelValue::BuiltInFunction(BIFS[usize::from(*position)].clone())
        }
        Value::FeelType(t) => FeelValue::FeelType(feel_type(t)),
        Value::Irrelevant => FeelValue::Irrelevant,
        Value::Decimal(coefficient, exponent) => {
            FeelValue::Number(FeelNumber::decimal(*coefficient, *exponent))
        }
    }
}

/// A message that has the trace's number.
fn message(trace: Trace) -> Option<String> {
    match trace {
        Trace::None => None,
        Trace::AfterCoercion => Some("after coercion".to_string()),
        Trace::NotConformant => {
            Some("type 'number' is not conformant with value 'true'".to_string())
        }
        Trace::Other => Some("other".to_string()),
    }
}

fn interval(interval: IntervalType) -> Interval {
    match interval {
        IntervalType::Opened => Interval::Opened,
        IntervalType::OpenedUndef => Interval::OpenedUndef,
        IntervalType::Closed => Interval::Closed,
        IntervalType::ClosedUndef => Interval::ClosedUndef,
    }
}

fn call(name: &str) -> &'static Call {
    static ALL: [Call; 60] = CALLS;
    ALL.iter().find(|call| call.name == name).expect("a call")
}

#[test]
fn values_are_read_and_written_as_document_01_says() {
    let mut accepted = 0;
    (call("check_value").generate)(&OPTIONS, &mut |case| {
        let bytes = case.args[0];
        let read = Value::from_bytes(bytes);
        let same = read
            .as_ref()
            .map(feel_value)
            .map_err(|refusal| refusal.number());
        assert_eq!(same, read_value(bytes).map(|(value, _)| value));
        let Ok(value) = read else {
            return;
        };
        accepted += 1;
        assert_eq!(value.to_bytes(), Ok(bytes.to_vec()));
        assert_eq!(write_value(&feel_value(&value)), bytes);
    });
    assert!(accepted > 300, "{accepted} accepted");
}

/// The exponent is judged by the library, not by the constructor.
#[test]
fn decimals_are_refused_as_document_02_says() {
    for exponent in 0..=255 {
        let bytes = [&[0x10], &(-75i64).to_le_bytes()[..], &[exponent]].concat();
        let written = Value::decimal(-75, exponent).to_bytes();
        let read = Value::from_bytes(&bytes);
        if exponent <= 18 {
            assert_eq!(written, Ok(bytes));
            assert_eq!(read, Ok(Value::Decimal(-75, exponent)));
        } else {
            assert_eq!(written.map_err(|refusal| refusal.number()), Err(2));
            assert_eq!(read.map_err(|refusal| refusal.number()), Err(2));
        }
        for end in 0..10 {
            let cut = &Value::decimal(-75, 0).to_bytes().expect("accepted")[..end];
            let refusal = if end == 0 { 1 } else { 2 };
            let read = Value::from_bytes(cut).map_err(|refusal| refusal.number());
            assert_eq!(read, Err(refusal));
        }
    }
}

#[test]
fn types_are_read_and_written_as_document_01_says() {
    let mut accepted = 0;
    (call("check_type").generate)(&OPTIONS, &mut |case| {
        let bytes = case.args[0];
        let read = Type::from_bytes(bytes);
        let same = read
            .as_ref()
            .map(feel_type)
            .map_err(|refusal| refusal.number());
        assert_eq!(same, read_type(bytes).map(|(t, _)| t));
        let Ok(t) = read else {
            return;
        };
        accepted += 1;
        assert_eq!(t.to_bytes(), Ok(bytes.to_vec()));
        assert_eq!(write_type(&feel_type(&t)), bytes);
    });
    assert!(accepted > 300, "{accepted} accepted");
}
