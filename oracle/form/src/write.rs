//! The writers. They know neither limit of the readers, since a type of any size is written by the
//! same rules. They panic on what has no byte form: a count that does not fit its field, a name or
//! text that is not a number's, a variant of `Value` without a command, a closure.

use crate::BIFS;
use crate::texts::{name_number, text_number};
use dsntk_feel::bif::Bif;
use dsntk_feel::ranges::IntervalType;
use dsntk_feel::values::Value;
use dsntk_feel::{FeelType, Name};

/// The bytes of a type.
pub fn write_type(feel_type: &FeelType) -> Vec<u8> {
    let mut out = vec![];
    put_type(&mut out, feel_type);
    out
}

/// The bytes of a value.
pub fn write_value(value: &Value) -> Vec<u8> {
    let mut out = vec![];
    put_value(&mut out, value);
    out
}

fn put_type(out: &mut Vec<u8>, feel_type: &FeelType) {
    match feel_type {
        FeelType::Any => out.push(0x20),
        FeelType::Boolean => out.push(0x21),
        FeelType::Number => out.push(0x22),
        FeelType::String => out.push(0x23),
        FeelType::Date => out.push(0x24),
        FeelType::Time => out.push(0x25),
        FeelType::DateTime => out.push(0x26),
        FeelType::DaysAndTimeDuration => out.push(0x27),
        FeelType::YearsAndMonthsDuration => out.push(0x28),
        FeelType::Null => out.push(0x29),
        FeelType::List(inner) => {
            out.push(0x2A);
            put_type(out, inner);
        }
        FeelType::Range(inner) => {
            out.push(0x2B);
            put_type(out, inner);
        }
        FeelType::Context(entries) => {
            out.push(0x2C);
            put_wide_count(out, entries.len());
            for (name, entry_type) in entries {
                put_name(out, name);
                put_type(out, entry_type);
            }
        }
        FeelType::Function(parameters, result) => {
            out.push(0x2D);
            put_narrow_count(out, parameters.len());
            for parameter in parameters {
                put_type(out, parameter);
            }
            put_type(out, result);
        }
    }
}

fn put_value(out: &mut Vec<u8>, value: &Value) {
    match value {
        Value::Null(trace) => out.extend([0x00, trace_byte(trace.as_deref())]),
        Value::Boolean(truth) => out.extend([0x01, u8::from(*truth)]),
        Value::Number(number) => match number.exponent() {
            None => put_key(out, 0x02, number.coefficient()),
            Some(exponent) => {
                put_key(out, 0x10, number.coefficient());
                out.push(exponent);
            }
        },
        Value::String(text) => {
            out.push(0x03);
            out.extend(text_number(text).to_le_bytes());
        }
        Value::Date(date) => put_key(out, 0x04, date.0),
        Value::Time(time) => put_key(out, 0x05, time.0),
        Value::DateTime(date_time) => put_key(out, 0x06, date_time.0),
        Value::DaysAndTimeDuration(duration) => put_key(out, 0x07, duration.0),
        Value::YearsAndMonthsDuration(duration) => put_key(out, 0x08, duration.0),
        Value::Range(start, start_type, end, end_type) => {
            out.extend([0x09, interval_byte(*start_type), interval_byte(*end_type)]);
            put_value(out, start);
            put_value(out, end);
        }
        Value::List(items) => {
            out.push(0x0A);
            put_wide_count(out, items.len());
            for item in items {
                put_value(out, item);
            }
        }
        Value::Context(context) => {
            out.push(0x0B);
            put_wide_count(out, context.len());
            for (name, entry) in context.iter() {
                put_name(out, name);
                put_value(out, entry);
            }
        }
        Value::FunctionDefinition(parameters, body, external, closure, closure_context, result) => {
            let no_closure = closure.iter().next().is_none() && closure_context.is_empty();
            assert!(!external && no_closure, "no byte form for {value}");
            out.push(0x0C);
            put_narrow_count(out, parameters.len());
            out.extend(body.0.to_le_bytes());
            put_type(out, result);
            for (name, parameter_type) in parameters {
                put_name(out, name);
                put_type(out, parameter_type);
            }
        }
        Value::BuiltInFunction(bif) => out.extend([0x0D, bif_byte(bif)]),
        Value::FeelType(feel_type) => {
            out.push(0x0E);
            put_type(out, feel_type);
        }
        Value::Irrelevant => out.push(0x0F),
        _ => panic!("no byte form for {value}"),
    }
}

fn put_key(out: &mut Vec<u8>, command: u8, key: i64) {
    out.push(command);
    out.extend(key.to_le_bytes());
}

fn put_name(out: &mut Vec<u8>, name: &Name) {
    out.extend(name_number(name).to_le_bytes());
}

fn put_wide_count(out: &mut Vec<u8>, count: usize) {
    let count = u16::try_from(count).expect("a count of 16 bits");
    out.extend(count.to_le_bytes());
}

fn put_narrow_count(out: &mut Vec<u8>, count: usize) {
    out.push(u8::try_from(count).expect("a count of 8 bits"));
}

/// 0 no message, 1 after coercion, 2 not conformant, 3 any other message.
fn trace_byte(trace: Option<&str>) -> u8 {
    match trace {
        None => 0,
        Some("after coercion") => 1,
        Some(message)
            if message.starts_with("type '")
                && message.contains("' is not conformant with value '") =>
        {
            2
        }
        Some(_) => 3,
    }
}

fn interval_byte(interval: IntervalType) -> u8 {
    match interval {
        IntervalType::Opened => 0,
        IntervalType::OpenedUndef => 1,
        IntervalType::Closed => 2,
        IntervalType::ClosedUndef => 3,
    }
}

fn bif_byte(bif: &Bif) -> u8 {
    let place = BIFS.iter().position(|listed| listed == bif);
    u8::try_from(place.expect("every built-in function is listed")).expect("below 86")
}
