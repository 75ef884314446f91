//! The readers. A refusal is the number in document 01's table; the first fault from the left
//! decides. Where a child must start: no byte there, then the level, then the command.

use crate::texts::{name, text};
use crate::{BIFS, MAX_LENGTH, MAX_TYPE_LEVEL, MAX_VALUE_LEVEL, type_level, value_level};
use dsntk_feel::closure::Closure;
use dsntk_feel::context::FeelContext;
use dsntk_feel::ranges::IntervalType;
use dsntk_feel::values::Value;
use dsntk_feel::{FeelType, FunctionBody};
use dsntk_feel_number::{FeelNumber, MAX_EXPONENT};
use dsntk_feel_temporal::{
    FeelDate, FeelDateTime, FeelDaysAndTimeDuration, FeelTime, FeelYearsAndMonthsDuration,
};
use std::collections::BTreeMap;

/// The refusals of one reader, in the order of the table.
struct Refusals {
    /// Length 0 or over 16,384.
    length: u8,
    /// Ends inside, unknown command, operand outside its list.
    form: u8,
    /// Names not strictly ascending.
    names: u8,
    /// Level over the limit.
    level: u8,
    /// Bytes left over.
    left_over: u8,
}

const VALUE_REFUSALS: Refusals = Refusals {
    length: 1,
    form: 2,
    names: 3,
    level: 4,
    left_over: 5,
};

const TYPE_REFUSALS: Refusals = Refusals {
    length: 6,
    form: 7,
    names: 8,
    level: 9,
    left_over: 10,
};

/// Reads a value: the tree and its level, or the refusal, 1 to 5.
pub fn read_value(bytes: &[u8]) -> Result<(Value, usize), u8> {
    let value = read(bytes, &VALUE_REFUSALS, MAX_VALUE_LEVEL, Reader::value)?;
    let level = value_level(&value);
    Ok((value, level))
}

/// Reads a type: the tree and its level, or the refusal, 6 to 10.
pub fn read_type(bytes: &[u8]) -> Result<(FeelType, usize), u8> {
    let feel_type = read(bytes, &TYPE_REFUSALS, MAX_TYPE_LEVEL, Reader::feel_type)?;
    let level = type_level(&feel_type);
    Ok((feel_type, level))
}

/// How many bytes the value at the front has; it is a part of an accepted value.
pub(crate) fn value_length(bytes: &[u8]) -> usize {
    let mut reader = Reader {
        rest: bytes,
        refusals: &VALUE_REFUSALS,
        max_level: MAX_VALUE_LEVEL,
    };
    reader.value(1).expect("a part of an accepted value");
    bytes.len() - reader.rest.len()
}

/// The interval type of a range's operand.
pub(crate) fn interval_type(operand: u8) -> Option<IntervalType> {
    match operand {
        0 => Some(IntervalType::Opened),
        1 => Some(IntervalType::OpenedUndef),
        2 => Some(IntervalType::Closed),
        3 => Some(IntervalType::ClosedUndef),
        _ => None,
    }
}

/// Reads the whole of `bytes` as one tree: length first, leftovers last.
fn read<'a, T>(
    bytes: &'a [u8],
    refusals: &'static Refusals,
    max_level: usize,
    root: fn(&mut Reader<'a>, usize) -> Result<T, u8>,
) -> Result<T, u8> {
    if bytes.is_empty() || bytes.len() > MAX_LENGTH {
        return Err(refusals.length);
    }
    let mut reader = Reader {
        rest: bytes,
        refusals,
        max_level,
    };
    let tree = root(&mut reader, 1)?;
    if reader.rest.is_empty() {
        Ok(tree)
    } else {
        Err(refusals.left_over)
    }
}

/// The bytes that are still to be read, and what holds for the whole.
struct Reader<'a> {
    rest: &'a [u8],
    refusals: &'static Refusals,
    max_level: usize,
}

impl Reader<'_> {
    /// The command byte of a child at this level, counted from the root's 1.
    fn command(&mut self, level: usize) -> Result<u8, u8> {
        if self.rest.is_empty() {
            return Err(self.refusals.form);
        }
        if level > self.max_level {
            return Err(self.refusals.level);
        }
        let [command] = self.operands()?;
        Ok(command)
    }

    /// The next `N` bytes.
    fn operands<const N: usize>(&mut self) -> Result<[u8; N], u8> {
        let (operands, rest) = self.rest.split_first_chunk().ok_or(self.refusals.form)?;
        self.rest = rest;
        Ok(*operands)
    }

    /// A 16-bit count, text number or name number.
    fn number(&mut self) -> Result<u16, u8> {
        Ok(u16::from_le_bytes(self.operands()?))
    }

    /// A signed 64-bit key.
    fn key(&mut self) -> Result<i64, u8> {
        Ok(i64::from_le_bytes(self.operands()?))
    }

    /// The name of an entry, which must be above the one before it.
    fn ascending_name(&mut self, previous: &mut Option<u16>) -> Result<u16, u8> {
        let number = self.number()?;
        if previous.is_some_and(|previous| number <= previous) {
            return Err(self.refusals.names);
        }
        *previous = Some(number);
        Ok(number)
    }

    fn interval(&self, operand: u8) -> Result<IntervalType, u8> {
        interval_type(operand).ok_or(self.refusals.form)
    }

    fn trace(&self, operand: u8) -> Result<Option<String>, u8> {
        let message = match operand {
            0 => return Ok(None),
            1 => "after coercion",
            2 => "type 'number' is not conformant with value 'true'",
            3 => "other",
            _ => return Err(self.refusals.form),
        };
        Ok(Some(message.to_string()))
    }

    fn feel_type(&mut self, level: usize) -> Result<FeelType, u8> {
        Ok(match self.command(level)? {
            0x20 => FeelType::Any,
            0x21 => FeelType::Boolean,
            0x22 => FeelType::Number,
            0x23 => FeelType::String,
            0x24 => FeelType::Date,
            0x25 => FeelType::Time,
            0x26 => FeelType::DateTime,
            0x27 => FeelType::DaysAndTimeDuration,
            0x28 => FeelType::YearsAndMonthsDuration,
            0x29 => FeelType::Null,
            0x2A => FeelType::List(Box::new(self.feel_type(level + 1)?)),
            0x2B => FeelType::Range(Box::new(self.feel_type(level + 1)?)),
            0x2C => {
                let count = self.number()?;
                let mut entries = BTreeMap::new();
                let mut previous = None;
                for _ in 0..count {
                    let number = self.ascending_name(&mut previous)?;
                    entries.insert(name(number), self.feel_type(level + 1)?);
                }
                FeelType::Context(entries)
            }
            0x2D => {
                let [count] = self.operands()?;
                let mut parameters = vec![];
                for _ in 0..count {
                    parameters.push(self.feel_type(level + 1)?);
                }
                FeelType::Function(parameters, Box::new(self.feel_type(level + 1)?))
            }
            _ => return Err(self.refusals.form),
        })
    }

    fn value(&mut self, level: usize) -> Result<Value, u8> {
        Ok(match self.command(level)? {
            0x00 => {
                let [operand] = self.operands()?;
                Value::Null(self.trace(operand)?)
            }
            0x01 => match self.operands()? {
                [0] => Value::Boolean(false),
                [1] => Value::Boolean(true),
                _ => return Err(self.refusals.form),
            },
            0x02 => Value::Number(FeelNumber::whole(self.key()?)),
            0x03 => Value::String(text(self.number()?)),
            0x04 => Value::Date(FeelDate(self.key()?)),
            0x05 => Value::Time(FeelTime(self.key()?)),
            0x06 => Value::DateTime(FeelDateTime(self.key()?)),
            0x07 => Value::DaysAndTimeDuration(FeelDaysAndTimeDuration(self.key()?)),
            0x08 => Value::YearsAndMonthsDuration(FeelYearsAndMonthsDuration(self.key()?)),
            0x09 => {
                let [start_operand, end_operand] = self.operands()?;
                let start_type = self.interval(start_operand)?;
                let end_type = self.interval(end_operand)?;
                let start = self.value(level + 1)?;
                let end = self.value(level + 1)?;
                Value::Range(Box::new(start), start_type, Box::new(end), end_type)
            }
            0x0A => {
                let count = self.number()?;
                let mut items = vec![];
                for _ in 0..count {
                    items.push(self.value(level + 1)?);
                }
                Value::List(items)
            }
            0x0B => {
                let count = self.number()?;
                let mut context = FeelContext::new();
                let mut previous = None;
                for _ in 0..count {
                    let number = self.ascending_name(&mut previous)?;
                    context.set_entry(&name(number), self.value(level + 1)?);
                }
                Value::Context(context)
            }
            0x0C => {
                let [count, body_low, body_high] = self.operands()?;
                let body = FunctionBody(u16::from_le_bytes([body_low, body_high]));
                let result = self.feel_type(level + 1)?;
                let mut parameters = vec![];
                for _ in 0..count {
                    let number = self.number()?;
                    parameters.push((name(number), self.feel_type(level + 1)?));
                }
                Value::FunctionDefinition(
                    parameters,
                    body,
                    false,
                    Closure::default(),
                    FeelContext::new(),
                    result,
                )
            }
            0x0D => {
                let [operand] = self.operands()?;
                let bif = BIFS.get(usize::from(operand)).ok_or(self.refusals.form)?;
                Value::BuiltInFunction(bif.clone())
            }
            0x0E => Value::FeelType(self.feel_type(level + 1)?),
            0x0F => Value::Irrelevant,
            0x10 => {
                let coefficient = self.key()?;
                let [exponent] = self.operands()?;
                if exponent > MAX_EXPONENT {
                    return Err(self.refusals.form);
                }
                Value::Number(FeelNumber::decimal(coefficient, exponent))
            }
            _ => return Err(self.refusals.form),
        })
    }
}
