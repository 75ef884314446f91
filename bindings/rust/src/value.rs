//! Values as trees.

use crate::form::{Reader, VALUE, Writer, sorted};
use crate::{Refusal, Type, values};

/// A value. Names and texts are 16-bit numbers, whole numbers and dates signed 64-bit keys. Equal
/// numbers that are written differently, as 2.5 and 2.50, are different values; only
/// [is_valid_range](crate::values::is_valid_range) compares them by what they mean.
#[derive(Debug, Clone, PartialEq, Eq, Hash)]
pub enum Value {
    /// 00
    Null(Trace),
    /// 01
    Boolean(bool),
    /// 02
    Number(i64),
    /// 03: the number of the text.
    String(u16),
    /// 04
    Date(i64),
    /// 05
    Time(i64),
    /// 06
    DateTime(i64),
    /// 07
    DaysAndTimeDuration(i64),
    /// 08
    YearsAndMonthsDuration(i64),
    /// 09: the start and its interval, the end and its interval.
    Range(Box<Value>, IntervalType, Box<Value>, IntervalType),
    /// 0A: the items.
    List(Vec<Value>),
    /// 0B: each name with its value, in any order; a name twice is refused 3.
    Context(Vec<(u16, Value)>),
    /// 0C: the parameters' names and types, at most 255, in their order; the number of the body; the
    /// type of the result.
    FunctionDefinition(Vec<(u16, Type)>, u16, Type),
    /// 0D: the position in `Bif`, 0 to 85.
    BuiltInFunction(u8),
    /// 0E
    FeelType(Type),
    /// 0F
    Irrelevant,
    /// 10: the coefficient, and the exponent p, 0 to 18; the number is the coefficient divided by 10 to
    /// the power p.
    Decimal(i64, u8),
}

/// What a null says of where it comes from.
#[derive(Debug, Clone, Copy, PartialEq, Eq, Hash, Default)]
pub enum Trace {
    /// No message.
    #[default]
    None,
    /// The message "after coercion".
    AfterCoercion,
    /// The message that a value does not conform to a type.
    NotConformant,
    /// Any other message.
    Other,
}

/// Whether an end of a range belongs to it.
#[derive(Debug, Clone, Copy, PartialEq, Eq, Hash)]
pub enum IntervalType {
    /// The end does not belong to the range.
    Opened,
    /// Opened, and the end is undefined.
    OpenedUndef,
    /// The end belongs to the range.
    Closed,
    /// Closed, and the end is undefined.
    ClosedUndef,
}

impl Value {
    /// Null without a trace.
    ///
    /// ```
    /// use hedvaste::Value;
    /// assert_eq!(Value::null().to_bytes(), Ok(vec![0x00, 0]));
    /// ```
    pub fn null() -> Value {
        Value::Null(Trace::None)
    }

    /// The coefficient divided by 10 to the power of the exponent, which is at most 18.
    ///
    /// ```
    /// use hedvaste::Value;
    /// let v = Value::decimal(25, 1); // 2.5
    /// assert_eq!(v.to_bytes(), Ok(vec![0x10, 25, 0, 0, 0, 0, 0, 0, 0, 1]));
    /// assert_eq!(Value::decimal(25, 19).to_bytes().unwrap_err().number(), 2);
    /// ```
    pub fn decimal(coefficient: i64, exponent: u8) -> Value {
        Value::Decimal(coefficient, exponent)
    }

    /// A range from `start` to `end`.
    ///
    /// ```
    /// use hedvaste::{IntervalType, Value};
    /// let seven = Value::String(7);
    /// let v = Value::range(seven.clone(), IntervalType::Closed, seven, IntervalType::Opened);
    /// assert_eq!(v.to_bytes(), Ok(vec![0x09, 2, 0, 0x03, 7, 0, 0x03, 7, 0]));
    /// ```
    pub fn range(
        start: Value,
        start_type: IntervalType,
        end: Value,
        end_type: IntervalType,
    ) -> Value {
        Value::Range(Box::new(start), start_type, Box::new(end), end_type)
    }

    /// A list of these items.
    ///
    /// ```
    /// use hedvaste::Value;
    /// let v = Value::list([Value::Boolean(true), Value::null()]);
    /// assert_eq!(v.to_bytes(), Ok(vec![0x0A, 2, 0, 0x01, 1, 0x00, 0]));
    /// ```
    pub fn list(items: impl IntoIterator<Item = Value>) -> Value {
        Value::List(items.into_iter().collect())
    }

    /// A context with these names and values, sorted by name.
    ///
    /// ```
    /// use hedvaste::Value;
    /// let v = Value::context([(7, Value::Irrelevant), (5, Value::Boolean(false))]);
    /// assert_eq!(v.to_bytes(), Ok(vec![0x0B, 2, 0, 5, 0, 0x01, 0, 7, 0, 0x0F]));
    /// ```
    pub fn context(entries: impl IntoIterator<Item = (u16, Value)>) -> Value {
        let mut entries: Vec<_> = entries.into_iter().collect();
        entries.sort_by_key(|(name, _)| *name);
        Value::Context(entries)
    }

    /// A function definition: its parameters, the number of its body, its result.
    ///
    /// ```
    /// use hedvaste::{Type, Value};
    /// let v = Value::function([(5, Type::Number)], 9, Type::Any);
    /// assert_eq!(v.to_bytes(), Ok(vec![0x0C, 1, 9, 0, 0x20, 5, 0, 0x22]));
    /// ```
    pub fn function(
        parameters: impl IntoIterator<Item = (u16, Type)>,
        body: u16,
        result: Type,
    ) -> Value {
        Value::FunctionDefinition(parameters.into_iter().collect(), body, result)
    }

    /// The bytes of the value. They are judged by the library's reader, so every call accepts them;
    /// refusal 1 to 4 otherwise. More than 255 parameters are refused 2.
    ///
    /// ```
    /// use hedvaste::Value;
    /// assert_eq!(Value::String(0x0102).to_bytes(), Ok(vec![0x03, 2, 1]));
    /// assert_eq!(Value::BuiltInFunction(86).to_bytes().unwrap_err().number(), 2);
    /// ```
    pub fn to_bytes(&self) -> Result<Vec<u8>, Refusal> {
        let mut writer = Writer::new(VALUE);
        self.write(&mut writer, 1)?;
        let bytes = writer.into_bytes();
        values::check_value(&bytes)?;
        Ok(bytes)
    }

    /// The value that the bytes spell, or refusal 1 to 5.
    ///
    /// ```
    /// use hedvaste::{Trace, Value};
    /// assert_eq!(Value::from_bytes(&[0x00, 1]), Ok(Value::Null(Trace::AfterCoercion)));
    /// assert_eq!(Value::from_bytes(&[0x00, 4]).unwrap_err().number(), 2);
    /// ```
    pub fn from_bytes(bytes: &[u8]) -> Result<Value, Refusal> {
        values::check_value(bytes)?;
        Value::read(&mut Reader::new(bytes, VALUE))
    }

    /// Writes the value at this level, counted from the root's 1.
    fn write(&self, writer: &mut Writer, level: usize) -> Result<(), Refusal> {
        let below = level + 1;
        match self {
            Value::Null(trace) => writer.command(level, 0x00, &[trace.byte()]),
            Value::Boolean(truth) => writer.command(level, 0x01, &[u8::from(*truth)]),
            Value::Number(key) => writer.command(level, 0x02, &key.to_le_bytes()),
            Value::String(text) => writer.command(level, 0x03, &text.to_le_bytes()),
            Value::Date(key) => writer.command(level, 0x04, &key.to_le_bytes()),
            Value::Time(key) => writer.command(level, 0x05, &key.to_le_bytes()),
            Value::DateTime(key) => writer.command(level, 0x06, &key.to_le_bytes()),
            Value::DaysAndTimeDuration(key) => writer.command(level, 0x07, &key.to_le_bytes()),
            Value::YearsAndMonthsDuration(key) => writer.command(level, 0x08, &key.to_le_bytes()),
            Value::Range(start, start_type, end, end_type) => {
                writer.command(level, 0x09, &[start_type.byte(), end_type.byte()])?;
                start.write(writer, below)?;
                end.write(writer, below)
            }
            Value::List(items) => {
                let count = writer.wide_count(items.len())?;
                writer.command(level, 0x0A, &count)?;
                items.iter().try_for_each(|item| item.write(writer, below))
            }
            Value::Context(entries) => {
                let count = writer.wide_count(entries.len())?;
                writer.command(level, 0x0B, &count)?;
                sorted(entries).into_iter().try_for_each(|(name, child)| {
                    writer.put(&name.to_le_bytes())?;
                    child.write(writer, below)
                })
            }
            Value::FunctionDefinition(parameters, body, result) => {
                let count = writer.narrow_count(parameters.len())?;
                let [low, high] = body.to_le_bytes();
                writer.command(level, 0x0C, &[count, low, high])?;
                result.write(writer, below)?;
                parameters.iter().try_for_each(|(name, parameter)| {
                    writer.put(&name.to_le_bytes())?;
                    parameter.write(writer, below)
                })
            }
            Value::BuiltInFunction(position) => writer.command(level, 0x0D, &[*position]),
            Value::FeelType(t) => {
                writer.command(level, 0x0E, &[])?;
                t.write(writer, below)
            }
            Value::Irrelevant => writer.command(level, 0x0F, &[]),
            Value::Decimal(coefficient, exponent) => {
                writer.command(level, 0x10, &coefficient.to_le_bytes())?;
                writer.put(&[*exponent])
            }
        }
    }

    fn read(reader: &mut Reader) -> Result<Value, Refusal> {
        Ok(match reader.byte()? {
            0x00 => {
                let trace = Trace::of(reader.byte()?);
                Value::Null(trace.ok_or(reader.form())?)
            }
            0x01 => Value::Boolean(reader.byte()? != 0),
            0x02 => Value::Number(reader.key()?),
            0x03 => Value::String(reader.number()?),
            0x04 => Value::Date(reader.key()?),
            0x05 => Value::Time(reader.key()?),
            0x06 => Value::DateTime(reader.key()?),
            0x07 => Value::DaysAndTimeDuration(reader.key()?),
            0x08 => Value::YearsAndMonthsDuration(reader.key()?),
            0x09 => {
                let start_type = IntervalType::of(reader.byte()?).ok_or(reader.form())?;
                let end_type = IntervalType::of(reader.byte()?).ok_or(reader.form())?;
                let start = Value::read(reader)?;
                Value::range(start, start_type, Value::read(reader)?, end_type)
            }
            0x0A => {
                let count = reader.number()?;
                Value::List(reader.children(count, Value::read)?)
            }
            0x0B => {
                let count = reader.number()?;
                Value::Context(reader.entries(count, Value::read)?)
            }
            0x0C => {
                let count = reader.byte()?;
                let body = reader.number()?;
                let result = Type::read(reader)?;
                let parameters = reader.entries(count.into(), Type::read)?;
                Value::FunctionDefinition(parameters, body, result)
            }
            0x0D => Value::BuiltInFunction(reader.byte()?),
            0x0E => Value::FeelType(Type::read(reader)?),
            0x0F => Value::Irrelevant,
            0x10 => Value::Decimal(reader.key()?, reader.byte()?),
            _ => return Err(reader.form()),
        })
    }
}

impl Trace {
    fn byte(self) -> u8 {
        self as u8
    }

    fn of(byte: u8) -> Option<Trace> {
        use Trace::{AfterCoercion, None, NotConformant, Other};
        [None, AfterCoercion, NotConformant, Other]
            .get(usize::from(byte))
            .copied()
    }
}

impl IntervalType {
    /// The interval byte, as the questions in [intervals](crate::intervals) take it.
    ///
    /// ```
    /// use hedvaste::{IntervalType, intervals};
    /// assert_eq!(IntervalType::Closed.byte(), 2);
    /// assert_eq!(intervals::closed(IntervalType::Closed.byte()), Ok(true));
    /// ```
    pub fn byte(self) -> u8 {
        self as u8
    }

    fn of(byte: u8) -> Option<IntervalType> {
        use IntervalType::{Closed, ClosedUndef, Opened, OpenedUndef};
        [Opened, OpenedUndef, Closed, ClosedUndef]
            .get(usize::from(byte))
            .copied()
    }
}
