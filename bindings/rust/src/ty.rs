//! Types as trees.

use crate::form::{Reader, TYPE, Writer, sorted};
use crate::{Refusal, types};

/// A type. Names are 16-bit numbers.
#[derive(Debug, Clone, PartialEq, Eq, Hash)]
pub enum Type {
    /// 20
    Any,
    /// 21
    Boolean,
    /// 22
    Number,
    /// 23
    String,
    /// 24
    Date,
    /// 25
    Time,
    /// 26
    DateTime,
    /// 27
    DaysAndTimeDuration,
    /// 28
    YearsAndMonthsDuration,
    /// 29
    Null,
    /// 2A: the type of the items.
    List(Box<Type>),
    /// 2B: the type of both ends.
    Range(Box<Type>),
    /// 2C: each name with its type, in any order; a name twice is refused 8.
    Context(Vec<(u16, Type)>),
    /// 2D: the types of the parameters, at most 255, and of the result.
    Function(Vec<Type>, Box<Type>),
}

impl Type {
    /// A list of items of this type.
    ///
    /// ```
    /// use hedvaste::Type;
    /// assert_eq!(Type::list(Type::Number).to_bytes(), Ok(vec![0x2A, 0x22]));
    /// ```
    pub fn list(items: Type) -> Type {
        Type::List(Box::new(items))
    }

    /// A range with ends of this type.
    ///
    /// ```
    /// use hedvaste::Type;
    /// assert_eq!(Type::range(Type::Date).to_bytes(), Ok(vec![0x2B, 0x24]));
    /// ```
    pub fn range(ends: Type) -> Type {
        Type::Range(Box::new(ends))
    }

    /// A context with these names and types, sorted by name.
    ///
    /// ```
    /// use hedvaste::Type;
    /// let t = Type::context([(7, Type::Any), (5, Type::Number)]);
    /// assert_eq!(t.to_bytes(), Ok(vec![0x2C, 2, 0, 5, 0, 0x22, 7, 0, 0x20]));
    /// ```
    pub fn context(entries: impl IntoIterator<Item = (u16, Type)>) -> Type {
        let mut entries: Vec<_> = entries.into_iter().collect();
        entries.sort_by_key(|(name, _)| *name);
        Type::Context(entries)
    }

    /// A function with these parameters and this result.
    ///
    /// ```
    /// use hedvaste::Type;
    /// let t = Type::function([Type::Number], Type::Any);
    /// assert_eq!(t.to_bytes(), Ok(vec![0x2D, 1, 0x22, 0x20]));
    /// ```
    pub fn function(parameters: impl IntoIterator<Item = Type>, result: Type) -> Type {
        Type::Function(parameters.into_iter().collect(), Box::new(result))
    }

    /// The bytes of the type. They are judged by the library's reader, so every call accepts them;
    /// refusal 6 to 9 otherwise. More than 255 parameters are refused 7.
    ///
    /// ```
    /// use hedvaste::Type;
    /// assert_eq!(Type::Null.to_bytes(), Ok(vec![0x29]));
    /// let twice = Type::context([(5, Type::Any), (5, Type::Any)]);
    /// assert_eq!(twice.to_bytes().unwrap_err().number(), 8);
    /// ```
    pub fn to_bytes(&self) -> Result<Vec<u8>, Refusal> {
        let mut writer = Writer::new(TYPE);
        self.write(&mut writer, 1)?;
        let bytes = writer.into_bytes();
        types::check_type(&bytes)?;
        Ok(bytes)
    }

    /// The type that the bytes spell, or refusal 6 to 10.
    ///
    /// ```
    /// use hedvaste::Type;
    /// assert_eq!(Type::from_bytes(&[0x2B, 0x26]), Ok(Type::range(Type::DateTime)));
    /// assert_eq!(Type::from_bytes(&[0x2B]).unwrap_err().number(), 7);
    /// ```
    pub fn from_bytes(bytes: &[u8]) -> Result<Type, Refusal> {
        types::check_type(bytes)?;
        Type::read(&mut Reader::new(bytes, TYPE))
    }

    /// Writes the type at this level, counted from the root's 1.
    pub(crate) fn write(&self, writer: &mut Writer, level: usize) -> Result<(), Refusal> {
        let below = level + 1;
        match self {
            Type::List(inner) => {
                writer.command(level, 0x2A, &[])?;
                inner.write(writer, below)
            }
            Type::Range(inner) => {
                writer.command(level, 0x2B, &[])?;
                inner.write(writer, below)
            }
            Type::Context(entries) => {
                let count = writer.wide_count(entries.len())?;
                writer.command(level, 0x2C, &count)?;
                sorted(entries).into_iter().try_for_each(|(name, child)| {
                    writer.put(&name.to_le_bytes())?;
                    child.write(writer, below)
                })
            }
            Type::Function(parameters, result) => {
                let count = writer.narrow_count(parameters.len())?;
                writer.command(level, 0x2D, &[count])?;
                for parameter in parameters {
                    parameter.write(writer, below)?;
                }
                result.write(writer, below)
            }
            simple => writer.command(level, simple.simple_command(), &[]),
        }
    }

    fn simple_command(&self) -> u8 {
        match self {
            Type::Any => 0x20,
            Type::Boolean => 0x21,
            Type::Number => 0x22,
            Type::String => 0x23,
            Type::Date => 0x24,
            Type::Time => 0x25,
            Type::DateTime => 0x26,
            Type::DaysAndTimeDuration => 0x27,
            Type::YearsAndMonthsDuration => 0x28,
            Type::Null => 0x29,
            Type::List(_) | Type::Range(_) | Type::Context(_) | Type::Function(..) => {
                unreachable!("written with its children")
            }
        }
    }

    pub(crate) fn read(reader: &mut Reader) -> Result<Type, Refusal> {
        Ok(match reader.byte()? {
            0x20 => Type::Any,
            0x21 => Type::Boolean,
            0x22 => Type::Number,
            0x23 => Type::String,
            0x24 => Type::Date,
            0x25 => Type::Time,
            0x26 => Type::DateTime,
            0x27 => Type::DaysAndTimeDuration,
            0x28 => Type::YearsAndMonthsDuration,
            0x29 => Type::Null,
            0x2A => Type::list(Type::read(reader)?),
            0x2B => Type::range(Type::read(reader)?),
            0x2C => {
                let count = reader.number()?;
                Type::Context(reader.entries(count, Type::read)?)
            }
            0x2D => {
                let count = reader.byte()?;
                let parameters = reader.children(count.into(), Type::read)?;
                Type::function(parameters, Type::read(reader)?)
            }
            _ => return Err(reader.form()),
        })
    }
}
