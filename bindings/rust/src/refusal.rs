//! Refusals.

use std::error::Error;
use std::fmt;

/// What each refusal means, 1 to 20.
const WORDS: [&str; 20] = [
    "value: no bytes, or more than 16,384",
    "value: ends inside, unknown command, or an operand outside its list",
    "value: names not strictly ascending",
    "value: level over 31",
    "value: bytes left over",
    "type: no bytes, or more than 16,384",
    "type: ends inside, or unknown command",
    "type: names not strictly ascending",
    "type: level over 32",
    "type: bytes left over",
    "path: more than 31 names",
    "a context is wanted, and the value is none",
    "least type asked of a value that holds a function, a built-in, a type or an irrelevant mark",
    "scratch too short",
    "the value cannot be retrieved with the type",
    "a value on the way of the path is no context",
    "the result would have more than 16,384 bytes or a level over 31",
    "output too short for the answer",
    "texts: table or parts malformed, or with bytes left over",
    "texts: a name's number is not in the table",
];

/// What the refusals of a table of simple types mean, 26 to 28.
const TABLE_WORDS: [&str; 3] = [
    "table: not a hundred bytes 0 or 1",
    "table: no order of the simple types from Null up to Any",
    "table: two types lack a least common supertype",
];

/// Why a call has no answer: a number from 1 to 20, or from 26 to 28.
#[derive(Debug, Clone, Copy, PartialEq, Eq, PartialOrd, Ord, Hash)]
pub struct Refusal(u8);

impl Refusal {
    /// The refusal with this number, if there is one.
    ///
    /// ```
    /// use hedvaste::Refusal;
    /// assert!(Refusal::new(20).is_some() && Refusal::new(26).is_some());
    /// assert!([0, 21, 25, 29].iter().all(|number| Refusal::new(*number).is_none()));
    /// ```
    pub fn new(number: u8) -> Option<Refusal> {
        matches!(number, 1..=20 | 26..=28).then_some(Refusal(number))
    }

    /// The refusal with this number, which is from 1 to 20.
    pub(crate) const fn of(number: u8) -> Refusal {
        assert!(1 <= number && number <= 20);
        Refusal(number)
    }

    /// The number, 1 to 20 or 26 to 28.
    ///
    /// ```
    /// let refusal = hedvaste::values::check_value(&[]).unwrap_err();
    /// assert_eq!(refusal.number(), 1);
    /// assert_eq!(refusal.to_string(), "refused 1, value: no bytes, or more than 16,384");
    /// ```
    pub fn number(self) -> u8 {
        self.0
    }
}

impl fmt::Display for Refusal {
    fn fmt(&self, f: &mut fmt::Formatter<'_>) -> fmt::Result {
        let words = match self.0 {
            26.. => TABLE_WORDS[usize::from(self.0) - 26],
            _ => WORDS[usize::from(self.0) - 1],
        };
        write!(f, "refused {}, {words}", self.0)
    }
}

impl Error for Refusal {}
