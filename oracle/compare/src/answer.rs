//! The 64-bit answer of a C function.

use std::fmt;

/// High word 0: the answer is in the low word. High word 1: refused, the number is in the low word.
/// High word 2: none, or unknown.
#[derive(Debug, Clone, Copy, PartialEq, Eq)]
pub struct Answer(pub u64);

impl Answer {
    pub fn given(low: u32) -> Self {
        Answer(u64::from(low))
    }

    pub fn refused(number: u8) -> Self {
        Answer((1 << 32) | u64::from(number))
    }

    pub fn none() -> Self {
        Answer(2 << 32)
    }

    pub fn high(self) -> u32 {
        (self.0 >> 32) as u32
    }

    pub fn low(self) -> u32 {
        self.0 as u32
    }
}

impl fmt::Display for Answer {
    fn fmt(&self, f: &mut fmt::Formatter<'_>) -> fmt::Result {
        match self.high() {
            0 => write!(f, "{}", self.low()),
            1 => write!(f, "refused {}", self.low()),
            2 => write!(f, "none {}", self.low()),
            _ => write!(f, "no answer: {:016X}", self.0),
        }
    }
}
