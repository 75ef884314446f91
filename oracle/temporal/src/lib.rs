//! Stand-in for `dsntk-feel-temporal`, which is not among the published files. As document 01 has
//! it, each temporal value is a signed 64-bit key, ordered as whole numbers. Its text is the key
//! in decimal.

use std::fmt;
use std::num::ParseIntError;
use std::str::FromStr;

macro_rules! keys {
    ($($name:ident)*) => {$(
        #[derive(Debug, Clone, Copy, PartialEq, Eq, PartialOrd, Ord)]
        pub struct $name(pub i64);

        impl fmt::Display for $name {
            fn fmt(&self, f: &mut fmt::Formatter<'_>) -> fmt::Result {
                write!(f, "{}", self.0)
            }
        }
    )*};
}

macro_rules! from_str {
    ($($name:ident)*) => {$(
        impl FromStr for $name {
            type Err = ParseIntError;
            fn from_str(text: &str) -> Result<Self, Self::Err> {
                text.parse().map($name)
            }
        }
    )*};
}

macro_rules! try_from {
    ($($name:ident)*) => {$(
        impl TryFrom<&str> for $name {
            type Error = ParseIntError;
            fn try_from(text: &str) -> Result<Self, Self::Error> {
                text.parse().map($name)
            }
        }
    )*};
}

keys!(FeelDate FeelTime FeelDateTime FeelDaysAndTimeDuration FeelYearsAndMonthsDuration);
from_str!(FeelDate FeelTime);
try_from!(FeelDateTime FeelDaysAndTimeDuration FeelYearsAndMonthsDuration);
