//! Stand-in for `dsntk-feel-number`, which is not among the published files. A number is a pair, a
//! signed 64-bit coefficient and an exponent p from 0 to 18, and means the coefficient divided by 10
//! to the power p; numbers are compared by their exact value. As document 01 has it, a whole number
//! is a signed 64-bit key: its exponent is 0. A number keeps how it was written, as a whole number
//! or as a decimal with its exponent, which has no part in the comparison.

use dsntk_common::Jsonify;
use std::cmp::Ordering;
use std::fmt;
use std::num::ParseIntError;
use std::str::FromStr;

/// The highest exponent.
pub const MAX_EXPONENT: u8 = 18;

/// A FEEL number.
#[derive(Debug, Clone, Copy)]
pub struct FeelNumber {
    coefficient: i64,
    /// None where the number is written as a whole one.
    exponent: Option<u8>,
}

impl FeelNumber {
    /// The number that is written as a whole one, with this key.
    pub fn whole(key: i64) -> FeelNumber {
        FeelNumber {
            coefficient: key,
            exponent: None,
        }
    }

    /// The coefficient divided by 10 to the power of the exponent, which is at most [MAX_EXPONENT].
    pub fn decimal(coefficient: i64, exponent: u8) -> FeelNumber {
        assert!(exponent <= MAX_EXPONENT, "an exponent of {exponent}");
        FeelNumber {
            coefficient,
            exponent: Some(exponent),
        }
    }

    /// The coefficient; of a whole number its key.
    pub fn coefficient(self) -> i64 {
        self.coefficient
    }

    /// The exponent that is written; none in a whole number.
    pub fn exponent(self) -> Option<u8> {
        self.exponent
    }

    /// 10 to the power of the exponent.
    fn divisor(self) -> i128 {
        10i128.pow(self.exponent.unwrap_or(0).into())
    }
}

impl PartialEq for FeelNumber {
    fn eq(&self, other: &Self) -> bool {
        self.cmp(other) == Ordering::Equal
    }
}

impl Eq for FeelNumber {}

impl PartialOrd for FeelNumber {
    fn partial_cmp(&self, other: &Self) -> Option<Ordering> {
        Some(self.cmp(other))
    }
}

/// By value. A coefficient has less than 2^63 or is -2^63, and a divisor less than 2^60, so a
/// product fits in 128 bits.
impl Ord for FeelNumber {
    fn cmp(&self, other: &Self) -> Ordering {
        let left = i128::from(self.coefficient) * other.divisor();
        let right = i128::from(other.coefficient) * self.divisor();
        left.cmp(&right)
    }
}

impl fmt::Display for FeelNumber {
    fn fmt(&self, f: &mut fmt::Formatter<'_>) -> fmt::Result {
        let places = usize::from(self.exponent.unwrap_or(0));
        if places == 0 {
            return write!(f, "{}", self.coefficient);
        }
        let sign = if self.coefficient < 0 { "-" } else { "" };
        let digits = format!("{:0>1$}", self.coefficient.unsigned_abs(), places + 1);
        let (whole, fraction) = digits.split_at(digits.len() - places);
        write!(f, "{sign}{whole}.{fraction}")
    }
}

/// Whole numbers alone; no answer depends on it.
impl FromStr for FeelNumber {
    type Err = ParseIntError;
    fn from_str(text: &str) -> Result<Self, Self::Err> {
        text.parse().map(FeelNumber::whole)
    }
}

impl Jsonify for FeelNumber {
    fn jsonify(&self) -> String {
        self.to_string()
    }
}

#[cfg(test)]
mod tests {
    use super::*;

    fn whole(key: i64) -> FeelNumber {
        FeelNumber::whole(key)
    }

    fn decimal(coefficient: i64, exponent: u8) -> FeelNumber {
        FeelNumber::decimal(coefficient, exponent)
    }

    /// The lesser number stands first.
    fn assert_less(less: FeelNumber, more: FeelNumber) {
        assert!(less < more, "{less} {more}");
        assert_ne!(less, more);
        assert_eq!(less.cmp(&more), Ordering::Less);
        assert_eq!(more.cmp(&less), Ordering::Greater);
    }

    fn assert_same(left: FeelNumber, right: FeelNumber) {
        assert_eq!(left, right);
        assert!(left <= right && right <= left);
        assert_eq!(left.cmp(&right), Ordering::Equal);
    }

    #[test]
    fn equal_numbers_may_be_written_differently() {
        assert_same(decimal(25, 1), decimal(250, 2));
        assert_same(whole(5), decimal(5, 0));
        assert_same(whole(-5), decimal(-5_000_000_000_000_000_000, 18));
        assert_same(decimal(-7, 17), decimal(-70, 18));
        for exponent in 0..=18 {
            assert_same(whole(0), decimal(0, exponent));
            assert_same(decimal(0, exponent), decimal(0, 18 - exponent));
        }
        assert_eq!(decimal(25, 1).exponent(), Some(1));
        assert_eq!(decimal(250, 2).exponent(), Some(2));
        assert_eq!(decimal(5, 0).exponent(), Some(0));
        assert_eq!(whole(5).exponent(), None);
        assert_eq!(decimal(250, 2).coefficient(), 250);
    }

    #[test]
    fn fractions_and_signs() {
        assert_less(decimal(-75, 2), decimal(-7, 1));
        assert_less(decimal(7, 1), decimal(75, 2));
        assert_less(decimal(-1, 18), decimal(1, 18));
        assert_less(decimal(-1, 18), whole(0));
        assert_less(whole(0), decimal(1, 18));
        assert_less(whole(-3), decimal(-25, 1));
        assert_less(decimal(-25, 1), whole(-2));
        assert_less(whole(2), decimal(25, 1));
        assert_less(decimal(25, 1), whole(3));
    }

    #[test]
    fn the_last_of_19_digits() {
        for exponent in 0..=18 {
            for coefficient in [1_000_000_000_000_000_000, i64::MAX - 1] {
                assert_less(
                    decimal(coefficient, exponent),
                    decimal(coefficient + 1, exponent),
                );
                assert_less(
                    decimal(-coefficient - 1, exponent),
                    decimal(-coefficient, exponent),
                );
            }
        }
        assert_less(whole(1), decimal(1_000_000_000_000_000_001, 18));
        assert_less(decimal(999_999_999_999_999_999, 18), whole(1));
        assert_less(decimal(-1_000_000_000_000_000_001, 18), whole(-1));
        assert_less(whole(-1), decimal(-999_999_999_999_999_999, 18));
        assert_less(decimal(922_337_203_685_477_580, 17), decimal(i64::MAX, 18));
    }

    #[test]
    fn the_ends_of_64_bits() {
        let (least, most) = (i64::MIN, i64::MAX);
        for [left, right] in [[0, 0], [0, 18], [18, 0], [18, 18]] {
            assert_less(decimal(least, left), decimal(most, right));
        }
        assert_less(whole(least), decimal(least, 18));
        assert_less(decimal(least, 0), decimal(least, 18));
        assert_less(decimal(most, 18), whole(most));
        assert_less(decimal(most, 18), decimal(most, 0));
        assert_same(whole(least), decimal(least, 0));
        assert_same(whole(most), decimal(most, 0));
        assert_less(decimal(least, 18), decimal(-most, 18));
        assert_less(whole(-10), decimal(least, 18));
        assert_less(decimal(least, 18), whole(-9));
        assert_less(whole(9), decimal(most, 18));
        assert_less(decimal(most, 18), whole(10));
    }

    #[test]
    fn texts() {
        assert_eq!(whole(-12).to_string(), "-12");
        assert_eq!(decimal(25, 1).to_string(), "2.5");
        assert_eq!(decimal(250, 2).to_string(), "2.50");
        assert_eq!(decimal(-75, 2).to_string(), "-0.75");
        assert_eq!(decimal(5, 0).to_string(), "5");
        assert_eq!(decimal(1, 18).to_string(), "0.000000000000000001");
        assert_eq!(decimal(i64::MIN, 18).jsonify(), "-9.223372036854775808");
        assert_eq!("-12".parse(), Ok(whole(-12)));
    }

    #[test]
    #[should_panic(expected = "an exponent of 19")]
    fn an_exponent_over_18() {
        decimal(1, 19);
    }
}
