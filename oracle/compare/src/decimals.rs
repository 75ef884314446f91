//! `is_valid_range` on ranges of two numbers, whole and decimal: each two ways to write them, the ends
//! of 64 bits, powers of ten and their neighbours, equal numbers that are written differently, numbers
//! that differ in the last of 19 digits; Null or another kind at one end, every two interval bytes,
//! exponents over 18. The cases are counted by what they are, and each class of them must be met.

use crate::call::{Call, Case, EachCase, Options};
use crate::calls::CALLS;
use crate::lent::Standing;
use crate::run::run_cases;
use crate::section::Section;
use crate::value_cases::{is_quick, one_in};
use dsntk_feel::values::Value;
use feel_cases::{MAX_EXPONENT, Random, decimal, whole};
use feel_form::read_value;
use std::cmp::Ordering;
use std::collections::BTreeMap;

/// The name of this section.
pub const NAME: &str = "decimals";

/// So many pairs of equal numbers, and as many of random ones, for each two ways to write them, meet
/// every class.
const LEAST: usize = 8;

/// Of so many pairs of special coefficients one is taken where few cases are wanted. No factor in
/// common with the number of ways to write a number, or of coefficients.
const STEP: usize = 31;

/// Whether a decimal number stands in the value that these bytes are, if they are one.
pub fn has_decimal(bytes: &[u8]) -> bool {
    bytes.contains(&0x10) && read_value(bytes).is_ok_and(|(value, _)| holds(&value))
}

fn holds(value: &Value) -> bool {
    match value {
        Value::Number(number) => number.exponent().is_some(),
        Value::Range(start, _, end, _) => holds(start) || holds(end),
        Value::List(items) => items.iter().any(holds),
        Value::Context(context) => context.values().any(holds),
        _ => false,
    }
}

/// How a number is written: command 02, or command 10 with this exponent.
type Written = Option<u8>;

fn all_written() -> impl Iterator<Item = Written> {
    [None].into_iter().chain((0..=MAX_EXPONENT).map(Some))
}

#[derive(Debug, Clone, Copy, PartialEq, Eq)]
struct Number {
    coefficient: i64,
    written: Written,
}

impl Number {
    fn new(coefficient: i64, written: Written) -> Number {
        Number {
            coefficient,
            written,
        }
    }

    fn exponent(self) -> u8 {
        self.written.unwrap_or(0)
    }

    fn bytes(self) -> Vec<u8> {
        match self.written {
            None => whole(self.coefficient),
            Some(exponent) => decimal(self.coefficient, exponent),
        }
    }

    /// The digits without the sign, 19 before the point and 18 behind it.
    fn digits(self) -> [u8; 37] {
        let mut digits = [0; 37];
        let mut rest = self.coefficient.unsigned_abs();
        let mut place = 18 + usize::from(self.exponent());
        while rest > 0 {
            digits[place] = (rest % 10) as u8;
            rest /= 10;
            place = place.saturating_sub(1);
        }
        digits
    }

    /// How the values of both stand to each other, by their signs and digits.
    fn order(self, other: Number) -> Ordering {
        match (self.coefficient < 0, other.coefficient < 0) {
            (false, false) => self.digits().cmp(&other.digits()),
            (true, true) => other.digits().cmp(&self.digits()),
            (is_negative, _) if is_negative => Ordering::Less,
            _ => Ordering::Greater,
        }
    }

    /// The coefficient that it has with this exponent, which is not lower than its own.
    fn scaled(self, exponent: u8) -> i128 {
        i128::from(self.coefficient) * 10i128.pow((exponent - self.exponent()).into())
    }

    /// The value rounded down.
    fn floor(self) -> i64 {
        self.coefficient
            .div_euclid(10i64.pow(self.exponent().into()))
    }
}

/// The start or the end of a range.
#[derive(Debug, Clone, Copy, PartialEq, Eq, PartialOrd, Ord)]
enum Place {
    Start,
    End,
}

const PLACES: [Place; 2] = [Place::Start, Place::End];

/// What is counted.
#[derive(Debug, Clone, Copy, PartialEq, Eq, PartialOrd, Ord)]
enum Class {
    /// How both numbers are written, and how their values stand to each other.
    Pair(Written, Written, Ordering),
    /// Equal, not 0, and not written with the same bytes.
    Equal(Written, Written, Sign),
    /// With the higher of both exponents they differ by one, and the larger has 19 digits.
    LastDigit(Written, Written, Sign, Ordering),
    /// Two coefficients of [ENDS], and whether each number is a decimal.
    Ends(i64, i64, bool, bool),
    /// A power of ten from 10 to 10^18 or a number beside it.
    Power(Place, i64),
    /// Of one sign, with one whole part, and different fractions.
    Fraction(Sign, Ordering),
    /// Both less than one away from 0, on both sides of it.
    AroundZero(Ordering),
    /// With the higher of both exponents the coefficient at this place passes 64 bits.
    Wide(Place, Ordering),
    /// Both interval bytes, and whether the start is greater.
    Interval(u8, u8, bool),
    /// Null at one end, both interval bytes, and whether the number is a decimal.
    Null(Place, u8, u8, bool),
    /// A value of this command, neither number nor Null, at one end, and whether the number is a
    /// decimal.
    Other(Place, u8, bool),
    /// An exponent over 18.
    Over(Place, u8),
    /// So many bytes of a decimal at one end, and then nothing.
    Cut(Place, usize),
}

#[derive(Debug, Clone, Copy, PartialEq, Eq, PartialOrd, Ord)]
enum Sign {
    Negative,
    Positive,
}

const SIGNS: [Sign; 2] = [Sign::Negative, Sign::Positive];

const UNEQUAL: [Ordering; 2] = [Ordering::Less, Ordering::Greater];

impl Sign {
    fn of(coefficient: i64) -> Option<Sign> {
        match coefficient.signum() {
            -1 => Some(Sign::Negative),
            1 => Some(Sign::Positive),
            _ => None,
        }
    }
}

/// The ends of 64 bits, 0 and its neighbours.
const ENDS: [i64; 5] = [i64::MIN, i64::MAX, 0, 1, -1];

/// A value of each command that is neither a number nor Null.
const OTHERS: [&[u8]; 14] = [
    &[0x01, 1],
    &[0x03, 25, 0],
    &[0x04, 25, 0, 0, 0, 0, 0, 0, 0],
    &[0x05, 25, 0, 0, 0, 0, 0, 0, 0],
    &[0x06, 25, 0, 0, 0, 0, 0, 0, 0],
    &[0x07, 25, 0, 0, 0, 0, 0, 0, 0],
    &[0x08, 25, 0, 0, 0, 0, 0, 0, 0],
    &[0x09, 2, 2, 0x03, 1, 0, 0x03, 2, 0],
    &[0x0A, 0, 0],
    &[0x0B, 0, 0],
    &[0x0C, 0, 0, 0, 0x22],
    &[0x0D, 0],
    &[0x0E, 0x22],
    &[0x0F],
];

/// Powers of ten from 10 to 10^18 and the numbers beside them, of both signs.
fn powers() -> Vec<i64> {
    let positive = (1..=18).flat_map(|power| [-1, 0, 1].map(|by| 10i64.pow(power) + by));
    positive.flat_map(|number| [number, -number]).collect()
}

/// All classes, in sorts with a title.
fn classes() -> Vec<(&'static str, Vec<Class>)> {
    let pairs: Vec<[Written; 2]> = all_written()
        .flat_map(|start| all_written().map(move |end| [start, end]))
        .collect();
    let unequal: Vec<[Written; 2]> = pairs.iter().copied().filter(|[a, b]| a != b).collect();
    let intervals: Vec<[u8; 2]> = (0..16).map(|both| [both / 4, both % 4]).collect();
    let mut last_digits = vec![];
    let mut equal = vec![];
    for sign in SIGNS {
        equal.extend(unequal.iter().map(|[a, b]| Class::Equal(*a, *b, sign)));
        for order in UNEQUAL {
            let last = |[a, b]: &[Written; 2]| Class::LastDigit(*a, *b, sign, order);
            last_digits.extend(pairs.iter().map(last));
        }
    }
    let orders = [Ordering::Less, Ordering::Equal, Ordering::Greater];
    let written = pairs
        .iter()
        .flat_map(|[a, b]| orders.map(|order| Class::Pair(*a, *b, order)));
    let kinds = [[false, false], [false, true], [true, false], [true, true]];
    let ends = ENDS
        .iter()
        .flat_map(|a| ENDS.map(|b| kinds.map(|[c, d]| Class::Ends(*a, b, c, d))));
    let at_places = |class: &dyn Fn(Place) -> Vec<Class>| PLACES.map(class).concat();
    vec![
        (
            "how both are written, and less, equal or greater",
            written.collect(),
        ),
        ("equal, not 0, and written differently", equal),
        ("the last of 19 digits differs", last_digits),
        (
            "both of the ends of 64 bits, 0, 1 and -1",
            ends.flatten().collect(),
        ),
        (
            "a power of ten or beside one",
            at_places(&|place| powers().iter().map(|n| Class::Power(place, *n)).collect()),
        ),
        (
            "the fraction decides",
            SIGNS
                .iter()
                .flat_map(|sign| UNEQUAL.map(|order| Class::Fraction(*sign, order)))
                .collect(),
        ),
        (
            "less than one from 0, on both sides",
            UNEQUAL.map(Class::AroundZero).to_vec(),
        ),
        (
            "past 64 bits with the other exponent",
            at_places(&|place| UNEQUAL.map(|order| Class::Wide(place, order)).to_vec()),
        ),
        (
            "both interval bytes",
            intervals
                .iter()
                .flat_map(|[a, b]| [false, true].map(|greater| Class::Interval(*a, *b, greater)))
                .collect(),
        ),
        (
            "Null at one end",
            at_places(&|place| {
                let null = |[a, b]: &[u8; 2]| {
                    [false, true].map(|is_decimal| Class::Null(place, *a, *b, is_decimal))
                };
                intervals.iter().flat_map(null).collect()
            }),
        ),
        (
            "another kind at one end",
            at_places(&|place| {
                let other = |v: &&[u8]| {
                    [false, true].map(|is_decimal| Class::Other(place, v[0], is_decimal))
                };
                OTHERS.iter().flat_map(other).collect()
            }),
        ),
        (
            "an exponent over 18",
            at_places(&|place| (19..=255).map(|p| Class::Over(place, p)).collect()),
        ),
        (
            "cut inside a decimal",
            at_places(&|place| (1..10).map(|length| Class::Cut(place, length)).collect()),
        ),
    ]
}

/// Hands out the cases and counts them.
struct Counter<'a, 'b> {
    each: &'a mut EachCase<'b>,
    counts: &'a mut BTreeMap<Class, u64>,
    /// How often yes is due.
    yes: &'a mut u64,
    random: Random,
}

impl Counter<'_, '_> {
    fn add(&mut self, class: Class) {
        *self.counts.entry(class).or_default() += 1;
    }

    fn case(&mut self, bytes: &[u8]) {
        (self.each)(Case {
            args: &[bytes],
            ..Case::default()
        });
    }

    /// A range of two numbers, with interval bytes that are seldom 3.
    fn pair(&mut self, start: Number, end: Number) {
        let highest = if self.random.below(8) == 0 { 4 } else { 3 };
        let interval = [0; 2].map(|_| self.random.below(highest) as u8);
        self.pair_with(interval, start, end);
    }

    fn pair_with(&mut self, interval: [u8; 2], start: Number, end: Number) {
        let order = start.order(end);
        *self.yes += u64::from(order.is_le() && !interval.contains(&3));
        self.count(interval, start, end, order);
        self.case(&range(interval, &start.bytes(), &end.bytes()));
    }

    fn count(&mut self, interval: [u8; 2], start: Number, end: Number, order: Ordering) {
        let (a, b) = (start.written, end.written);
        self.add(Class::Pair(a, b, order));
        self.add(Class::Interval(interval[0], interval[1], order.is_gt()));
        for (place, number) in [(Place::Start, start), (Place::End, end)] {
            if is_power(number.coefficient) {
                self.add(Class::Power(place, number.coefficient));
            }
        }
        let [first, second] = [start, end].map(|number| number.coefficient);
        if ENDS.contains(&first) && ENDS.contains(&second) {
            self.add(Class::Ends(first, second, a.is_some(), b.is_some()));
        }
        let (sign, sign_of_end) = (Sign::of(first), Sign::of(second));
        let sign = sign.filter(|_| sign == sign_of_end);
        if order.is_eq() {
            if let Some(sign) = sign.filter(|_| a != b) {
                self.add(Class::Equal(a, b, sign));
            }
            return;
        }
        let highest = start.exponent().max(end.exponent());
        let [x, y] = [start, end].map(|number| number.scaled(highest));
        let one = 10i128.pow(highest.into());
        let of_19_digits = 10u128.pow(18)..10u128.pow(19);
        if let Some(sign) = sign {
            let largest = x.unsigned_abs().max(y.unsigned_abs());
            if (x - y).abs() == 1 && of_19_digits.contains(&largest) {
                self.add(Class::LastDigit(a, b, sign, order));
            }
            if start.floor() == end.floor() {
                self.add(Class::Fraction(sign, order));
            }
        } else if [x, y].iter().all(|n| n.abs() < one) && x * y < 0 {
            self.add(Class::AroundZero(order));
        }
        for (place, scaled) in [(Place::Start, x), (Place::End, y)] {
            if i64::try_from(scaled).is_err() {
                self.add(Class::Wide(place, order));
            }
        }
    }

    /// The number at one place of a range, another value at the other.
    fn beside(&mut self, place: Place, interval: [u8; 2], number: Number, other: &[u8]) {
        let is_decimal = number.written.is_some();
        let other_place = match place {
            Place::Start => Place::End,
            Place::End => Place::Start,
        };
        if other[0] == 0x00 {
            self.add(Class::Null(
                other_place,
                interval[0],
                interval[1],
                is_decimal,
            ));
        } else {
            self.add(Class::Other(other_place, other[0], is_decimal));
        }
        // Null may stand at an end whose byte is 0 or 1.
        let of_other = interval[usize::from(other_place == Place::End)];
        let is_valid = other[0] == 0x00 && of_other < 2 && !interval.contains(&3);
        *self.yes += u64::from(is_valid);
        self.case(&at(place, interval, &number.bytes(), other));
    }
}

/// Whether the coefficient is one of [powers].
fn is_power(coefficient: i64) -> bool {
    let number = coefficient.unsigned_abs();
    (number.saturating_sub(1)..=number + 1)
        .any(|power| power >= 10 && power == 10u64.pow(power.ilog10()))
}

fn range(interval: [u8; 2], start: &[u8], end: &[u8]) -> Vec<u8> {
    [&[0x09, interval[0], interval[1]], start, end].concat()
}

/// A range with the first value at this place.
fn at(place: Place, interval: [u8; 2], value: &[u8], other: &[u8]) -> Vec<u8> {
    match place {
        Place::Start => range(interval, value, other),
        Place::End => range(interval, other, value),
    }
}

/// Runs the section.
pub fn run(options: &Options) -> Section {
    let mut calls = CALLS.into_iter();
    let call = calls.find(|call| call.name == "value_is_valid_range");
    let call = Call {
        refusals: &[2],
        ..call.expect("a call")
    };
    let mut counts = BTreeMap::new();
    let mut yes = 0;
    let tally = run_cases(&call, Standing::Guarded, |each| {
        generate(
            options,
            &mut Counter {
                each,
                counts: &mut counts,
                yes: &mut yes,
                random: Random::new(options.seed),
            },
        )
    });
    let counted = |class: &Class| counts.get(class).copied().unwrap_or(0);
    let classes = classes();
    let all = || classes.iter().flat_map(|(_, classes)| classes);
    let unmet = all().filter(|class| counted(class) == 0);
    let mut missing: Vec<String> = unmet.map(|class| format!("{class:?}")).collect();
    if yes != tally.ones {
        missing.push(format!(
            "yes {yes} times, where the start is not greater or one end is Null, and only there"
        ));
    }
    let refused = ["an exponent over 18", "cut inside a decimal"];
    let is_refused = |(title, _): &&(&str, Vec<Class>)| refused.contains(title);
    let refused = classes.iter().filter(is_refused);
    let refused: u64 = refused.flat_map(|(_, c)| c.iter().map(counted)).sum();
    if refused != tally.refused[&2] {
        missing.push(format!("refusal 2 for these {refused} damaged ones alone"));
    }
    let line = |(title, classes): &(&str, Vec<Class>)| {
        let counts = || classes.iter().map(counted);
        let (sum, least) = (counts().sum::<u64>(), counts().min().unwrap_or(0));
        let count = classes.len();
        format!("{title}: {sum} in {count} classes, at least {least} of each")
    };
    Section {
        name: NAME,
        lines: classes.iter().map(line).collect(),
        missing,
        tally,
    }
}

fn generate(options: &Options, counter: &mut Counter) {
    let special: Vec<i64> = ENDS
        .into_iter()
        .chain([2, -2, i64::MIN + 1, i64::MAX - 1])
        .chain(powers())
        .collect();
    let mut taken = one_in(if is_quick(options) { STEP } else { 1 });
    let count = LEAST.max(options.pairs / 100);
    for start in all_written() {
        for end in all_written() {
            for a in &special {
                for b in &special {
                    if ENDS.contains(a) && ENDS.contains(b) || taken() {
                        counter.pair(Number::new(*a, start), Number::new(*b, end));
                    }
                }
            }
            for number in 0..count {
                near_pairs(start, end, number, counter);
                random_pairs(start, end, counter);
            }
        }
        for a in &special {
            for place in PLACES {
                let any = Number::new(any_coefficient(counter), any_written(counter));
                let special = Number::new(*a, start);
                match place {
                    Place::Start => counter.pair(special, any),
                    Place::End => counter.pair(any, special),
                }
            }
        }
        other_ends(start, counter);
    }
    every_interval(counter);
    damaged(counter);
}

/// Pairs of equal value, and with one more or less in the last digit; of 19 digits or fewer.
fn near_pairs(start: Written, end: Written, number: usize, counter: &mut Counter) {
    let [p, q] = [start, end].map(|written| written.unwrap_or(0));
    let factor = 10i64.pow(p.abs_diff(q).into());
    let most = i64::MAX / factor;
    let random = &mut counter.random;
    let least = match number % 4 {
        0 | 1 => 10i64.pow(18) / factor,
        _ => 1,
    };
    let most = match number % 4 {
        0 | 1 => most,
        _ => most.min(10i64.pow(random.below(19) as u32)).max(1),
    };
    let size = least + (random.bits() % (most - least + 1) as u64) as i64;
    let short = if number.is_multiple_of(2) {
        size
    } else {
        -size
    };
    let long = short * factor;
    // The one with the lower exponent has the shorter coefficient.
    let [a, b] = if p <= q { [short, long] } else { [long, short] };
    let (start, end) = (Number::new(a, start), Number::new(b, end));
    counter.pair(start, end);
    for by in [-1, 1] {
        let more = |number: Number| {
            let coefficient = number.coefficient.checked_add(by)?;
            Some(Number::new(coefficient, number.written))
        };
        if let Some(end) = more(end) {
            counter.pair(start, end);
        }
        if let Some(start) = more(start) {
            counter.pair(start, end);
        }
    }
}

/// Pairs of any numbers, with one whole part, and around 0.
fn random_pairs(start: Written, end: Written, counter: &mut Counter) {
    let [a, b] = [start, end].map(|written| Number::new(any_coefficient(counter), written));
    counter.pair(a, b);
    let part = counter.random.below(9) as i64 - 4;
    let [a, b] = [start, end].map(|written| {
        let one = 10i64.pow(written.unwrap_or(0).into());
        let fraction = (counter.random.bits() % one as u64) as i64;
        Number::new(part * one + fraction, written)
    });
    counter.pair(a, b);
    let [a, b] = [a, b].map(|number| {
        let one = 10i64.pow(number.exponent().into());
        Number::new(number.coefficient % one, number.written)
    });
    counter.pair(Number::new(-a.coefficient, a.written), b);
}

/// A random coefficient with any count of bits.
fn any_coefficient(counter: &mut Counter) -> i64 {
    let bits = counter.random.bits() as i64;
    bits >> counter.random.below(64)
}

fn any_written(counter: &mut Counter) -> Written {
    let place = counter.random.below(20);
    all_written().nth(place).expect("one of twenty")
}

/// Null, with every two interval bytes, and every other kind at one end.
fn other_ends(written: Written, counter: &mut Counter) {
    for coefficient in [0, 25, -1, i64::MIN, i64::MAX] {
        let number = Number::new(coefficient, written);
        for place in PLACES {
            for both in 0..16 {
                let interval = [both / 4, both % 4];
                for trace in 0..4 {
                    counter.beside(place, interval, number, &[0x00, trace]);
                }
                for other in OTHERS {
                    counter.beside(place, interval, number, other);
                }
            }
        }
    }
}

/// Two numbers with every two interval bytes: less, equal, greater.
fn every_interval(counter: &mut Counter) {
    for both in 0..16 {
        let interval = [both / 4, both % 4];
        for start in all_written() {
            for end in all_written() {
                for coefficients in [[1, 2], [2, 2], [0, 0], [-1, 1], [1, -1]] {
                    let [a, b] = coefficients;
                    counter.pair_with(interval, Number::new(a, start), Number::new(b, end));
                }
            }
        }
    }
}

/// Exponents over 18 at either end, and ranges that end inside a decimal.
fn damaged(counter: &mut Counter) {
    let others = [whole(1), decimal(25, 1), vec![0x00, 0]];
    for place in PLACES {
        for other in &others {
            for exponent in MAX_EXPONENT + 1..=255 {
                for coefficient in [0, 25, i64::MIN] {
                    counter.add(Class::Over(place, exponent));
                    let bytes = decimal(coefficient, exponent);
                    counter.case(&at(place, [0, 0], &bytes, other));
                }
            }
            for length in 1..10 {
                for exponent in [0, MAX_EXPONENT] {
                    counter.add(Class::Cut(place, length));
                    let cut = &decimal(-75, exponent)[..length];
                    match place {
                        Place::Start => counter.case(&range([0, 0], cut, &[])),
                        Place::End => counter.case(&range([0, 0], other, cut)),
                    }
                }
            }
        }
    }
}

#[cfg(test)]
mod tests {
    use super::*;

    #[test]
    fn numbers_are_ordered_by_their_digits() {
        let number = |coefficient, exponent| Number::new(coefficient, Some(exponent));
        assert_eq!(number(25, 1).order(number(250, 2)), Ordering::Equal);
        assert_eq!(number(-75, 2).order(number(-7, 1)), Ordering::Less);
        assert_eq!(number(1, 18).order(Number::new(0, None)), Ordering::Greater);
        assert_eq!(
            Number::new(i64::MIN, None).order(number(i64::MIN, 18)),
            Ordering::Less
        );
        assert_eq!(
            Number::new(i64::MAX, None).order(number(i64::MAX, 0)),
            Ordering::Equal
        );
        assert_eq!(number(-1, 18).order(number(1, 18)), Ordering::Less);
        assert_eq!(number(-75, 2).floor(), -1);
    }

    #[test]
    fn powers_are_known() {
        let powers = powers();
        assert_eq!(powers.len(), 18 * 3 * 2);
        assert!(powers.iter().all(|number| is_power(*number)));
        for other in [0, 1, -1, 8, 12, 98, -102, i64::MIN, i64::MAX] {
            assert!(!is_power(other), "{other}");
        }
    }

    #[test]
    fn decimals_are_found_in_values() {
        assert!(has_decimal(&decimal(25, 1)));
        assert!(!has_decimal(&decimal(25, 19)));
        assert!(!has_decimal(&whole(0x10)));
        assert!(has_decimal(
            &[&[0x0B, 1, 0, 1, 0, 0x0A, 1, 0], &decimal(0, 0)[..]].concat()
        ));
        assert!(!has_decimal(&[0x0B, 1, 0, 0x10, 0, 0x0F]));
    }
}
