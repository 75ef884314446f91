//! Runs the cases of a call through both sides, counts them, and keeps the smallest difference.

use crate::answer::Answer;
use crate::call::{Call, Case, EachCase, Gives, Options};
use crate::decimals::has_decimal;
use crate::lent::{Lent, Standing};
use std::collections::BTreeMap;
use std::fmt;

/// A case on which the two sides differ.
#[derive(Debug, Clone, PartialEq, Eq)]
pub struct Difference {
    pub args: Vec<Vec<u8>>,
    /// The other types, where a check of the Rust's own answer failed.
    pub others: Vec<Vec<u8>>,
    pub scratch: usize,
    pub output: usize,
    pub expected: Answer,
    pub actual: Answer,
    pub expected_output: Vec<u8>,
    pub actual_output: Vec<u8>,
    /// What differs.
    pub what: &'static str,
}

/// The counts of one call.
#[derive(Debug)]
pub struct Tally {
    pub name: &'static str,
    pub gives: Gives,
    pub cases: u64,
    pub accepted: u64,
    /// How many of the accepted have the answer 1.
    pub ones: u64,
    pub none: u64,
    /// How many cases have a decimal number in an accepted value; none where the call reads no value.
    pub decimals: Option<u64>,
    /// How many checks of the Rust's own answer held.
    pub checks: u64,
    /// For each refusal the call can give, how often it is expected.
    pub refused: BTreeMap<u32, u64>,
    pub differences: u64,
    pub smallest: Option<Difference>,
    /// A digest of the library's answers and of what it wrote, in the order of the cases.
    pub digest: u64,
}

/// Runs all cases of a call.
pub fn run(call: &Call, options: &Options) -> Tally {
    run_cases(call, Standing::Guarded, |each| {
        (call.generate)(options, each)
    })
}

/// Runs these cases of a call, with the buffers at such a place.
pub fn run_cases(call: &Call, standing: Standing, generate: impl FnOnce(&mut EachCase)) -> Tally {
    let mut tally = Tally::new(call);
    let mut lent = Lent::new(standing);
    generate(&mut |case| tally.compare(call, case, &mut lent));
    tally
}

/// Runs these cases of a call without asking the Rust: the digest is all that says something of the
/// answers.
pub fn run_alone(call: &Call, standing: Standing, generate: impl FnOnce(&mut EachCase)) -> Tally {
    let mut tally = Tally::new(call);
    let mut lent = Lent::new(standing);
    generate(&mut |case| {
        lent.fill(case);
        let actual = (call.actual)(&mut lent);
        tally.count(actual);
        tally.digest(actual, &lent);
    });
    tally
}

impl Tally {
    fn new(call: &Call) -> Tally {
        Tally {
            name: call.name,
            gives: call.gives,
            cases: 0,
            accepted: 0,
            ones: 0,
            none: 0,
            // 1 is the refusal of a value's length.
            decimals: call.refusals.contains(&1).then_some(0),
            checks: 0,
            refused: call.refusals.iter().map(|&n| (u32::from(n), 0)).collect(),
            differences: 0,
            smallest: None,
            digest: 0,
        }
    }

    /// Counts an answer.
    fn count(&mut self, answer: Answer) {
        self.cases += 1;
        match answer.high() {
            0 => self.accepted += 1,
            1 => *self.refused.entry(answer.low()).or_default() += 1,
            _ => self.none += 1,
        }
        self.ones += u64::from(answer == Answer::given(1));
    }

    /// Takes an answer, and the bytes that it says were written, into the digest.
    fn digest(&mut self, answer: Answer, lent: &Lent) {
        self.stir(answer.0);
        if self.gives == Gives::Length && answer.high() == 0 {
            let written = lent.output.contents().iter().take(answer.low() as usize);
            for byte in written {
                self.stir(u64::from(*byte));
            }
        }
    }

    fn stir(&mut self, word: u64) {
        self.digest = (self.digest ^ word)
            .wrapping_mul(0x0000_0100_0000_01B3)
            .rotate_left(23);
    }

    fn compare(&mut self, call: &Call, case: Case, lent: &mut Lent) {
        let expected = (call.expected)(case);
        lent.fill(case);
        let actual = (call.actual)(lent);
        self.digest(actual, lent);
        self.count(expected.answer);
        if let Some(decimals) = &mut self.decimals {
            *decimals += u64::from(case.args.iter().any(|arg| has_decimal(arg)));
        }
        self.checks += expected.checks.held;
        let what = if actual != expected.answer {
            Some("the answers differ")
        } else {
            let fault = || lent.fault(case, &expected.output);
            expected.checks.failed.or_else(fault)
        };
        let Some(what) = what else {
            return;
        };
        let others = expected.checks.failed.and(case.others).unwrap_or_default();
        self.differences += 1;
        if self
            .smallest
            .as_ref()
            .is_none_or(|kept| is_smaller(case, kept))
        {
            self.smallest = Some(Difference {
                args: case.args.iter().map(|arg| arg.to_vec()).collect(),
                others: others.iter().map(|other| other.to_vec()).collect(),
                scratch: case.scratch,
                output: case.output,
                expected: expected.answer,
                actual,
                expected_output: expected.output,
                actual_output: lent.output.contents().to_vec(),
                what,
            });
        }
    }
}

/// Whether the case has fewer bytes than the one kept.
fn is_smaller(case: Case, kept: &Difference) -> bool {
    let case_length: usize = case.args.iter().map(|arg| arg.len()).sum();
    let kept_length: usize = kept.args.iter().map(|arg| arg.len()).sum();
    case_length < kept_length
}

impl fmt::Display for Tally {
    fn fmt(&self, f: &mut fmt::Formatter<'_>) -> fmt::Result {
        write!(
            f,
            "{}: {} cases, {} accepted",
            self.name, self.cases, self.accepted
        )?;
        if self.gives == Gives::YesOrNo {
            write!(f, ", {} yes", self.ones)?;
        }
        if let Some(decimals) = self.decimals {
            write!(f, ", {decimals} with decimals")?;
        }
        let checked = match self.gives {
            Gives::Level => "written back",
            Gives::YesOrNo | Gives::Length | Gives::Count | Gives::Part | Gives::Command => {
                "checks of theorems"
            }
        };
        if self.checks > 0 {
            write!(f, ", {} {checked}", self.checks)?;
        }
        if self.none > 0 {
            let none = match self.gives {
                Gives::Command => "unknown",
                _ => "none",
            };
            write!(f, ", {} {none}", self.none)?;
        }
        for (number, count) in &self.refused {
            write!(f, ", refusal {number}: {count}")?;
        }
        Ok(())
    }
}

impl fmt::Display for Difference {
    fn fmt(&self, f: &mut fmt::Formatter<'_>) -> fmt::Result {
        writeln!(f, "{}", self.what)?;
        for arg in &self.args {
            writeln!(f, "  argument {}", hex(arg))?;
        }
        for other in &self.others {
            writeln!(f, "  other type {}", hex(other))?;
        }
        if self.scratch > 0 {
            writeln!(f, "  scratch of {} bytes", self.scratch)?;
        }
        writeln!(f, "  expected {}", self.expected)?;
        write!(f, "  actual   {}", self.actual)?;
        if self.output > 0 {
            writeln!(f)?;
            writeln!(f, "  expected output {}", hex(&self.expected_output))?;
            write!(f, "  actual output   {}", hex(&self.actual_output))?;
        }
        Ok(())
    }
}

fn hex(bytes: &[u8]) -> String {
    if bytes.is_empty() {
        return ".".to_string();
    }
    bytes.iter().map(|byte| format!("{byte:02X}")).collect()
}

#[cfg(test)]
mod tests {
    use super::*;
    use crate::call::{Checks, Expected};
    use feel_cases::each_string;

    const OPTIONS: Options = Options {
        length: 0,
        alphabet_length: 0,
        pair_length: 0,
        count: 0,
        pairs: 0,
        seed: 0,
    };

    /// All strings of up to three bytes of 1 and 2; the answer is the sum, and it is written.
    fn sums(_: &Options, each: &mut EachCase) {
        for length in 0..=3 {
            each_string(&[1, 2], length, &mut |bytes| {
                each(Case {
                    args: &[bytes, &[9]],
                    others: Some(&[&[8]]),
                    scratch: 2,
                    output: 4,
                })
            });
        }
    }

    fn sum(bytes: &[u8]) -> u8 {
        bytes.iter().sum()
    }

    fn expected_sum(case: Case) -> Expected {
        Expected {
            answer: Answer::given(sum(case.args[0]).into()),
            output: vec![sum(case.args[0])],
            checks: Checks {
                held: 2,
                failed: None,
            },
        }
    }

    /// Writes the sum to the output.
    fn actual_sum(lent: &mut Lent) -> Answer {
        let sum = sum(lent.args[0].contents());
        unsafe { lent.output.as_mut_ptr().write(sum) };
        Answer::given(sum.into())
    }

    fn run_sums(actual: fn(&mut Lent) -> Answer) -> Tally {
        run(&call(actual), &OPTIONS)
    }

    fn call(actual: fn(&mut Lent) -> Answer) -> Call {
        Call {
            name: "sum",
            gives: Gives::Length,
            refusals: &[3],
            generate: sums,
            expected: expected_sum,
            actual,
        }
    }

    fn what(tally: &Tally) -> &'static str {
        tally.smallest.as_ref().expect("a difference").what
    }

    #[test]
    fn equal_answers_do_not_differ() {
        let tally = run_sums(actual_sum);
        assert_eq!(
            (tally.cases, tally.accepted, tally.differences),
            (15, 15, 0)
        );
        assert_eq!(tally.smallest, None);
        assert_eq!(
            tally.to_string(),
            "sum: 15 cases, 15 accepted, 30 checks of theorems, refusal 3: 0"
        );
        let yes_or_no = Call {
            gives: Gives::YesOrNo,
            ..call(actual_sum)
        };
        assert_eq!(
            run(&yes_or_no, &OPTIONS).to_string(),
            "sum: 15 cases, 15 accepted, 1 yes, 30 checks of theorems, refusal 3: 0"
        );
    }

    #[test]
    fn a_failed_check_is_a_difference() {
        let failing = Call {
            expected: |case| {
                let mut expected = expected_sum(case);
                expected.checks.check(sum(case.args[0]) != 3, "a sum is 3");
                expected.checks.check(false, "not the first fault");
                expected
            },
            ..call(actual_sum)
        };
        let tally = run(&failing, &OPTIONS);
        // 1 2, 2 1 and 1 1 1 fail the first check.
        assert_eq!((tally.differences, tally.checks), (15, 15 * 2 + 12));
        let smallest = tally.smallest.expect("a difference");
        assert_eq!(
            (smallest.what, smallest.others),
            ("not the first fault", vec![vec![8]])
        );
    }

    #[test]
    fn the_smallest_difference_is_kept() {
        let tally = run_sums(|lent| {
            let Answer(sum) = actual_sum(lent);
            Answer(if sum > 3 { sum + 1 } else { sum })
        });
        // 2 2; 1 1 2, 1 2 1, 2 1 1; 1 2 2, 2 1 2, 2 2 1; 2 2 2.
        assert_eq!(tally.differences, 8);
        let smallest = tally.smallest.expect("a difference");
        assert_eq!(
            smallest.to_string(),
            "the answers differ\n  argument 0202\n  argument 09\n  scratch of 2 bytes\n  \
             expected 4\n  actual   5\n  expected output 04\n  actual output   04264564"
        );
    }

    #[test]
    fn a_changed_argument_is_seen() {
        let tally = run_sums(|lent| {
            let answer = actual_sum(lent);
            let last = lent.args[0].len().checked_sub(1);
            if let Some(last) = last {
                unsafe { lent.args[0].as_mut_ptr().add(last).write(7) };
            }
            answer
        });
        assert_eq!(tally.differences, 14);
        assert_eq!(what(&tally), "an argument was changed");
    }

    #[test]
    fn a_byte_after_the_answer_is_seen() {
        let tally = run_sums(|lent| {
            unsafe { lent.output.as_mut_ptr().add(3).write(0) };
            actual_sum(lent)
        });
        assert_eq!(tally.differences, 15);
        assert_eq!(what(&tally), "the output differs");
    }

    #[test]
    fn a_byte_beside_a_buffer_is_seen() {
        for place in [-1, 2] {
            let write: fn(&mut Lent) -> Answer = match place {
                -1 => |lent| {
                    unsafe { lent.scratch.as_mut_ptr().offset(-1).write(0) };
                    actual_sum(lent)
                },
                _ => |lent| {
                    unsafe { lent.scratch.as_mut_ptr().add(2).write(0) };
                    actual_sum(lent)
                },
            };
            let tally = run_sums(write);
            assert_eq!(tally.differences, 15);
            assert_eq!(what(&tally), "a byte beside a buffer was changed");
        }
    }

    #[test]
    fn the_inside_of_the_scratch_is_free() {
        let tally = run_sums(|lent| {
            unsafe { lent.scratch.as_mut_ptr().write_bytes(0, 2) };
            actual_sum(lent)
        });
        assert_eq!(tally.differences, 0);
    }
}
