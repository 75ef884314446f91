//! The five strict calls on records near each other that have parameterless functions in them, at the
//! end of every way of up to three steps, as deep as may be, in function definitions inside values,
//! and at random places. The cases are counted by what they are, each class of them must be met, and
//! the ported call is asked too.

mod classes;
mod types;
mod values;

use crate::call::{Call, Case, EachCase, Options};
use crate::calls::CALLS;
use crate::lent::Standing;
use crate::run::{Tally, run_cases};
use crate::section::Section;
use classes::{Class, Classes};
pub(crate) use classes::{VERDICTS, ValueWay, Verdict, Way, ways};
use feel_cases::Random;
use feel_form::calls;
use std::cmp::Ordering;
use std::collections::BTreeMap;
pub(crate) use types::damaged_copies;

/// The name of this section.
pub const NAME: &str = "strict";

/// Of so many cases with an answer in bytes one is repeated with lengths of the buffers around the
/// need.
const BUFFERS_EACH: u64 = 4;

/// Of so many cases one has the theorems checked.
const CHECKED_EACH: u64 = 3;

/// The answer with ample buffers; of a question 0 or 1.
type Asked = fn(&[&[u8]]) -> Result<Vec<u8>, u8>;

/// The scratch that these arguments want.
type Wanted = fn(&[&[u8]]) -> usize;

/// A strict call, and the cases that it must meet.
struct Strict {
    call: &'static str,
    strict: Asked,
    ported: Asked,
    /// None where it has no buffers.
    scratch: Option<Wanted>,
    generate: fn(&Options, &mut Counter),
    classes: fn() -> Classes,
    /// What both calls say, as far as it must be met.
    verdicts: &'static [Verdict],
}

const AMPLE: usize = usize::MAX;

fn yes_or_no(answer: Result<bool, u8>) -> Result<Vec<u8>, u8> {
    answer.map(|yes| vec![u8::from(yes)])
}

const STRICT: [Strict; 5] = [
    Strict {
        call: "strict_type_is_conformant",
        strict: |args| yes_or_no(calls::strict_is_conformant(args[0], args[1])),
        ported: |args| yes_or_no(calls::is_conformant(args[0], args[1])),
        scratch: None,
        generate: types::generate,
        classes: types::classes,
        verdicts: &[Verdict::Yes, Verdict::No, Verdict::NoForYes],
    },
    Strict {
        call: "strict_type_common_supertype",
        strict: |args| calls::strict_common_supertype(args[0], args[1], AMPLE, AMPLE),
        ported: |args| calls::common_supertype(args[0], args[1], AMPLE, AMPLE),
        scratch: Some(|args| args[0].len() + args[1].len()),
        generate: types::generate,
        classes: types::classes,
        verdicts: &[Verdict::Same, Verdict::AsLong, Verdict::Longer],
    },
    Strict {
        call: "strict_type_common_subtype",
        strict: |args| calls::strict_common_subtype(args[0], args[1], AMPLE, AMPLE),
        ported: |args| calls::common_subtype(args[0], args[1], AMPLE, AMPLE),
        scratch: Some(|args| args[0].len() + args[1].len()),
        generate: types::generate,
        classes: types::classes,
        verdicts: &[Verdict::Same, Verdict::AsLong, Verdict::Longer],
    },
    Strict {
        call: "strict_value_is_conformant",
        strict: |args| yes_or_no(calls::strict_value_is_conformant(args[0], args[1])),
        ported: |args| yes_or_no(calls::value_is_conformant(args[0], args[1])),
        scratch: None,
        generate: values::generate_pairs,
        classes: values::classes_of_pairs,
        verdicts: &[
            Verdict::Yes,
            Verdict::No,
            Verdict::NoForYes,
            Verdict::YesForNo,
        ],
    },
    Strict {
        call: "strict_value_least_type",
        strict: |args| calls::strict_value_least_type(args[0], AMPLE, AMPLE),
        ported: |args| calls::value_least_type(args[0], AMPLE, AMPLE),
        scratch: Some(|args| 4 * args[0].len()),
        generate: values::generate_values,
        classes: values::classes_of_values,
        verdicts: &[Verdict::Same, Verdict::BytesFor13],
    },
];

/// Runs the section for each call.
pub fn run(options: &Options) -> impl Iterator<Item = Section> {
    STRICT.iter().map(|strict| run_call(strict, options))
}

fn run_call(strict: &'static Strict, options: &Options) -> Section {
    let mut calls = CALLS.into_iter();
    let call = calls.find(|call| call.name == strict.call).expect("a call");
    let mut seen = Seen::default();
    let tally = run_cases(&call, Standing::Guarded, |each| {
        (strict.generate)(
            options,
            &mut Counter {
                strict,
                each,
                seen: &mut seen,
                random: Random::new(options.seed),
            },
        )
    });
    let mut classes = (strict.classes)();
    let verdicts = strict.verdicts.iter().map(|v| Class::Verdict(*v));
    classes.push(("what both calls say", verdicts.collect()));
    if strict.scratch.is_some() {
        classes.push(("scratch and output around the need", buffers()));
    }
    let mut lines: Vec<String> = classes.iter().map(|sort| seen.line(sort)).collect();
    lines.push(seen.verdict_line(strict));
    Section {
        name: NAME,
        missing: seen.missing(strict, &call, &classes, &tally),
        lines,
        tally,
    }
}

/// Scratch and output, each shorter than the need, equal to it and longer.
fn buffers() -> Vec<Class> {
    let orders = [Ordering::Less, Ordering::Equal, Ordering::Greater];
    let both = |scratch| orders.map(|output| Class::Buffers(scratch, output));
    orders.into_iter().flat_map(both).collect()
}

/// What was met.
#[derive(Default)]
struct Seen {
    cases: u64,
    counts: BTreeMap<Class, u64>,
    /// How many records made for a verdict have another one.
    otherwise: u64,
}

impl Seen {
    fn of(&self, class: Class) -> u64 {
        self.counts.get(&class).copied().unwrap_or(0)
    }

    /// How often each verdict was met, those too that need not be.
    fn verdicts(&self) -> impl Iterator<Item = (Verdict, u64)> + '_ {
        let of = |verdict| (verdict, self.of(Class::Verdict(verdict)));
        VERDICTS.into_iter().map(of)
    }

    fn line(&self, (title, classes): &(&str, Vec<Class>)) -> String {
        let counts = || classes.iter().map(|class| self.of(*class));
        let (sum, least) = (counts().sum::<u64>(), counts().min().unwrap_or(0));
        let count = classes.len();
        format!("{title}: {sum} in {count} classes, at least {least} of each")
    }

    /// How often the readings differ.
    fn verdict_line(&self, strict: &Strict) -> String {
        let met = self.verdicts().filter(|(_, count)| *count > 0);
        let said: Vec<String> = met.map(|(v, count)| format!("{count} {v}")).collect();
        let ported = strict.call.trim_start_matches("strict_");
        let (differing, judged) = self.differing();
        let said = said.join(", ");
        format!("{ported} answers otherwise in {differing} of {judged}: {said}")
    }

    /// How many records get another answer of the ported call, and how many are judged.
    fn differing(&self) -> (u64, u64) {
        let all = self.verdicts().map(|(_, count)| count).sum();
        let differing = self.verdicts().filter(|(verdict, _)| verdict.is_other());
        (differing.map(|(_, count)| count).sum(), all)
    }

    fn missing(
        &self,
        strict: &Strict,
        call: &Call,
        classes: &Classes,
        tally: &Tally,
    ) -> Vec<String> {
        let all = classes.iter().flat_map(|(_, classes)| classes);
        let unmet = all.filter(|class| self.of(**class) == 0);
        let mut missing: Vec<String> = unmet.map(|class| format!("{class:?}")).collect();
        let refusals = call.refusals.iter();
        let unmet = refusals.filter(|number| tally.refused[&u32::from(**number)] == 0);
        missing.extend(unmet.map(|number| format!("refusal {number}")));
        let unwanted = self
            .verdicts()
            .filter(|(v, _)| !strict.verdicts.contains(v));
        for (verdict, count) in unwanted.filter(|(_, count)| *count > 0) {
            missing.push(format!("no record with {verdict}: {count} have it"));
        }
        if self.otherwise > 0 {
            let otherwise = self.otherwise;
            missing.push(format!("the verdict that {otherwise} records are made for"));
        }
        let (differing, judged) = self.differing();
        if 10 * differing < judged {
            missing.push("another answer of the ported call, one time in ten".to_string());
        }
        missing
    }
}

/// Hands out the cases and counts them.
struct Counter<'a, 'b> {
    strict: &'static Strict,
    each: &'a mut EachCase<'b>,
    seen: &'a mut Seen,
    random: Random,
}

impl Counter<'_, '_> {
    fn add(&mut self, class: Class) {
        *self.seen.counts.entry(class).or_default() += 1;
    }

    /// A case that is to have this verdict, where it is a question and one is given.
    fn made(&mut self, args: &[&[u8]], others: &[&[u8]], due: Option<bool>) {
        if let Some(due) = due
            && self.strict.scratch.is_none()
        {
            let verdict = (self.strict.strict)(args);
            self.seen.otherwise += u64::from(verdict != Ok(vec![u8::from(due)]));
        }
        self.case(args, others);
    }

    /// A case, at times with the theorems and with lengths of the buffers around the need.
    fn case(&mut self, args: &[&[u8]], others: &[&[u8]]) {
        self.seen.cases += 1;
        let strict = (self.strict.strict)(args);
        let ported = (self.strict.ported)(args);
        let is_question = self.strict.scratch.is_none();
        if let Some(verdict) = Verdict::of(&strict, &ported, is_question) {
            self.add(Class::Verdict(verdict));
        }
        let is_checked = self.seen.cases.is_multiple_of(CHECKED_EACH);
        let need = strict.as_ref().map_or(1, Vec::len);
        let wanted = self.strict.scratch.map(|wanted| wanted(args));
        let case = Case {
            args,
            others: (is_checked && strict.is_ok()).then_some(others),
            scratch: wanted.unwrap_or(0),
            output: if wanted.is_some() { need } else { 0 },
        };
        (self.each)(case);
        let is_repeated = self.seen.cases.is_multiple_of(BUFFERS_EACH);
        if let Some(wanted) = wanted.filter(|_| is_repeated) {
            let more = 1 + self.random.below(100);
            for scratch in [wanted.saturating_sub(1), wanted, wanted + more] {
                for output in [need - 1, need, need + more] {
                    if strict.is_ok() {
                        let orders = (scratch.cmp(&wanted), output.cmp(&need));
                        self.add(Class::Buffers(orders.0, orders.1));
                    }
                    (self.each)(Case {
                        others: None,
                        scratch,
                        output,
                        ..case
                    });
                }
            }
        }
    }

    /// A damaged case.
    fn damaged(&mut self, place: usize, args: &[&[u8]]) {
        self.add(Class::Damaged(place));
        self.case(args, &[]);
    }
}
