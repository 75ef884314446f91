//! The six calls over a table of simple types: tables of many shapes that load, random orders, every
//! relation among four types, tables with each fault, and over them records near each other by the
//! table: each two simple types, at the end of every way of up to two steps, as deep and as long as may
//! be, in function definitions, and at random places. The cases are counted by what they are, each class
//! of them must be met, and the ported call is asked too.

mod classes;
mod tables;
mod types;
mod values;

use crate::call::{Call, Case, EachCase, Options};
use crate::calls::CALLS;
use crate::lent::Standing;
use crate::run::{Tally, run_cases};
use crate::section::Section;
use crate::strict::{VERDICTS, Verdict};
use classes::{Class, Classes};
use feel_cases::{Random, TABLE_FAULTS, TABLE_SHAPES, random_order, shaped_table};
use feel_form::calls;
use std::cmp::Ordering;
use std::collections::BTreeMap;

/// The name of this section.
pub const NAME: &str = "table";

/// Of so many cases with an answer in bytes one is repeated with lengths of the buffers around the
/// need.
const BUFFERS_EACH: u64 = 6;

/// Of so many cases one has the theorems checked.
const CHECKED_EACH: u64 = 3;

/// Of so many tables in turn one is a random order, which may be refused.
const ORDER_EACH: usize = 6;

/// The answer with ample buffers; of a question 0 or 1.
type Asked = fn(&[&[u8]]) -> Result<Vec<u8>, u8>;

/// The scratch that these arguments want.
type Wanted = fn(&[&[u8]]) -> usize;

/// A call over a table, and the cases that it must meet.
struct Tabled {
    call: &'static str,
    own: Asked,
    /// The ported call, of the same arguments without the table; none of the check of a table.
    ported: Option<Asked>,
    /// None where it has no buffers.
    scratch: Option<Wanted>,
    generate: fn(&Options, &mut Counter),
    classes: fn() -> Classes,
    /// What both calls say, as far as it must be met.
    verdicts: &'static [Verdict],
}

const AMPLE: usize = usize::MAX;

fn yes_or_no(answer: Result<bool, u8>) -> Result<Vec<u8>, u8> {
    answer.map(|yes| vec![u8::from(yes)])
}

const TABLED: [Tabled; 6] = [
    Tabled {
        call: "table_check",
        own: |args| yes_or_no(calls::table_check(args[0])),
        ported: None,
        scratch: None,
        generate: tables::generate,
        classes: tables::classes,
        verdicts: &[],
    },
    Tabled {
        call: "table_type_is_conformant",
        own: |args| yes_or_no(calls::table_is_conformant(args[0], args[1], args[2])),
        ported: Some(|args| yes_or_no(calls::is_conformant(args[0], args[1]))),
        scratch: None,
        generate: types::generate,
        classes: types::classes,
        verdicts: &[Verdict::Yes, Verdict::No, Verdict::YesForNo],
    },
    Tabled {
        call: "table_type_common_supertype",
        own: |args| calls::table_common_supertype(args[0], args[1], args[2], AMPLE, AMPLE),
        ported: Some(|args| calls::common_supertype(args[0], args[1], AMPLE, AMPLE)),
        scratch: Some(|args| args[1].len() + args[2].len()),
        generate: types::generate,
        classes: types::classes,
        verdicts: &[Verdict::Same, Verdict::AsLong],
    },
    Tabled {
        call: "table_type_common_subtype",
        own: |args| calls::table_common_subtype(args[0], args[1], args[2], AMPLE, AMPLE),
        ported: Some(|args| calls::common_subtype(args[0], args[1], AMPLE, AMPLE)),
        scratch: Some(|args| args[1].len() + args[2].len()),
        generate: types::generate,
        classes: types::classes,
        verdicts: &[Verdict::Same, Verdict::AsLong],
    },
    Tabled {
        call: "table_value_is_conformant",
        own: |args| yes_or_no(calls::table_value_is_conformant(args[0], args[1], args[2])),
        ported: Some(|args| yes_or_no(calls::value_is_conformant(args[0], args[1]))),
        scratch: None,
        generate: values::generate_pairs,
        classes: values::classes_of_pairs,
        verdicts: &[Verdict::Yes, Verdict::No, Verdict::YesForNo],
    },
    Tabled {
        call: "table_value_least_type",
        own: |args| calls::table_value_least_type(args[0], args[1], AMPLE, AMPLE),
        ported: Some(|args| calls::value_least_type(args[0], AMPLE, AMPLE)),
        scratch: Some(|args| 4 * args[1].len()),
        generate: values::generate_values,
        classes: values::classes_of_values,
        verdicts: &[Verdict::Same, Verdict::AsLong],
    },
];

/// Runs the section for each call.
pub fn run(options: &Options) -> impl Iterator<Item = Section> {
    TABLED.iter().map(|tabled| run_call(tabled, options))
}

fn run_call(tabled: &'static Tabled, options: &Options) -> Section {
    let mut calls = CALLS.into_iter();
    let call = calls.find(|call| call.name == tabled.call).expect("a call");
    let mut seen = Seen::default();
    let tally = run_cases(&call, Standing::Guarded, |each| {
        (tabled.generate)(
            options,
            &mut Counter {
                tabled,
                each,
                seen: &mut seen,
                random: Random::new(options.seed),
            },
        )
    });
    let mut classes = vec![
        (
            "tables that load, by their shape",
            TABLE_SHAPES.map(Class::Shape).to_vec(),
        ),
        (
            "random orders, loaded and refused",
            [true, false].map(Class::Order).to_vec(),
        ),
        (
            "tables with a fault",
            TABLE_FAULTS.map(Class::Fault).to_vec(),
        ),
    ];
    classes.extend((tabled.classes)());
    if !tabled.verdicts.is_empty() {
        let verdicts = tabled.verdicts.iter().map(|v| Class::Verdict(*v));
        classes.push(("what both calls say", verdicts.collect()));
    }
    if tabled.scratch.is_some() {
        classes.push(("scratch and output around the need", buffers()));
    }
    let mut lines: Vec<String> = classes.iter().map(|sort| seen.line(sort)).collect();
    if tabled.ported.is_some() {
        lines.push(seen.verdict_line(tabled));
    }
    Section {
        name: NAME,
        missing: seen.missing(tabled, &call, &classes, &tally),
        lines,
        tally,
    }
}

/// Scratch and output, each shorter than the need, equal to it and longer.
fn buffers() -> Vec<Class> {
    let orders = [Ordering::Less, Ordering::Equal, Ordering::Greater];
    let both = |scratch| orders.map(|output| Class::Buffers(scratch, output));
    orders.into_iter().flat_map(both).collect()
}

/// What was met.
#[derive(Default)]
struct Seen {
    cases: u64,
    counts: BTreeMap<Class, u64>,
    /// How many cases made for an answer or a refusal have another one.
    otherwise: u64,
}

impl Seen {
    fn of(&self, class: Class) -> u64 {
        self.counts.get(&class).copied().unwrap_or(0)
    }

    /// How often each verdict was met, those too that need not be.
    fn verdicts(&self) -> impl Iterator<Item = (Verdict, u64)> + '_ {
        let of = |verdict| (verdict, self.of(Class::Verdict(verdict)));
        VERDICTS.into_iter().map(of)
    }

    fn line(&self, (title, classes): &(&str, Vec<Class>)) -> String {
        let counts = || classes.iter().map(|class| self.of(*class));
        let (sum, least) = (counts().sum::<u64>(), counts().min().unwrap_or(0));
        let count = classes.len();
        format!("{title}: {sum} in {count} classes, at least {least} of each")
    }

    /// How often the ported call answers otherwise.
    fn verdict_line(&self, tabled: &Tabled) -> String {
        let met = self.verdicts().filter(|(_, count)| *count > 0);
        let said: Vec<String> = met.map(|(v, count)| format!("{count} {v}")).collect();
        let ported = tabled.call.trim_start_matches("table_");
        let (differing, judged) = self.differing();
        let said = said.join(", ");
        format!("{ported} answers otherwise in {differing} of {judged}: {said}")
    }

    /// How many records get another answer of the ported call, and how many are judged.
    fn differing(&self) -> (u64, u64) {
        let all = self.verdicts().map(|(_, count)| count).sum();
        let differing = self.verdicts().filter(|(verdict, _)| verdict.is_other());
        (differing.map(|(_, count)| count).sum(), all)
    }

    fn missing(
        &self,
        tabled: &Tabled,
        call: &Call,
        classes: &Classes,
        tally: &Tally,
    ) -> Vec<String> {
        let all = classes.iter().flat_map(|(_, classes)| classes);
        let unmet = all.filter(|class| self.of(**class) == 0);
        let mut missing: Vec<String> = unmet.map(|class| format!("{class:?}")).collect();
        let refusals = call.refusals.iter();
        let unmet = refusals.filter(|number| tally.refused[&u32::from(**number)] == 0);
        missing.extend(unmet.map(|number| format!("refusal {number}")));
        let unwanted = self
            .verdicts()
            .filter(|(v, _)| !tabled.verdicts.contains(v));
        for (verdict, count) in unwanted.filter(|(_, count)| *count > 0) {
            missing.push(format!("no record with {verdict}: {count} have it"));
        }
        if self.otherwise > 0 {
            let otherwise = self.otherwise;
            missing.push(format!("the answer that {otherwise} cases are made for"));
        }
        let (differing, judged) = self.differing();
        if 40 * differing < judged {
            missing.push("another answer of the ported call, one time in forty".to_string());
        }
        missing
    }
}

/// Hands out the cases and counts them.
struct Counter<'a, 'b> {
    tabled: &'static Tabled,
    each: &'a mut EachCase<'b>,
    seen: &'a mut Seen,
    random: Random,
}

impl Counter<'_, '_> {
    fn add(&mut self, class: Class) {
        *self.seen.counts.entry(class).or_default() += 1;
    }

    /// A table of any shape, at times a random order, counted.
    fn table(&mut self) -> Vec<u8> {
        if self.random.below(ORDER_EACH) == 0 {
            return self.order();
        }
        let shape = self.random.pick(&TABLE_SHAPES);
        self.add(Class::Shape(shape));
        shaped_table(shape, &mut self.random)
    }

    /// A random order, counted.
    fn order(&mut self) -> Vec<u8> {
        let table = random_order(&mut self.random);
        self.add(Class::Order(calls::table_check(&table).is_ok()));
        table
    }

    /// A case that is to have this answer, where it is a question and one is given.
    fn made(&mut self, args: &[&[u8]], others: &[&[u8]], due: Option<bool>) {
        if let Some(due) = due
            && self.tabled.scratch.is_none()
        {
            let answer = (self.tabled.own)(args);
            self.seen.otherwise += u64::from(answer != Ok(vec![u8::from(due)]));
        }
        self.case(args, others);
    }

    /// A case that is to be refused so.
    fn refused(&mut self, args: &[&[u8]], refusal: u8) {
        let answer = (self.tabled.own)(args);
        self.seen.otherwise += u64::from(answer != Err(refusal));
        self.case(args, &[]);
    }

    /// A case, at times with the theorems and with lengths of the buffers around the need.
    fn case(&mut self, args: &[&[u8]], others: &[&[u8]]) {
        self.seen.cases += 1;
        let own = (self.tabled.own)(args);
        let is_question = self.tabled.scratch.is_none();
        if let Some(ported) = self.tabled.ported
            && let Some(verdict) = Verdict::of(&own, &ported(&args[1..]), is_question)
        {
            self.add(Class::Verdict(verdict));
        }
        let is_checked = self.seen.cases.is_multiple_of(CHECKED_EACH);
        let need = own.as_ref().map_or(1, Vec::len);
        let wanted = self.tabled.scratch.map(|wanted| wanted(args));
        let case = Case {
            args,
            others: (is_checked && own.is_ok()).then_some(others),
            scratch: wanted.unwrap_or(0),
            output: if wanted.is_some() { need } else { 0 },
        };
        (self.each)(case);
        let is_repeated = self.seen.cases.is_multiple_of(BUFFERS_EACH);
        if let Some(wanted) = wanted.filter(|_| is_repeated) {
            let more = 1 + self.random.below(100);
            for scratch in [wanted.saturating_sub(1), wanted, wanted + more] {
                for output in [need - 1, need, need + more] {
                    if own.is_ok() {
                        let orders = (scratch.cmp(&wanted), output.cmp(&need));
                        self.add(Class::Buffers(orders.0, orders.1));
                    }
                    (self.each)(Case {
                        others: None,
                        scratch,
                        output,
                        ..case
                    });
                }
            }
        }
    }

    /// A damaged case.
    fn damaged(&mut self, place: usize, args: &[&[u8]]) {
        self.add(Class::Damaged(place));
        self.case(args, &[]);
    }
}
