//! The updates of contexts around level 31: contexts of level 27 to 31, whose deepest entry is on the
//! path or beside it, paths of up to 32 names, values of every level. The cases are counted by what
//! the Rust makes of them, and each class of them must be met.

use crate::call::{Call, Case, Options};
use crate::calls::CALLS;
use crate::context_answers::{name, path};
use crate::context_cases::{NAMES, spelled};
use crate::decimals::has_decimal;
use crate::lent::Standing;
use crate::run::{Tally, run_cases};
use crate::section::Section;
use dsntk_feel::Name;
use dsntk_feel::context::FeelContext;
use dsntk_feel::values::Value;
use feel_cases::{Ending, Random, TYPE_IN_TYPE, TYPE_IN_VALUE, VALUE_IN_VALUE, Wrapper, chain};
use feel_form::contexts::MAX_PATH;
use feel_form::{MAX_LENGTH, MAX_VALUE_LEVEL, read_value, value_level, write_value};
use std::collections::BTreeMap;

/// The name of this section.
pub const NAME: &str = "levels";

/// So many contexts, times [Update::share], meet every class.
const LEAST: usize = 3_000;

/// With how many lengths of the output each update is run.
const ROOMS: u64 = 3;

/// What is counted, from the first number to the last; 0 where there is no number.
type Class = (&'static str, usize, usize);

const RESULT: &str = "result of level";
const CONTEXT: Class = ("context of level", 27, 31);
const VALUE: Class = ("value of level", 1, 31);
const TYPED: Class = ("deepest in a type, level", 2, 31);
const BLOCKED: Class = ("no context on the way, and too deep", 0, 0);
const PATH: Class = ("names in the path", 1, 32);
const ON_THE_PATH: Class = ("the deepest entry on the path", 0, 0);
const BESIDE: Class = ("the deepest entry beside the path", 0, 0);
const LESS_DEEP: Class = ("the result less deep than the context", 0, 0);
const DECIMAL: Class = ("a decimal in an argument", 0, 0);

/// An update, and the cases that it must meet.
struct Update {
    call: &'static str,
    refusals: &'static [u8],
    /// How many contexts there are for three of `Options::pairs`.
    share: usize,
    /// The arguments behind the context.
    args: fn(&Deep, &mut Random) -> Vec<Vec<u8>>,
    /// What the Rust does with the context; none where it refuses.
    make: fn(&mut FeelContext, &[&[u8]]) -> Option<()>,
    /// Counts what the arguments are.
    count: fn(&FeelContext, &[&[u8]], &mut Counts),
    /// The first and the last level that its results must have.
    results: [usize; 2],
    /// What else must be met.
    classes: &'static [Class],
}

const UPDATES: [Update; 8] = [
    Update {
        call: "context_create_entries",
        refusals: &[11, 17, 18],
        share: 2,
        args: path_and_value,
        make: |c, args| {
            c.create_entries(&names(args[1])?, tree(args[2]));
            Some(())
        },
        count: count_put,
        results: [29, 33],
        classes: OF_A_PATH,
    },
    Update {
        call: "context_apply_entries",
        refusals: &[11, 16, 17, 18],
        share: 2,
        args: path_and_value,
        make: |c, args| c.apply_entries(&names(args[1])?, tree(args[2])).ok(),
        count: count_put,
        results: [29, 33],
        classes: OF_A_PATH,
    },
    Update {
        call: "context_set_entry",
        refusals: &[17, 18],
        share: 1,
        args: |deep, random| vec![deep.name(random), value_below(1, random)],
        make: |c, args| {
            c.set_entry(&names(args[1])?[0], tree(args[2]));
            Some(())
        },
        count: count_put,
        results: [29, 32],
        classes: &[VALUE, ON_THE_PATH, BESIDE, LESS_DEEP],
    },
    Update {
        call: "context_set_null",
        refusals: &[18],
        share: 1,
        args: |deep, random| vec![deep.name(random)],
        make: |c, args| {
            c.set_null(names(args[1])?.remove(0));
            Some(())
        },
        count: count_path,
        results: [29, 31],
        classes: &[ON_THE_PATH, BESIDE, LESS_DEEP],
    },
    Update {
        call: "context_remove_entry",
        refusals: &[18],
        share: 1,
        args: |deep, random| vec![deep.name(random)],
        make: |c, args| {
            c.remove_entry(&names(args[1])?[0]);
            Some(())
        },
        count: count_path,
        results: [29, 31],
        classes: &[ON_THE_PATH, BESIDE, LESS_DEEP],
    },
    Update {
        call: "context_zip",
        refusals: &[18],
        share: 1,
        args: |deep, random| vec![deep.other(random)],
        make: |c, args| {
            c.zip(&context(args[1]));
            Some(())
        },
        count: |_, _, _| {},
        results: [29, 31],
        classes: &[LESS_DEEP],
    },
    Update {
        call: "context_overwrite",
        refusals: &[18],
        share: 1,
        args: |deep, random| vec![deep.other(random)],
        make: |c, args| {
            c.overwrite(&context(args[1]));
            Some(())
        },
        count: |_, _, _| {},
        results: [29, 31],
        classes: &[LESS_DEEP],
    },
    Update {
        call: "context_move_entry",
        refusals: &[17, 18],
        share: 2,
        args: |deep, random| {
            let entry = deep.name(random);
            let parent = match random.below(5) {
                0 => entry.clone(),
                _ => deep.name(random),
            };
            vec![entry, parent]
        },
        make: |c, args| {
            let [entry, parent] = [args[1], args[2]].map(|arg| feel_form::name(name(arg)));
            c.move_entry(entry, parent);
            Some(())
        },
        count: count_move,
        results: [29, 32],
        classes: &[
            LESS_DEEP,
            ("the deepest into a context", 0, 0),
            ("the deepest to an absent parent", 0, 0),
            ("the deepest to a parent that is no context", 0, 0),
            ("the deepest below its own name", 0, 0),
            ("another into a context", 0, 0),
            ("another to an absent parent", 0, 0),
            ("another to a parent that is no context", 0, 0),
            ("another below its own name", 0, 0),
            ("an absent name", 0, 0),
        ],
    },
];

const OF_A_PATH: &[Class] = &[
    VALUE,
    ("a range, its level", 2, 31),
    ("a list, its level", 2, 31),
    ("a context, its level", 2, 31),
    ("a function definition, its level", 2, 31),
    ("a type value, its level", 2, 31),
    TYPED,
    PATH,
    ("the path is there", 0, 0),
    ("new names at its end", 0, 0),
    ("no context on the way", 0, 0),
    BLOCKED,
    ON_THE_PATH,
    BESIDE,
    LESS_DEEP,
];

/// How many updates were of each class.
type Counts = BTreeMap<(&'static str, usize), u64>;

/// One update more of this class.
fn add(counts: &mut Counts, what: &'static str, number: usize) {
    *counts.entry((what, number)).or_default() += 1;
}

/// Runs all calls.
pub fn run(options: &Options) -> impl Iterator<Item = Section> {
    UPDATES.iter().map(|update| run_update(update, options))
}

fn run_update(update: &Update, options: &Options) -> Section {
    let mut calls = CALLS.into_iter();
    let call = calls.find(|call| call.name == update.call);
    let call = Call {
        refusals: update.refusals,
        ..call.expect("a call")
    };
    let mut counts = Counts::new();
    let mut random = Random::new(options.seed);
    let tally = run_cases(&call, Standing::Guarded, |each| {
        for number in 0..LEAST.max(options.pairs / 3) * update.share {
            let deep = Deep::new(&mut random);
            let behind = (update.args)(&deep, &mut random);
            let args = [&deep.bytes].into_iter().chain(&behind);
            let args: Vec<&[u8]> = args.map(|arg| &arg[..]).collect();
            let need = count(update, &args, &mut counts);
            for output in [need - 1, need, need + 1 + random.below(100)] {
                let is_judged = output > need && number % 8 == 0;
                each(Case {
                    args: &args,
                    others: is_judged.then_some(&[]),
                    output,
                    ..Case::default()
                });
            }
        }
    });
    let [first, last] = update.results;
    let classes = [&[(RESULT, first, last), CONTEXT, DECIMAL], update.classes].concat();
    Section {
        name: NAME,
        lines: classes.iter().map(|class| line(*class, &counts)).collect(),
        missing: missing(&classes, &tally, &counts),
        tally,
    }
}

/// Counts what the arguments are and what the Rust makes of them, and gives the output's need, also
/// where the result is too deep.
fn count(update: &Update, args: &[&[u8]], counts: &mut Counts) -> usize {
    let mut c = context(args[0]);
    let level = level_beside(&c, &[]);
    add(counts, CONTEXT.0, level);
    if args.iter().any(|arg| has_decimal(arg)) {
        add(counts, DECIMAL.0, 0);
    }
    (update.count)(&c, args, counts);
    let Some(()) = (update.make)(&mut c, args) else {
        return 1;
    };
    let after = Value::from(c);
    let result = value_level(&after);
    add(counts, RESULT, result);
    if result < level {
        add(counts, LESS_DEEP.0, 0);
    }
    let need = write_value(&after).len();
    assert!(need <= MAX_LENGTH, "17 is for the level alone");
    need
}

/// What was not met. 17 must be given exactly where the Rust's context is too deep.
fn missing(classes: &[Class], tally: &Tally, counts: &Counts) -> Vec<String> {
    let mut missing = vec![];
    for (what, first, last) in classes {
        let unmet = (*first..=*last).filter(|number| !counts.contains_key(&(what, *number)));
        missing.extend(unmet.map(|number| match number {
            0 => what.to_string(),
            _ => format!("{what} {number}"),
        }));
    }
    let unmet = tally.refused.iter().filter(|(_, count)| **count == 0);
    missing.extend(unmet.map(|(number, _)| format!("refusal {number}")));
    let too_deep = counts.range((RESULT, MAX_VALUE_LEVEL + 1)..=(RESULT, usize::MAX));
    let too_deep: u64 = too_deep.map(|(_, count)| count).sum();
    if ROOMS * too_deep != tally.refused.get(&17).copied().unwrap_or(0) {
        missing.push("17 where the Rust's context is too deep, and only there".to_string());
    }
    missing
}

/// The counts of a class: each for the levels of results and contexts, else the least of them.
fn line((what, first, last): Class, counts: &Counts) -> String {
    let counted = |number| counts.get(&(what, number)).copied().unwrap_or(0);
    if first == last {
        return format!("{what}: {}", counted(first));
    }
    if what != RESULT && what != CONTEXT.0 {
        let least = (first..=last).map(counted).min().unwrap_or(0);
        return format!("{what} {first} to {last}: at least {least} of each");
    }
    let each = (first..=last).map(|number| format!("{number}: {}", counted(number)));
    let each: Vec<String> = each.collect();
    format!("{what} {}", each.join(", "))
}

/// Counts a value and the path where it is put.
fn count_put(c: &FeelContext, args: &[&[u8]], counts: &mut Counts) {
    count_path(c, args, counts);
    let v = tree(args[2]);
    let level = value_level(&v);
    let kind = match v {
        Value::Range(..) => "a range, its level",
        Value::List(_) => "a list, its level",
        Value::Context(_) => "a context, its level",
        Value::FunctionDefinition(..) => "a function definition, its level",
        Value::FeelType(_) => "a type value, its level",
        _ => "a leaf",
    };
    add(counts, VALUE.0, level);
    add(counts, kind, level);
    if ends_in_a_type(&v) {
        add(counts, TYPED.0, level);
    }
    let too_many = MAX_VALUE_LEVEL + 1 - level..=MAX_PATH;
    let names = names_of(args[1]);
    if too_many.contains(&names.len()) && end_of(c, &names) == "no context on the way" {
        add(counts, BLOCKED.0, 0);
    }
}

/// Whether the deepest place of a value is in a type.
fn ends_in_a_type(v: &Value) -> bool {
    let deepest = match v {
        Value::FeelType(_) | Value::FunctionDefinition(..) => return true,
        Value::Range(start, _, end, _) => [&**start, &**end]
            .into_iter()
            .max_by_key(|v| value_level(v)),
        Value::List(items) => items.iter().max_by_key(|v| value_level(v)),
        Value::Context(c) => c.values().max_by_key(|v| value_level(v)),
        _ => None,
    };
    deepest.is_some_and(ends_in_a_type)
}

/// Counts a path, or a name, by how it lies in the context.
fn count_path(c: &FeelContext, args: &[&[u8]], counts: &mut Counts) {
    let names = names_of(args[1]);
    let is_on_it = level_beside(c, &names) < level_beside(c, &[]);
    let deepest = if is_on_it { ON_THE_PATH } else { BESIDE };
    add(counts, deepest.0, 0);
    add(counts, PATH.0, names.len());
    add(counts, end_of(c, &names), 0);
}

/// The level that a context has by its entries beside the path alone; its level, where there is none.
fn level_beside(c: &FeelContext, names: &[Name]) -> usize {
    let beside = |(name, v): (&Name, &Value)| match (names, v) {
        ([first, rest @ ..], Value::Context(inner)) if name == first && !rest.is_empty() => {
            level_beside(inner, rest)
        }
        ([first, ..], _) if name == first => 0,
        _ => value_level(v),
    };
    1 + c.iter().map(beside).max().unwrap_or(0)
}

/// How far a path can be followed.
fn end_of(c: &FeelContext, names: &[Name]) -> &'static str {
    match names.split_first() {
        None => "the path is there",
        Some((first, rest)) => match c.get_entry(first) {
            None => "new names at its end",
            Some(Value::Context(inner)) => end_of(inner, rest),
            Some(_) if rest.is_empty() => "the path is there",
            Some(_) => "no context on the way",
        },
    }
}

/// Counts a move.
fn count_move(c: &FeelContext, args: &[&[u8]], counts: &mut Counts) {
    let [entry, parent] = [args[1], args[2]].map(|arg| feel_form::name(name(arg)));
    let level = level_beside(c, &[]);
    let is_deepest = c.get_entry(&entry).map(|v| value_level(v) + 1 == level);
    let class = match (is_deepest, c.get_entry(&parent)) {
        (None, _) => "an absent name",
        (Some(true), _) if entry == parent => "the deepest below its own name",
        (Some(true), Some(Value::Context(_))) => "the deepest into a context",
        (Some(true), Some(_)) => "the deepest to a parent that is no context",
        (Some(true), None) => "the deepest to an absent parent",
        (Some(false), _) if entry == parent => "another below its own name",
        (Some(false), Some(Value::Context(_))) => "another into a context",
        (Some(false), Some(_)) => "another to a parent that is no context",
        (Some(false), None) => "another to an absent parent",
    };
    add(counts, class, 0);
}

/// A context of level 27 to 31.
struct Deep {
    bytes: Vec<u8>,
    /// The names that lead down into it; what they end at may be another value.
    way: Vec<u16>,
}

impl Deep {
    /// Its deepest entry is at the end of the way, or beside it.
    fn new(random: &mut Random) -> Deep {
        let level = 27 + random.below(5);
        let lower = match random.below(3) {
            0 => 1 + random.below(3),
            _ => 0,
        };
        let most = level - lower - 1;
        let names = match random.below(3) {
            0 => 1 + random.below(most),
            _ => most - random.below(4),
        };
        let beside = random.below(names);
        let mut bytes = deep_value(level - lower - names, random);
        let mut way = vec![];
        for depth in (0..names).rev() {
            let mut entries = BTreeMap::new();
            for _ in 0..random.below(4) {
                let v = deep_value(1 + random.below(3).min(most - depth - 1), random);
                entries.insert(random.pick(&NAMES), v);
            }
            let place = random.below(NAMES.len());
            if lower > 0 && depth == beside {
                let other = NAMES[(place + 1 + random.below(NAMES.len() - 1)) % NAMES.len()];
                entries.insert(other, deep_value(level - depth - 1, random));
            }
            entries.insert(NAMES[place], bytes);
            bytes = context_of(&entries);
            way.insert(0, NAMES[place]);
        }
        Deep { bytes, way }
    }

    /// A path of so many names: some or all of the way, then any names.
    fn path(&self, names: usize, random: &mut Random) -> Vec<u8> {
        let kept = match random.below(3) {
            0 => random.below(names + 1),
            _ => names,
        };
        let mut path = self.way[..kept.min(self.way.len())].to_vec();
        path.resize_with(names, || random.pick(&NAMES));
        spelled(&path)
    }

    /// The first name of the way, or any.
    fn name(&self, random: &mut Random) -> Vec<u8> {
        let any = random.pick(&NAMES);
        spelled(&[random.pick(&[any, any, self.way[0]])])
    }

    /// A context of entries of any level, often with the first name of the way.
    fn other(&self, random: &mut Random) -> Vec<u8> {
        let mut entries = BTreeMap::new();
        for number in 0..random.below(5) {
            let name = if number == 0 {
                self.way[0]
            } else {
                random.pick(&NAMES)
            };
            let most = random.pick(&[2, MAX_VALUE_LEVEL - 1]);
            entries.insert(name, deep_value(1 + random.below(most), random));
        }
        context_of(&entries)
    }
}

fn path_and_value(deep: &Deep, random: &mut Random) -> Vec<Vec<u8>> {
    let names = 1 + random.below(MAX_PATH + 1);
    vec![deep.path(names, random), value_below(names, random)]
}

/// A value of any level, or one that makes the level 29 to 33 below so many names.
fn value_below(names: usize, random: &mut Random) -> Vec<u8> {
    let level = match random.below(4) {
        0 => 1 + random.below(MAX_VALUE_LEVEL),
        _ => (29 + random.below(5)).saturating_sub(names),
    };
    deep_value(level.clamp(1, MAX_VALUE_LEVEL), random)
}

/// A value of this level: parents of one kind or of several, the last of them at times types.
fn deep_value(level: usize, random: &mut Random) -> Vec<u8> {
    let parents = level - 1;
    let types = match random.below(4) {
        0 if parents > 0 => 1 + random.below(parents),
        1 => parents,
        _ => 0,
    };
    let kind = random.pick(&VALUE_IN_VALUE);
    let kinds = if random.below(2) == 0 {
        &[kind][..]
    } else {
        &VALUE_IN_VALUE
    };
    let mut wrappers: Vec<Wrapper> = vec![];
    wrappers.resize_with(parents - types, || random.pick(kinds));
    let leaves: [&[u8]; 7] = [
        &[0x0F],
        &[0x00, 1],
        &[0x03, 7, 0],
        &[0x0A, 0, 0],
        &[0x0B, 0, 0],
        &[0x0D, 85],
        &[0x10, 250, 0, 0, 0, 0, 0, 0, 0, 2],
    ];
    let mut end = random.pick(&leaves);
    if types > 0 {
        let definition = random.pick(&TYPE_IN_VALUE[1..]);
        wrappers.push(random.pick(&[TYPE_IN_VALUE[0], definition]));
        wrappers.resize_with(parents, || random.pick(&TYPE_IN_TYPE));
        end = random.pick(&[&[0x20][..], &[0x29], &[0x2C, 0, 0]]);
    }
    chain(&wrappers, Ending::Bytes(end))
}

/// The bytes of a context.
fn context_of(entries: &BTreeMap<u16, Vec<u8>>) -> Vec<u8> {
    let mut bytes = vec![0x0B, entries.len() as u8, 0];
    for (name, v) in entries {
        bytes.extend(name.to_le_bytes());
        bytes.extend(v);
    }
    bytes
}

/// The names of a path, or one name.
fn names_of(arg: &[u8]) -> Vec<Name> {
    path(arg).into_iter().map(feel_form::name).collect()
}

/// The same; none where there are too many.
fn names(arg: &[u8]) -> Option<Vec<Name>> {
    Some(names_of(arg)).filter(|names| names.len() <= MAX_PATH)
}

fn tree(bytes: &[u8]) -> Value {
    read_value(bytes).expect("accepted").0
}

fn context(bytes: &[u8]) -> FeelContext {
    FeelContext::try_from(tree(bytes)).expect("a context")
}

#[cfg(test)]
mod tests {
    use super::*;

    /// {1: {1: {}, 2: [[true]]}, 2: true}
    const C: &[u8] = &[
        0x0B, 2, 0, 1, 0, 0x0B, 2, 0, 1, 0, 0x0B, 0, 0, 2, 0, 0x0A, 1, 0, 0x0A, 1, 0, 0x01, 1, 2,
        0, 0x01, 1,
    ];

    #[test]
    fn paths_are_told_apart() {
        let c = context(C);
        let of = |path: &[u16]| {
            let names = names(&spelled(path)).expect("not too many");
            (level_beside(&c, &names), end_of(&c, &names))
        };
        assert_eq!(of(&[]), (5, "the path is there"));
        assert_eq!(of(&[1]), (2, "the path is there"));
        assert_eq!(of(&[1, 2]), (3, "the path is there"));
        assert_eq!(of(&[1, 1]), (5, "the path is there"));
        assert_eq!(of(&[1, 1, 7, 7]), (5, "new names at its end"));
        assert_eq!(of(&[1, 2, 7]), (3, "no context on the way"));
        assert_eq!(of(&[7]), (5, "new names at its end"));
        assert_eq!(names(&spelled(&[1; 32])), None);
    }

    #[test]
    fn deep_contexts_and_values_have_their_level() {
        let mut random = Random::new(3);
        for _ in 0..1_000 {
            let deep = Deep::new(&mut random);
            let c = context(&deep.bytes);
            assert!((27..=31).contains(&level_beside(&c, &[])));
            let way = names(&spelled(&deep.way)).expect("not too many");
            assert_eq!(end_of(&c, &way), "the path is there");
            let level = 1 + random.below(31);
            assert_eq!(value_level(&tree(&deep_value(level, &mut random))), level);
        }
    }

    #[test]
    fn what_is_not_met_is_said() {
        let mut calls = CALLS.into_iter();
        let call = calls.find(|call| call.name == "context_move_entry");
        let call = Call {
            refusals: &[17, 18],
            ..call.expect("a call")
        };
        let args: [&[u8]; 3] = [C, &[1, 0], &[2, 0]];
        let tally = run_cases(&call, Standing::Guarded, |each| {
            each(Case {
                args: &args,
                ..Case::default()
            })
        });
        let classes = [(RESULT, 6, 7), LESS_DEEP];
        let mut counts = Counts::from([((RESULT, 6), 1)]);
        assert_eq!(
            missing(&classes, &tally, &counts),
            [
                "result of level 7",
                "the result less deep than the context",
                "refusal 17"
            ]
        );
        add(&mut counts, RESULT, 32);
        let missing = missing(&classes, &tally, &counts);
        assert!(missing[3].starts_with("17 where"), "{missing:?}");
    }
}
