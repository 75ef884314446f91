//! The groups of `type_get_value_checked`, `type_get_conformant_value` and `value_coerced`.

use crate::conformance::LEAVES;
use crate::list::{Answer, Call, Case, Group};
use crate::pairs::arguments;
use feel_cases::{Move, Parts, Random, Tree, ValueTree, near, near_value};
use feel_form::calls;

pub fn groups() -> Vec<Group> {
    let mut groups = vec![];
    for call in [Call::GetValueChecked, Call::GetConformantValue] {
        let group = |words, lines: &[&str]| Group::new(call, words, exact(call, lines));
        let of_lines = |words, lines: Vec<String>| Group::new(call, words, exact(call, &lines));
        groups.extend([
            group("examples", &["2C 0100 0100 22 | 0B 0000"]),
            of_lines("leaves", leaves()),
            group("decimals", &DECIMALS),
            of_lines("null values", nulls()),
            group("ranges, functions and Any", &COPIED),
            group("lists", &LISTS),
            group("contexts", &CONTEXTS),
            of_lines("built-in functions, types and Irrelevant", others()),
            of_lines("level 31", deep()),
            Group::new(call, "random records", random(call)),
            Group::new(call, "output", outputs(call, &OUTPUTS)),
            Group::new(call, "refusals in order", refusals(call)),
        ]);
    }
    let call = Call::Coerced;
    let group = |words, lines: &[&str]| Group::new(call, words, exact(call, lines));
    let of_lines = |words, lines: Vec<String>| Group::new(call, words, exact(call, &lines));
    groups.extend([
        group("examples", &["0A 0100 02 0100000000000000 | 2A 2A 22"]),
        of_lines("leaves", coerced_leaves()),
        group("decimals", &COERCED_DECIMALS),
        of_lines("null values and one-item lists of them", coerced_nulls()),
        group("unchanged", &UNCHANGED),
        group("from a one-item list", &FROM_LIST),
        group("to a one-item list", &TO_LIST),
        group("function definitions", &DEFINITIONS),
        of_lines("built-in functions", built_in_functions()),
        Group::new(call, "level 31", coerced_deep()),
        Group::new(call, "random records", random(call)),
        Group::new(call, "output", outputs(call, &COERCED_OUTPUTS)),
        Group::new(call, "refusals in order", refusals(call)),
    ]);
    groups
}

/// A decimal is given as it is written.
const DECIMALS: [&str; 5] = [
    "22 | 10 FA00000000000000 02",
    "20 | 10 0500000000000000 00",
    "23 | 10 1900000000000000 01",
    "2A 22 | 0A 0200 10 1900000000000000 01 02 0300000000000000",
    "2C 0100 0100 22 | 0B 0200 0100 10 B5FFFFFFFFFFFFFF 02 0200 01 01",
];

const COERCED_DECIMALS: [&str; 5] = [
    "10 FA00000000000000 02 | 22",
    "10 1900000000000000 01 | 23",
    "0A 0100 10 1900000000000000 01 | 22",
    "10 0500000000000000 00 | 2A 22",
    "0A 0200 10 1900000000000000 01 10 FA00000000000000 02 | 22",
];

/// Each leaf of data beside its type and the type after it, some beside Any, Null and a list.
fn leaves() -> Vec<String> {
    let mut lines = vec![];
    for (place, (v, own)) in LEAVES.iter().enumerate().skip(1) {
        let (_, next) = LEAVES[(place + 1) % LEAVES.len()];
        lines.push(format!("{own} | {v}"));
        lines.push(format!("{next} | {v}"));
    }
    for (v, own) in &LEAVES[1..3] {
        lines.push(format!("20 | {v}"));
        lines.push(format!("29 | {v}"));
        lines.push(format!("2A {own} | {v}"));
    }
    lines
}

/// Every trace beside every sort of type, and inside what is copied or retrieved.
fn nulls() -> Vec<String> {
    let mut lines = vec![];
    for trace in 0..4 {
        for t in ["20", "29", "22", "2A 22"] {
            lines.push(format!("{t} | 00 0{trace}"));
        }
    }
    let more = [
        "2C 0100 0100 22 | 00 03",
        "2D 01 22 22 | 00 01",
        "2B 22 | 00 02",
        "20 | 0A 0200 00 01 00 02",
        "2A 20 | 0A 0200 00 01 00 02",
        "2A 22 | 0A 0300 00 03 00 00 00 01",
        "2A 29 | 0A 0100 00 02",
        "2A 2A 29 | 0A 0200 00 01 0A 0100 00 01",
        "2A 20 | 0A 0200 00 01 0A 0100 00 01",
        "20 | 0B 0100 0100 00 01",
        "2C 0100 0100 20 | 0B 0100 0100 00 01",
        "2C 0100 0100 29 | 0B 0100 0100 00 03",
        "2B 22 | 09 00 01 00 01 00 02",
        "2B 20 | 09 00 01 00 01 00 02",
    ];
    lines.extend(more.map(str::to_string));
    lines
}

const COPIED: [&str; 19] = [
    "2B 23 | 09 02 02 03 0100 03 0200",
    "2B 23 | 09 02 02 03 0200 01 01",
    "2B 29 | 09 03 01 03 0100 00 03",
    "2B 20 | 09 00 00 0F 0D 00",
    "2A 23 | 09 02 02 03 0100 03 0200",
    "23 | 09 02 02 03 0100 03 0200",
    "20 | 09 02 02 03 0100 03 0200",
    "2A 2B 21 | 0A 0200 09 00 00 00 01 01 01 00 01",
    "2D 00 22 | 0C 00 0000 22",
    "2D 00 20 | 0C 00 0000 22",
    "2D 00 23 | 0C 00 0000 22",
    "2D 01 22 22 | 0C 00 0000 22",
    "2D 01 23 22 | 0C 01 3412 22 0900 23",
    "2D 01 29 22 | 0C 01 3412 22 0900 23",
    "22 | 0C 00 0000 22",
    "20 | 0C 00 0000 22",
    "2A 2D 00 20 | 0A 0200 0C 00 0000 22 00 01",
    "20 | 0B 0200 0100 0A 0100 0F 0200 0E 2A 22",
    "20 | 0A 0300 01 01 0D 43 0B 0000",
];

const LISTS: [&str; 18] = [
    "2A 22 | 0A 0000",
    "2A 29 | 0A 0000",
    "2B 22 | 0A 0000",
    "20 | 0A 0000",
    "29 | 0A 0000",
    "2A 21 | 0A 0100 01 01",
    "2A 22 | 0A 0100 01 01",
    "21 | 0A 0100 01 01",
    "2A 29 | 0A 0100 01 01",
    "2A 21 | 0A 0300 01 01 00 00 01 00",
    "2A 21 | 0A 0300 01 01 03 0100 01 00",
    "2A 21 | 0A 0300 01 01 01 00 03 0100",
    "2A 20 | 0A 0300 01 01 03 0100 0F",
    "2A 2A 21 | 0A 0200 0A 0000 0A 0100 01 01",
    "2A 2A 21 | 0A 0200 0A 0000 01 01",
    "2A 2A 21 | 0A 0200 0A 0100 03 0100 0A 0000",
    "2A 2A 2A 22 | 0A 0100 0A 0100 0A 0000",
    "2A 2C 0100 0100 21 | 0A 0300 0B 0200 0000 0F 0100 01 01 0B 0000 00 02",
];

const CONTEXTS: [&str; 22] = [
    "2C 0000 | 0B 0000",
    "2C 0000 | 0B 0100 0100 01 01",
    "2C 0100 0100 20 | 0B 0000",
    "2A 20 | 0B 0000",
    "20 | 0B 0000",
    "2C 0000 | 0A 0000",
    "2C 0100 0100 21 | 0B 0100 0100 01 01",
    "2C 0100 0100 22 | 0B 0100 0100 01 01",
    "2C 0100 0200 21 | 0B 0100 0100 01 01",
    "2C 0200 0100 21 0200 20 | 0B 0100 0100 01 01",
    "2C 0200 0000 22 0100 21 | 0B 0100 0100 01 01",
    "2C 0100 0100 21 | 0B 0300 0000 0F 0100 01 01 0200 03 0100",
    "2C 0200 0000 20 0200 23 | 0B 0300 0000 0F 0100 01 01 0200 03 0100",
    "2C 0200 0200 23 0300 20 | 0B 0300 0000 0F 0100 01 01 0200 03 0100",
    "2C 0200 0100 21 0200 21 | 0B 0300 0000 0F 0100 01 01 0200 03 0100",
    "2C 0200 0001 23 FFFF 20 | 0B 0300 FF00 01 01 0001 03 0100 FFFF 0F",
    "2C 0200 FF00 21 FFFE 20 | 0B 0300 FF00 01 01 0001 03 0100 FFFF 0F",
    "2C 0100 0500 2C 0100 0100 21 | 0B 0100 0500 0B 0200 0100 01 01 0200 0F",
    "2C 0100 0500 2C 0200 0100 21 0200 20 | 0B 0100 0500 0B 0100 0100 01 01",
    "2C 0100 0500 2C 0000 | 0B 0200 0400 0F 0500 0B 0100 0100 01 01",
    "2C 0100 0500 2A 2C 0100 0100 21 | 0B 0100 0500 0A 0200 0B 0100 0100 00 03 0B 0000",
    "2C 0300 0100 20 0200 20 0300 20 | 0B 0300 0100 0A 0100 00 01 0200 00 01 0300 0B 0100 0100 00 02",
];

/// They meet no type but Any.
fn others() -> Vec<String> {
    let mut lines = vec![];
    for v in ["0D 00", "0D 55", "0E 22", "0F"] {
        for t in ["20", "2D 01 22 22", "2A 20"] {
            lines.push(format!("{t} | {v}"));
        }
        lines.push(format!("2A 20 | 0A 0200 00 01 {v}"));
        lines.push(format!("2C 0100 0200 21 | 0B 0200 0100 {v} 0200 01 01"));
    }
    lines
}

/// Values of level 31.
fn deep() -> Vec<String> {
    let lists = "0A 0100 ".repeat(30);
    let list_types = "2A ".repeat(30);
    let contexts = "0B 0100 0100 ".repeat(30);
    let context_types = "2C 0100 0100 ".repeat(30);
    vec![
        format!("{list_types} 29 | {lists} 00 01"),
        format!("{list_types} 22 | {lists} 01 01"),
        format!("{list_types} 2A 22 | {lists} 0A 0000"),
        format!("{} 20 | {lists} 00 01", "2A ".repeat(29)),
        format!("{context_types} 20 | {contexts} 00 01"),
        format!("{context_types} 2C 0100 0100 22 | {contexts} 0B 0000"),
        format!(
            "{context_types} 21 | {} 0B 0000",
            "0B 0100 0100 ".repeat(29)
        ),
        format!(
            "2B 20 | {} 00 01 {}",
            "09 00 00 ".repeat(30),
            "00 02 ".repeat(30)
        ),
    ]
}

/// An answer as long as the value, one that is shorter, null for a value of one byte, a refusal.
const OUTPUTS: [&str; 5] = [
    "2A 21 | 0A 0200 00 01 01 01",
    "2C 0100 0200 21 | 0B 0200 0100 01 01 0200 01 00",
    "2C 0100 0100 22 | 0B 0000",
    "22 | 0F",
    "22 | 00 03",
];

/// Every leaf of data beside its type, the type after it, and lists of both.
fn coerced_leaves() -> Vec<String> {
    let mut lines = vec![];
    for (place, (v, own)) in LEAVES.iter().enumerate().skip(1) {
        let (_, next) = LEAVES[(place + 1) % LEAVES.len()];
        for t in [own, next, &&*format!("2A {own}")] {
            lines.push(format!("{v} | {t}"));
        }
    }
    lines
}

fn coerced_nulls() -> Vec<String> {
    let mut lines = vec![];
    for trace in 0..4 {
        for t in ["20", "29", "2A 22"] {
            lines.push(format!("00 0{trace} | {t}"));
        }
        for t in ["22", "2A 22", "2A 2A 22"] {
            lines.push(format!("0A 0100 00 0{trace} | {t}"));
        }
    }
    let more = [
        "0A 0200 00 01 00 02 | 22",
        "0A 0100 0A 0100 00 01 | 22",
        "0A 0100 0A 0100 00 01 | 2A 22",
    ];
    lines.extend(more.map(str::to_string));
    lines
}

const UNCHANGED: [&str; 7] = [
    "0A 0200 00 01 01 01 | 2A 21",
    "0A 0000 | 2A 2A 21",
    "0A 0100 0F | 20",
    "0B 0200 0100 00 03 0200 0F | 2C 0100 0100 22",
    "09 03 00 03 0100 00 02 | 2B 23",
    "0E 22 | 20",
    "0F | 20",
];

const FROM_LIST: [&str; 13] = [
    "0A 0100 01 01 | 21",
    "0A 0100 01 01 | 22",
    "0A 0100 01 01 | 29",
    "0A 0200 01 01 01 01 | 21",
    "0A 0000 | 21",
    "0A 0100 0A 0000 | 2A 21",
    "0A 0100 0A 0100 01 01 | 2A 21",
    "0A 0100 0A 0100 01 01 | 2A 22",
    "0A 0100 0A 0100 01 01 | 21",
    "0A 0100 0A 0200 01 01 00 03 | 2A 21",
    "0A 0100 0B 0200 0100 00 03 0200 0F | 2C 0100 0100 22",
    "0A 0100 0B 0000 | 2C 0100 0100 22",
    "0A 0100 09 00 02 03 0100 00 01 | 2B 23",
];

const TO_LIST: [&str; 15] = [
    "01 01 | 2A 21",
    "01 01 | 2A 20",
    "01 01 | 2A 22",
    "01 01 | 2A 2A 21",
    "01 01 | 2B 21",
    "0B 0000 | 2A 2C 0000",
    "0B 0000 | 2A 2C 0100 0100 20",
    "0B 0200 0100 01 01 0200 00 03 | 2A 2C 0100 0100 21",
    "09 00 00 01 01 00 01 | 2A 2B 21",
    "09 00 00 01 01 00 01 | 2A 2B 22",
    "0E 22 | 2A 20",
    "0F | 2A 20",
    "0F | 2A 22",
    "0A 0100 01 01 | 2A 2A 21",
    "0A 0200 01 01 01 01 | 2A 2A 21",
];

const DEFINITIONS: [&str; 12] = [
    "0C 00 0000 22 | 22",
    "0C 00 0000 22 | 29",
    "0C 00 0000 22 | 20",
    "0C 00 0000 22 | 2A 20",
    "0C 00 0000 22 | 2D 00 23",
    "0C 01 0700 22 0900 23 | 2D 02 22 22 22",
    "0A 0100 0C 00 0000 22 | 2D 00 20",
    "0A 0100 0C 00 0000 22 | 2D 00 23",
    "0A 0100 0C 01 0700 22 0900 23 | 2D 01 23 22",
    "0A 0100 0C 01 0700 22 0900 23 | 2D 01 29 22",
    "0A 0100 0C 00 0000 22 | 2A 2D 00 23",
    "0A 0200 0C 00 0000 22 0F | 2D 00 22",
];

/// Those whose type is known and others, beside functions, Any and lists.
fn built_in_functions() -> Vec<String> {
    let mut lines = vec![];
    for v in ["0D 00", "0D 43"] {
        for t in [
            "2D 01 22 22",
            "2D 01 29 20",
            "2D 01 20 22",
            "2D 01 22 23",
            "2D 00 22",
            "2A 2D 01 22 22",
        ] {
            lines.push(format!("{v} | {t}"));
        }
        lines.push(format!("0A 0100 {v} | 2D 01 22 22"));
    }
    for v in ["0D 00", "0D 01", "0D 55"] {
        for t in ["20", "2A 20", "29"] {
            lines.push(format!("{v} | {t}"));
        }
    }
    lines.push("0D 01 | 2A 2A 20".to_string());
    lines.push("0A 0100 0D 01 | 2A 2A 20".to_string());
    lines
}

/// A list is made around a value of level 30; around one of level 31 it is refused, before the
/// output is looked at.
fn coerced_deep() -> Vec<Case> {
    let contexts = |count| format!("{} 0F", "0B 0100 0100 ".repeat(count));
    let ranges = |count| format!("{} 0F {}", "09 00 00 ".repeat(count), "0F ".repeat(count));
    let type_value = |count| format!("0E {} 22", "2A ".repeat(count));
    let lists = |count| format!("{} 00 01", "0A 0100 ".repeat(count));
    let mut cases = vec![];
    for v in [
        contexts(28),
        contexts(29),
        contexts(30),
        ranges(29),
        ranges(30),
        type_value(28),
        type_value(29),
    ] {
        cases.push(around(Call::Coerced, &format!("{v} | 2A 20"), 0));
    }
    for v in [contexts(30), type_value(29)] {
        for room in [0, 1] {
            cases.push(Case {
                args: arguments(&format!("{v} | 2A 20")),
                lent: vec![room],
            });
        }
        cases.push(around(Call::Coerced, &format!("{v} | 20"), 0));
        cases.push(around(Call::Coerced, &format!("{v} | 2A 22"), 0));
    }
    cases.extend(exact(
        Call::Coerced,
        &[
            format!("{} | {} 22", lists(30), "2A ".repeat(30)),
            format!("{} | {} 22", lists(30), "2A ".repeat(29)),
            format!("{} | {} 22", lists(30), "2A ".repeat(28)),
            format!("{} | {} 22", lists(30), "2A ".repeat(31)),
        ],
    ));
    cases
}

/// An unchanged value, an item, a list that is made, a failure of a value that is longer and of one
/// that is shorter.
const COERCED_OUTPUTS: [&str; 5] = [
    "0B 0100 0100 00 01 | 20",
    "0A 0100 01 01 | 21",
    "01 01 | 2A 21",
    "0A 0200 01 01 01 01 | 21",
    "0F | 21",
];

/// Small values beside types near the inferred and the least one, and small values near them beside
/// those types.
fn random(call: Call) -> Vec<Case> {
    let mut random = Random::new(call as u64);
    let mut all = vec![];
    while all.len() < 18 {
        let parts = random.pick(&[Parts::Data, Parts::Data, Parts::All]);
        let tree = ValueTree::random(4, 3 + random.below(6), parts, &mut random);
        let v = tree.bytes();
        if !(10..=60).contains(&v.len()) {
            continue;
        }
        let wanted = 4 * v.len();
        let inferred = calls::value_type_of(&v, wanted, v.len());
        let own = calls::value_least_type(&v, wanted, v.len())
            .or(inferred)
            .expect("accepted");
        let up = near(&Tree::of(&own), Move::Up, &mut random).bytes();
        let how = random.pick(&[Move::Up, Move::Down, Move::Free]);
        let copy = near(&Tree::of(&own), how, &mut random).bytes();
        let other = near_value(&tree, parts, &mut random).bytes();
        if [&up, &copy, &other].iter().all(|bytes| bytes.len() <= 60) {
            for (v, t) in [(&v, up), (&v, copy), (&other, own)] {
                let args = match call {
                    Call::Coerced => vec![v.clone(), t],
                    _ => vec![t, v.clone()],
                };
                all.push(with_need(call, args, 0));
            }
        }
    }
    all
}

/// Cases with exactly the output that is wanted.
fn exact(call: Call, lines: &[impl AsRef<str>]) -> Vec<Case> {
    let case = |line: &_| around(call, AsRef::as_ref(line), 0);
    lines.iter().map(case).collect()
}

/// The output one less than its need, one more, none and much; the other cases have it at its need.
fn outputs(call: Call, lines: &[&str]) -> Vec<Case> {
    let mut cases = vec![];
    for line in lines {
        let need = around(call, line, 0).lent[0] as isize;
        for room in [-need, -1, 1, 30] {
            cases.push(around(call, line, room));
        }
    }
    cases
}

fn around(call: Call, line: &str, room: isize) -> Case {
    with_need(call, arguments(line), room)
}

/// A case with so much more or less output than is wanted; where there is no answer the output is
/// as long as both records.
fn with_need(call: Call, args: Vec<Vec<u8>>, room: isize) -> Case {
    let ample = Case {
        lent: vec![args.concat().len() + 3],
        args,
    };
    let need = match call.answer(&ample) {
        Answer::Bytes(answer) => answer.len(),
        _ => ample.lent[0] - 3,
    };
    Case {
        lent: vec![need.checked_add_signed(room).expect("a length")],
        ..ample
    }
}

/// The arguments are read in their order; then come a mismatch and the output.
fn refusals(call: Call) -> Vec<Case> {
    let too_deep = format!("{} 0F", "0A 0100 ".repeat(31));
    let too_deep_type = format!("{} 22", "2A ".repeat(32));
    let values = [
        "",
        "10",
        "00 04",
        "0B 0200 0100 0F 0100 0F",
        &too_deep,
        "0F 0F",
    ];
    let types = [
        "",
        "2E",
        "2A",
        "2C 0200 0100 20 0100 20",
        &too_deep_type,
        "20 20",
    ];
    let mut pairs: Vec<(&str, &str)> = values.into_iter().zip(types).collect();
    pairs.extend(values.map(|v| (v, "20")));
    pairs.extend(types.map(|t| ("00 00", t)));
    let case = |(place, (v, t)): (usize, (&str, &str))| Case {
        args: match call {
            Call::Coerced => arguments(&format!("{v} | {t}")),
            _ => arguments(&format!("{t} | {v}")),
        },
        lent: vec![if place % 2 == 0 { 0 } else { 40 }],
    };
    let mut cases: Vec<Case> = pairs.into_iter().enumerate().map(case).collect();
    cases.push(case((0, ("01 01", "22"))));
    cases
}
