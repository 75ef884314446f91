//! The groups of `value_is_conformant`.

use crate::list::{Call, Case, Group};
use crate::pairs::{arguments, pairs};
use feel_cases::{Move, Parts, Random, Tree, ValueTree, near, near_value};
use feel_form::calls;

pub fn groups() -> Vec<Group> {
    let group = |words, lines: &[&str]| Group::new(Call::ValueIsConformant, words, pairs(lines));
    let of_cases = |words, cases| Group::new(Call::ValueIsConformant, words, cases);
    vec![
        of_cases("leaves", leaves()),
        group("decimals", &DECIMALS),
        group("lists", &LISTS),
        group("ranges", &RANGES),
        group("contexts", &CONTEXTS),
        group("function definitions", &DEFINITIONS),
        of_cases("counts of parameters", counts()),
        of_cases("built-in functions, types and Irrelevant", others()),
        of_cases("level 31", deep()),
        of_cases("types near the own ones", near_own_types()),
        of_cases("refusals in order", refusals()),
    ]
}

/// Every leaf of data with its type.
pub const LEAVES: [(&str, &str); 9] = [
    ("00 00", "29"),
    ("01 01", "21"),
    ("02 0100000000000000", "22"),
    ("03 0500", "23"),
    ("04 0100000000000000", "24"),
    ("05 0100000000000000", "25"),
    ("06 0100000000000000", "26"),
    ("07 0100000000000000", "27"),
    ("08 0100000000000000", "28"),
];

/// Each leaf beside its type, the type after it, Any, Null and a list.
fn leaves() -> Vec<Case> {
    let mut lines = vec![];
    for (place, (v, own)) in LEAVES.iter().enumerate() {
        let (_, next) = LEAVES[(place + 1) % LEAVES.len()];
        for t in [*own, next, "20", "29", &format!("2A {own}")] {
            lines.push(format!("{v} | {t}"));
        }
    }
    for v in ["00 01", "00 02", "00 03", "01 00"] {
        lines.push(format!("{v} | 21"));
        lines.push(format!("{v} | 2D 01 22 22"));
    }
    cases(&lines)
}

const DECIMALS: [&str; 9] = [
    "10 1900000000000000 01 | 22",
    "10 FA00000000000000 02 | 20",
    "10 1900000000000000 01 | 23",
    "10 1900000000000000 01 | 29",
    "10 0500000000000000 00 | 2A 22",
    "0A 0300 02 0500000000000000 10 B5FFFFFFFFFFFFFF 02 00 00 | 2A 22",
    "0A 0200 10 B5FFFFFFFFFFFFFF 02 03 0500 | 2A 22",
    "09 02 02 10 1900000000000000 01 02 0300000000000000 | 2B 22",
    "0B 0200 0100 10 1900000000000000 01 0200 01 01 | 2C 0100 0100 22",
];

const LISTS: [&str; 24] = [
    "0A 0000 | 2A 29",
    "0A 0000 | 2A 22",
    "0A 0000 | 2B 22",
    "0A 0000 | 20",
    "0A 0000 | 29",
    "0A 0100 01 01 | 2A 21",
    "0A 0100 01 01 | 2A 20",
    "0A 0100 01 01 | 2A 22",
    "0A 0100 01 01 | 2A 29",
    "0A 0100 01 01 | 2B 21",
    "0A 0100 01 01 | 21",
    "01 01 | 2A 21",
    "0A 0300 00 00 01 01 01 00 | 2A 21",
    "0A 0300 01 01 00 00 01 00 | 2A 21",
    "0A 0300 01 01 01 00 00 00 | 2A 21",
    "0A 0300 01 01 01 00 03 0100 | 2A 21",
    "0A 0300 03 0100 01 01 01 00 | 2A 21",
    "0A 0200 01 01 03 0100 | 2A 20",
    "0A 0200 0A 0000 0A 0100 01 01 | 2A 2A 21",
    "0A 0200 0A 0000 0A 0100 01 01 | 2A 2A 29",
    "0A 0200 0A 0000 00 00 | 2A 2A 22",
    "0A 0200 0A 0100 0A 0000 0A 0000 | 2A 2A 2A 22",
    "0A 0200 0A 0100 0A 0100 0F 0A 0000 | 2A 2A 2A 20",
    "0A 0200 0A 0100 0A 0100 0F 0A 0000 | 2A 2A 2A 22",
];

const RANGES: [&str; 14] = [
    "09 02 02 03 0100 03 0200 | 2B 23",
    "09 02 02 03 0100 03 0200 | 2B 20",
    "09 02 02 03 0100 03 0200 | 2B 22",
    "09 02 02 03 0100 03 0200 | 2A 23",
    "09 02 02 03 0100 03 0200 | 23",
    "09 02 02 03 0200 03 0100 | 2B 23",
    "09 00 01 03 0100 00 00 | 2B 23",
    "09 03 00 00 00 03 0100 | 2B 23",
    "09 01 01 00 00 00 00 | 2B 2D 00 22",
    "09 02 02 03 0100 01 01 | 2B 23",
    "09 02 02 01 01 03 0100 | 2B 23",
    "09 02 02 01 01 03 0100 | 2B 20",
    "09 02 02 0A 0000 0A 0100 01 01 | 2B 2A 21",
    "09 02 02 09 00 00 00 00 01 01 00 00 | 2B 2B 21",
];

const CONTEXTS: [&str; 22] = [
    "0B 0000 | 2C 0000",
    "0B 0000 | 2C 0100 0100 20",
    "0B 0000 | 2C 0100 0100 29",
    "0B 0000 | 2A 20",
    "0B 0000 | 20",
    "0B 0100 0100 01 01 | 2C 0000",
    "0B 0100 0100 01 01 | 2C 0100 0100 21",
    "0B 0100 0100 01 01 | 2C 0100 0100 22",
    "0B 0100 0100 01 01 | 2C 0100 0200 21",
    "0B 0100 0100 01 01 | 2C 0200 0100 21 0200 20",
    "0B 0100 0100 00 00 | 2C 0100 0100 2C 0100 0100 22",
    "0B 0200 0100 01 01 0200 03 0100 | 2C 0100 0100 21",
    "0B 0200 0100 01 01 0200 03 0100 | 2C 0100 0200 23",
    "0B 0200 0100 01 01 0200 03 0100 | 2C 0200 0100 20 0200 20",
    "0B 0200 0100 01 01 0200 03 0100 | 2C 0200 0100 21 0200 21",
    "0B 0200 0100 01 01 0200 03 0100 | 2C 0200 0100 21 0300 23",
    "0B 0200 0100 01 01 0200 03 0100 | 2C 0200 0000 21 0200 23",
    "0B 0300 FF00 01 01 0001 03 0100 FFFF 0F | 2C 0200 0001 23 FFFF 20",
    "0B 0300 FF00 01 01 0001 03 0100 FFFF 0F | 2C 0200 FF00 21 FFFE 20",
    "0B 0100 0500 0B 0200 0100 01 01 0200 0F | 2C 0100 0500 2C 0100 0100 21",
    "0B 0100 0500 0B 0100 0100 01 01 | 2C 0100 0500 2C 0200 0100 21 0200 20",
    "0A 0200 0B 0200 0500 01 01 0700 0F 0B 0100 0500 00 00 | 2A 2C 0100 0500 21",
];

const DEFINITIONS: [&str; 37] = [
    "0C 00 0000 22 | 20",
    "0C 00 0000 22 | 29",
    "0C 00 0000 22 | 22",
    "0C 00 0000 22 | 2A 20",
    "0C 00 0000 22 | 2D 00 22",
    "0C 00 0000 22 | 2D 00 20",
    "0C 00 0000 22 | 2D 00 23",
    "0C 00 0000 22 | 2D 00 29",
    "0C 00 0000 20 | 2D 00 22",
    "0C 00 0000 29 | 2D 00 22",
    "0C 00 0000 22 | 2D 01 22 22",
    "0C 00 0000 2D 00 22 | 2D 00 2D 00 23",
    "0C 00 0000 2D 01 22 22 | 2D 00 2D 01 29 20",
    "0C 00 0000 2D 01 29 22 | 2D 00 2D 01 22 22",
    "0C 01 0700 22 0900 23 | 2D 01 23 22",
    "0C 01 0700 22 0900 23 | 2D 01 20 22",
    "0C 01 0700 22 0900 23 | 2D 01 29 22",
    "0C 01 0700 22 0900 20 | 2D 01 23 22",
    "0C 01 0700 22 0900 29 | 2D 01 23 22",
    "0C 01 0700 22 0900 23 | 2D 01 22 22",
    "0C 01 0700 22 0900 23 | 2D 01 23 20",
    "0C 01 0700 22 0900 23 | 2D 01 23 23",
    "0C 01 0700 22 0900 23 | 2D 01 23 29",
    "0C 01 0700 22 0900 23 | 2D 00 22",
    "0C 01 0700 22 0900 23 | 2D 02 23 23 22",
    "0C 01 0000 22 0900 2D 01 22 20 | 2D 01 2D 01 29 20 22",
    "0C 01 0000 22 0900 2D 01 29 20 | 2D 01 2D 01 22 20 22",
    "0C 01 0000 22 0900 2C 0100 0100 22 | 2D 01 2C 0000 22",
    "0C 01 0000 22 0900 2C 0000 | 2D 01 2C 0100 0100 22 22",
    "0C 02 0000 21 0900 22 0300 23 | 2D 02 22 23 21",
    "0C 02 0000 21 0900 22 0300 23 | 2D 02 23 22 21",
    "0C 02 0000 21 0900 22 0300 23 | 2D 02 20 23 21",
    "0C 02 0000 21 0900 22 0300 23 | 2D 02 22 20 20",
    "0C 02 0000 21 0900 22 0300 23 | 2D 02 22 29 21",
    "0A 0200 00 00 0C 00 0000 22 | 2A 2D 00 20",
    "0A 0200 0C 00 0000 22 0C 00 0000 23 | 2A 2D 00 22",
    "0B 0100 0100 0C 01 0000 22 0900 22 | 2C 0100 0100 2D 01 20 20",
];

/// Many parameters, equal but for one, beside as many and beside fewer.
fn counts() -> Vec<Case> {
    let mut lines = vec![];
    for (own, target, odd, t) in [
        (3, 3, 2, "20"),
        (3, 3, 2, "29"),
        (16, 16, 15, "20"),
        (16, 16, 15, "23"),
        (16, 16, 0, "23"),
        (16, 15, 0, "22"),
        (128, 127, 0, "22"),
        (255, 255, 254, "20"),
        (255, 255, 254, "23"),
    ] {
        let parameters = "0100 22 ".repeat(own);
        let mut types = vec!["22"; target];
        types[odd] = t;
        let types = types.join(" ");
        lines.push(format!(
            "0C {own:02X} 0000 22 {parameters} | 2D {target:02X} {types} 22"
        ));
    }
    cases(&lines)
}

/// They conform to Any alone; what holds them may conform to more.
fn others() -> Vec<Case> {
    let mut lines = vec![];
    for v in ["0D 00", "0D 55", "0E 22", "0E 2A 22", "0F"] {
        for t in ["20", "22", "29", "2A 20", "2D 01 22 22"] {
            lines.push(format!("{v} | {t}"));
        }
        lines.push(format!("0A 0200 00 00 {v} | 2A 20"));
        lines.push(format!("0A 0200 00 00 {v} | 2A 22"));
        lines.push(format!("0B 0200 0100 {v} 0200 01 01 | 2C 0100 0200 21"));
        lines.push(format!("09 00 00 {v} 00 00 | 2B 29"));
    }
    cases(&lines)
}

/// Values of level 31 and types of level 31 and 32.
fn deep() -> Vec<Case> {
    let lists = "0A 0100 ".repeat(30);
    let list_types = "2A ".repeat(30);
    let contexts = "0B 0100 0100 ".repeat(30);
    let context_types = "2C 0100 0100 ".repeat(30);
    let ranges = |end: &str| format!("{}{end}{}", "09 00 00 ".repeat(30), " 00 00".repeat(30));
    let range_types = "2B ".repeat(30);
    let below = "2A ".repeat(28);
    cases(&[
        format!("{lists} 01 01 | {list_types} 21"),
        format!("{lists} 01 01 | {list_types} 22"),
        format!("{lists} 01 01 | {list_types} 20"),
        format!("{lists} 01 01 | {list_types} 2A 21"),
        format!("{lists} 0A 0000 | {list_types} 2A 21"),
        format!("{lists} 0A 0000 | {list_types} 2B 21"),
        format!("{contexts} 01 01 | {context_types} 21"),
        format!("{contexts} 01 01 | {context_types} 22"),
        format!("{} | {range_types} 21", ranges("01 01")),
        format!("{} | {range_types} 22", ranges("01 01")),
        format!("0C 00 0000 {below} 2A 22 | 2D 00 {below} 2A 22"),
        format!("0C 00 0000 {below} 2A 22 | 2D 00 {below} 2A 2A 22"),
        format!("0C 01 0000 22 0100 {below} 2A 22 | 2D 01 {below} 2A 20 22"),
    ])
}

/// Small values beside types near the inferred and the least one, and small values near them beside
/// those types.
fn near_own_types() -> Vec<Case> {
    let mut random = Random::new(4);
    let mut all = vec![];
    while all.len() < 48 {
        let parts = random.pick(&[Parts::Data, Parts::Data, Parts::All]);
        let tree = ValueTree::random(4, 3 + random.below(6), parts, &mut random);
        let v = tree.bytes();
        if !(10..=60).contains(&v.len()) {
            continue;
        }
        let wanted = 4 * v.len();
        let inferred = calls::value_type_of(&v, wanted, v.len());
        let own = calls::value_least_type(&v, wanted, v.len())
            .or(inferred)
            .expect("accepted");
        let how = random.pick(&[Move::Up, Move::Down, Move::Free]);
        let copy = near(&Tree::of(&own), how, &mut random).bytes();
        let other = near_value(&tree, parts, &mut random).bytes();
        if copy.len() <= 60 && other.len() <= 60 {
            for args in [
                vec![v.clone(), own.clone()],
                vec![v, copy],
                vec![other, own],
            ] {
                all.push(Case { args, lent: vec![] });
            }
        }
    }
    all
}

/// The value is read before the type.
fn refusals() -> Vec<Case> {
    let too_deep = format!("{} 0F", "0A 0100 ".repeat(31));
    let too_deep_type = format!("{} 22", "2A ".repeat(32));
    let values = [
        "",
        "10",
        "00 04",
        "0A 0100",
        "0B 0200 0100 0F 0100 0F",
        &too_deep,
        "0F 0F",
    ];
    let types = [
        "",
        "2E",
        "2A",
        "0F",
        "2C 0200 0100 20 0100 20",
        &too_deep_type,
        "20 20",
    ];
    let mut lines = vec![];
    for (place, v) in values.iter().enumerate() {
        lines.push(format!("{v} | 20"));
        lines.push(format!("{v} | {}", types[place]));
    }
    for t in types {
        lines.push(format!("00 00 | {t}"));
        lines.push(format!("0F | {t}"));
    }
    cases(&lines)
}

fn cases(lines: &[String]) -> Vec<Case> {
    let case = |line: &String| Case {
        args: arguments(line),
        lent: vec![],
    };
    lines.iter().map(case).collect()
}
