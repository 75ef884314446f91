//! The calls over texts.

use crate::data::SET;
use crate::measure::{Answer, Given, Measured, contest, nothing};
use crate::ours::{Both, One, OneBuild, ROOM, TwoBuild, both, one, one_build, two_build};
use crate::stock::{Size, Stock};
use crate::table::Table;
use dsntk_feel::types::is_built_in_type_name;
use dsntk_feel::{FeelType, Name};
use feel_cases::{Random, Tree, parts_of, renamed, table_of};
use feel_form::{names, read_type};
use std::str::{FromStr, from_utf8};

/// The room for a text: a type of 16,384 bytes over the table has less.
const TEXT: usize = 1_000_000;

/// The names of the ten simple types.
const NAMES: [&str; 10] = [
    "Any",
    "Null",
    "boolean",
    "date",
    "date and time",
    "days and time duration",
    "number",
    "string",
    "time",
    "years and months duration",
];

pub fn run(stocks: &[Stock], table: &mut Table) {
    table.each("names_display", stocks, |stock| {
        let mut out = vec![0; TEXT];
        contest(
            &shown(stock.size),
            both!(feel_names_display as TwoBuild),
            |f, case| two_build(f, &case.t, &case.table, &mut out),
            |case| names::display(&case.t, &case.table, TEXT),
            nothing(),
            Some(|case: &Shown| case.tree.to_string()),
        )
    });
    table.each("names_from_str", stocks, |stock| {
        let ready = |s: &str| FeelType::from_str(s).is_ok();
        let function = both!(feel_names_from_str as One);
        of_strings(stock, function, names::from_str, ready)
    });
    table.each("names_is_built_in_type_name", stocks, |stock| {
        let function = both!(feel_names_is_built_in_type_name as One);
        let rust = names::is_built_in_type_name;
        of_strings(stock, function, rust, is_built_in_type_name)
    });
    table.each("names_name_new", stocks, |stock| {
        let mut out = vec![0; ROOM];
        contest(
            &parts(stock.size),
            both!(feel_names_name_new as OneBuild),
            |f, case| one_build(f, &case.bytes, &mut out),
            |case| names::name_new(&case.bytes, ROOM),
            nothing(),
            Some(|case: &Parts| {
                let parts: Vec<&str> = case.parts.iter().map(String::as_str).collect();
                Name::new(&parts)
            }),
        )
    });
    table.each("names_trim", stocks, |stock| {
        let mut out = vec![0; ROOM];
        contest(
            &blanks(stock.size),
            both!(feel_names_trim as OneBuild),
            |f, s| one_build(f, s.0.as_bytes(), &mut out),
            // All bytes here are ASCII, so that the Rust needs no other string.
            |s| {
                let name = Name::from(from_utf8(s.0.as_bytes()).expect("ASCII"));
                String::from(name).into_bytes()
            },
            nothing(),
            Some(|s: &Text| Name::from(s.0.as_str())),
        )
    });
}

/// A type to be shown, its table, and the type with the names of the table.
struct Shown {
    t: Vec<u8>,
    table: Vec<u8>,
    tree: FeelType,
}

impl Given for Shown {
    fn length(&self) -> usize {
        self.t.len() + self.table.len()
    }
}

/// Types of these lengths with a table of as many bytes.
fn shown(Size { least, most, .. }: Size) -> Vec<Shown> {
    // Each text has nine bytes and its length.
    let count = least.midpoint(most) / 10;
    let texts: Vec<String> = (0..count)
        .map(|number| format!("name {number:04}"))
        .collect();
    let names: Vec<Name> = texts.iter().map(|text| Name::from(&text[..])).collect();
    let table = table_of(&texts).bytes;
    let mut random = Random::new(7);
    let mut trees = vec![];
    let mut bytes = 0;
    while bytes < SET {
        // A context of random types, as many as make up the length.
        let mut entries = vec![];
        let mut length = 3;
        while length < least && entries.len() < names.len() {
            let child = Tree::random(6, 1 + random.below(10.max(most / 30)), &mut random);
            let child = renamed(&child, names.len(), &mut random);
            length += 2 + child.bytes().len();
            entries.push((entries.len() as u16, child));
        }
        if (least..=most).contains(&length) {
            bytes += length;
            trees.push(Tree::Context(entries));
        }
    }
    // All bytes stand before the first tree, as those of other records.
    let given: Vec<[Vec<u8>; 2]> = trees
        .iter()
        .map(|tree| [tree.bytes(), table.clone()])
        .collect();
    let shown = |(tree, [t, table]): (&Tree, [Vec<u8>; 2])| Shown {
        t,
        table,
        tree: named(tree, &names),
    };
    trees.iter().zip(given).map(shown).collect()
}

/// The type with these names.
fn named(tree: &Tree, names: &[Name]) -> FeelType {
    match tree {
        Tree::Simple(command) => read_type(&[*command]).expect("a simple type").0,
        Tree::One(0x2A, inner) => FeelType::list(&named(inner, names)),
        Tree::One(_, inner) => FeelType::range(&named(inner, names)),
        Tree::Context(entries) => {
            let entry = |(name, child): &(u16, Tree)| {
                (names[usize::from(*name)].clone(), named(child, names))
            };
            FeelType::Context(entries.iter().map(entry).collect())
        }
        Tree::Function(parameters, result) => {
            let parameters = parameters.iter().map(|child| named(child, names));
            FeelType::function(&parameters.collect::<Vec<_>>(), &named(result, names))
        }
    }
}

/// A string.
struct Text(String);

impl Given for Text {
    fn length(&self) -> usize {
        self.0.len()
    }
}

/// A question on strings: the names and near misses are small, others begin with a name.
fn of_strings<A: Answer>(
    stock: &Stock,
    function: Both<One>,
    rust: fn(&[u8]) -> A,
    ready: fn(&str) -> bool,
) -> Measured {
    let strings = match stock.size.name {
        "small" => NAMES.into_iter().flat_map(near_misses).map(Text).collect(),
        _ => long_strings(stock.size),
    };
    contest(
        &strings,
        function,
        |f, s| one(f, s.0.as_bytes()),
        |s| rust(s.0.as_bytes()),
        nothing(),
        Some(|s: &Text| ready(&s.0)),
    )
}

/// The name five times, and what is near it.
fn near_misses(name: &str) -> Vec<String> {
    let (start, last) = name.split_at(name.len() - 1);
    let mut strings = vec![name.to_string(); 5];
    strings.extend([
        start.to_string(),
        format!("{start}{}", last.to_uppercase()),
        format!("{name} "),
        format!(" {name}"),
        format!("x{}", &name[1..]),
    ]);
    strings
}

/// Strings of these lengths: a name, then words.
fn long_strings(Size { least, most, .. }: Size) -> Vec<Text> {
    let mut random = Random::new(7);
    let string = |_| {
        let length = least + random.below(most - least + 1);
        let mut string = random.pick(&NAMES).to_string();
        while string.len() < length {
            string.push_str(random.pick(&[" and", " time", " number", " of", " the pass"]));
        }
        string.truncate(length);
        Text(string)
    };
    (0..SET.div_ceil(most)).map(string).collect()
}

/// Strings of these lengths with blanks at both ends, up to a tenth of each.
fn blanks(size: Size) -> Vec<Text> {
    let mut random = Random::new(7);
    let mut edged = |Text(string): Text| {
        let mut blanks = || " ".repeat(random.below(1 + string.len() / 10));
        let (front, back) = (blanks(), blanks());
        let middle = &string[front.len()..string.len() - back.len()];
        Text(format!("{front}{middle}{back}"))
    };
    long_strings(size).into_iter().map(&mut edged).collect()
}

/// The parts of a name, and the same as strings.
struct Parts {
    bytes: Vec<u8>,
    parts: Vec<String>,
}

impl Given for Parts {
    fn length(&self) -> usize {
        self.bytes.len()
    }
}

/// Parts that have these lengths together, words and marks.
fn parts(Size { least, most, .. }: Size) -> Vec<Parts> {
    let mut random = Random::new(7);
    let mut rows = vec![];
    let mut bytes = 0;
    while bytes < SET {
        // At most 255 parts, so that those of a long name are long.
        let longest = 10.max(most / 100);
        let mut parts = vec![];
        let mut length = 1;
        while length < least {
            let part = match random.below(4) {
                0 => random.pick(&["+", " - ", ".", ""]).to_string(),
                _ => format!(" {}", "word".repeat(1 + random.below(longest / 4))),
            };
            length += 1 + part.len();
            parts.push(part);
        }
        if length <= most && parts.len() <= 255 {
            bytes += length;
            let bytes = parts_of(&parts).bytes;
            rows.push(Parts { bytes, parts });
        }
    }
    rows
}
