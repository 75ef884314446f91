//! The arguments of the robustness run: families of good ones that belong together, the limits, and
//! damage.

use feel_cases::{
    Kind, Move, Parts, Random, TableFault, Tree, ValueTree, any_table, context_chain, dense_texts,
    each_chain, faulty_table, filled_list, long_records, long_texts, near, near_leaves,
    near_simple, near_value, parts_of, random_context, random_path, random_texts, renamed,
    table_of,
};
use feel_form::{MAX_LENGTH, MAX_TYPE_LEVEL, MAX_VALUE_LEVEL};

/// The ten names of simple types.
const TYPE_NAMES: [&str; 10] = [
    "Any",
    "boolean",
    "number",
    "string",
    "date",
    "time",
    "date and time",
    "days and time duration",
    "years and months duration",
    "Null",
];

/// What an argument is.
#[derive(Debug, Clone, Copy, PartialEq, Eq)]
pub enum Arg {
    Value,
    /// A type that the value has, or nearly.
    Type,
    /// A type near the other one.
    OtherType,
    Context,
    /// A context near the other one.
    OtherContext,
    /// A path into the context, or nearly.
    Path,
    Name,
    Byte,
    /// A type whose names are in the table, or nearly.
    NamedType,
    Table,
    /// A table of the simple types, by which the value and the types are near each other.
    SimpleTable,
    Parts,
    /// The name of a type, or nearly.
    TypeName,
    Text,
}

/// Good arguments that belong together.
pub struct Family {
    value: Vec<u8>,
    types: [Vec<u8>; 2],
    contexts: [Vec<u8>; 2],
    path: Vec<u8>,
    named_type: Vec<u8>,
    table: Vec<u8>,
    simple_table: Vec<u8>,
    parts: Vec<u8>,
    type_name: Vec<u8>,
    text: Vec<u8>,
}

impl Family {
    pub fn new(random: &mut Random) -> Family {
        let parts = random.pick(&[Parts::Data, Parts::All]);
        let simple_table = any_table(random);
        let value = value(parts, random);
        let value = match random.below(2) {
            0 => near_leaves(&value, &simple_table, Move::Free, random),
            _ => value,
        };
        let shape = value.shape(random);
        let how = random.pick(&[Move::Up, Move::Down, Move::Free]);
        let t = match random.below(4) {
            0 => Tree::random(5, 1 + random.below(10), random),
            1 => near_simple(&shape, &simple_table, Move::Up, random),
            _ => near(&shape, Move::Up, random),
        };
        let context = context(random);
        let texts = random_texts(random);
        let count = texts.len() + usize::from(random.below(8) == 0);
        let named = Tree::random(5, 1 + random.below(12), random);
        let path = random_path(&context, random);
        let other_type = match random.below(2) {
            0 => near_simple(&t, &simple_table, how, random),
            _ => near(&t, how, random),
        };
        // Some lack a least common supertype, which damage seldom makes.
        let simple_table = match random.below(16) {
            0 => faulty_table(TableFault::TwoAbove, random),
            _ => simple_table,
        };
        Family {
            value: value.bytes(),
            types: [t.bytes(), other_type.bytes()],
            contexts: [context.bytes(), near_value(&context, parts, random).bytes()],
            path: path.iter().flat_map(|name| name.to_le_bytes()).collect(),
            named_type: renamed(&named, count, random).bytes(),
            table: table_of(&texts).bytes,
            simple_table,
            parts: name_parts(random),
            type_name: random.pick(&TYPE_NAMES).into(),
            text: text(24, random),
        }
    }

    /// The record for an argument that is neither a byte nor a name.
    pub fn record(&self, kind: Arg) -> &[u8] {
        match kind {
            Arg::Value => &self.value,
            Arg::Type => &self.types[0],
            Arg::OtherType => &self.types[1],
            Arg::Context => &self.contexts[0],
            Arg::OtherContext => &self.contexts[1],
            Arg::Path => &self.path,
            Arg::NamedType => &self.named_type,
            Arg::Table => &self.table,
            Arg::SimpleTable => &self.simple_table,
            Arg::Parts => &self.parts,
            Arg::TypeName => &self.type_name,
            Arg::Text => &self.text,
            Arg::Name | Arg::Byte => &[],
        }
    }

    /// A name, often one of the path's.
    pub fn name(&self, random: &mut Random) -> u16 {
        let mut names = self.path.chunks_exact(2);
        match (random.below(4), names.next()) {
            (0, _) => random.below(4) as u16,
            (1, _) => random.bits() as u16,
            (_, Some(first)) => u16::from_le_bytes([first[0], first[1]]),
            (_, None) => 0,
        }
    }
}

/// A value, most often small.
fn value(parts: Parts, random: &mut Random) -> ValueTree {
    match random.below(100) {
        0..75 => ValueTree::random(5, 1 + random.below(10), parts, random),
        75..97 => ValueTree::random(7, 4 + random.below(20), parts, random),
        _ => ValueTree::random_of_any_size(parts, random),
    }
}

/// A context, most often small.
fn context(random: &mut Random) -> ValueTree {
    loop {
        let context = random_context(random);
        if context.bytes().len() < 120 || random.below(40) == 0 {
            return context;
        }
    }
}

/// The parts of a name: few, with blanks and the signs that stand without one.
fn name_parts(random: &mut Random) -> Vec<u8> {
    let count = random.below(7);
    let part = |_| match random.below(4) {
        0 => random
            .pick(&["+", "-", ".", "/", "*", "'", " - ", ""])
            .into(),
        _ => text(8, random).iter().map(|byte| byte & 0x7F).collect(),
    };
    parts_of(&(0..count).map(part).collect::<Vec<Vec<u8>>>()).bytes
}

/// A text of less than so many bytes, often with blanks at its ends.
fn text(bound: usize, random: &mut Random) -> Vec<u8> {
    let blank = |random: &mut Random| random.pick(b" \t\n\x0B\x0C\r \x08\x0E\x85");
    let mut text: Vec<u8> = (0..random.below(bound)).map(|_| random.byte()).collect();
    let length = text.len();
    let ends = [random.below(4).min(length), random.below(4).min(length)];
    for place in (0..ends[0]).chain(length - ends[1]..length) {
        text[place] = blank(random);
    }
    text
}

/// Arguments at the limits.
pub struct Limits {
    long_values: Vec<Vec<u8>>,
    long_types: Vec<Vec<u8>>,
    long_contexts: Vec<Vec<u8>>,
    long_tables: Vec<Vec<u8>>,
    long_parts: Vec<Vec<u8>>,
    long_texts: Vec<Vec<u8>>,
    deep_values: Vec<Vec<u8>>,
    deep_types: Vec<Vec<u8>>,
    deep_contexts: Vec<Vec<u8>>,
}

impl Limits {
    pub fn new() -> Limits {
        let lengths = [MAX_LENGTH - 1, MAX_LENGTH, MAX_LENGTH + 1];
        let long = |kind| lengths.map(|length| long_records(kind, length)).concat();
        let deep = |kind, most| {
            let mut records = vec![];
            each_chain(kind, most - 1..=most + 1, &mut |record| {
                records.push(record.to_vec())
            });
            records
        };
        let contexts = |length: usize| {
            let alone = context_chain(7, 1, &filled_list(length - 5));
            let half = filled_list((length - 7) / 2);
            let two = [&[0x0B, 2, 0, 1, 0], &half[..], &[7, 0], &half].concat();
            [alone, two]
        };
        let tables = |length| [dense_texts(length), long_texts(length)].map(|t| table_of(&t).bytes);
        let levels = MAX_VALUE_LEVEL - 2..=MAX_VALUE_LEVEL;
        Limits {
            long_values: long(Kind::Value),
            long_types: long(Kind::Type),
            long_contexts: lengths.map(contexts).concat(),
            long_tables: lengths.map(tables).concat(),
            long_parts: lengths.map(long_parts).to_vec(),
            long_texts: [16_384, 65_536, 70_000]
                .map(|length| [b" \xFFa\t".repeat(length / 4), b" \r".repeat(length / 2)])
                .concat(),
            deep_values: deep(Kind::Value, MAX_VALUE_LEVEL),
            deep_types: deep(Kind::Type, MAX_TYPE_LEVEL),
            deep_contexts: levels
                .map(|count| context_chain(1, count, &[0x0F]))
                .collect(),
        }
    }

    /// About 16,384 bytes; none where nothing of the kind has so many.
    pub fn long(&self, kind: Arg) -> &[Vec<u8>] {
        match kind {
            Arg::Value => &self.long_values,
            Arg::Type | Arg::OtherType | Arg::NamedType => &self.long_types,
            Arg::Context | Arg::OtherContext => &self.long_contexts,
            Arg::Table => &self.long_tables,
            Arg::Parts => &self.long_parts,
            Arg::TypeName | Arg::Text => &self.long_texts,
            Arg::SimpleTable | Arg::Path | Arg::Name | Arg::Byte => &[],
        }
    }

    /// Around the highest level; none where the kind has no level.
    pub fn deep(&self, kind: Arg) -> &[Vec<u8>] {
        match kind {
            Arg::Value => &self.deep_values,
            Arg::Type | Arg::OtherType | Arg::NamedType => &self.deep_types,
            Arg::Context | Arg::OtherContext => &self.deep_contexts,
            _ => &[],
        }
    }
}

/// Parts of 255 bytes and a last one, so many bytes together.
fn long_parts(length: usize) -> Vec<u8> {
    let mut parts = vec![vec![b'a'; 255]; (length - 2) / 256];
    parts.push(vec![b' '; length - 2 - 256 * parts.len()]);
    parts_of(&parts).bytes
}

/// Damages an argument. A path keeps whole names, a name its two bytes, a byte is one.
pub fn damage(kind: Arg, arg: &mut Vec<u8>, random: &mut Random) {
    match kind {
        Arg::Byte | Arg::Name => arg.iter_mut().for_each(|byte| *byte = random.byte()),
        Arg::Path => damage_path(arg, random),
        _ => damage_record(arg, random),
    }
}

/// Fewer or other names, or as many as may be and more.
fn damage_path(path: &mut Vec<u8>, random: &mut Random) {
    let names = match random.below(8) {
        0 => 0,
        1 => 31,
        2 => 32,
        3 => random.pick(&[33, 40, 100, 2_000]),
        _ => random.below(5),
    };
    path.resize(2 * names, 0);
    if !path.is_empty() && random.below(2) == 0 {
        let place = random.below(path.len());
        path[place] = random.byte();
    }
}

fn damage_record(record: &mut Vec<u8>, random: &mut Random) {
    let length = record.len();
    let place = random.below(length.max(1));
    match random.below(15) {
        0..5 if length > 0 => record[place] = other_byte(record[place], random),
        5 => record.truncate(place),
        6 => record.truncate(length.saturating_sub(1)),
        7 if length > 0 => drop(record.remove(place)),
        8 => record.insert(place, random.byte()),
        9 => record.extend_from_within(..length.min(8)),
        10 if length > 0 => record.swap(place, length - 1),
        11 => record.clear(),
        12 => lengthen(record, random),
        13 => {
            record.clear();
            record.extend((0..random.below(48)).map(|_| random.byte()));
        }
        _ => {
            record.clear();
            record.extend((0..random.below(48)).map(|_| other_byte(0, random)));
        }
    }
}

/// A neighbour of the byte, a command, a small number, any.
fn other_byte(byte: u8, random: &mut Random) -> u8 {
    match random.below(6) {
        0 => byte.wrapping_add(1),
        1 => byte.wrapping_sub(1),
        2 => random.below(0x11) as u8,
        3 => 0x20 + random.below(0x0E) as u8,
        4 => random.below(4) as u8,
        _ => random.byte(),
    }
}

/// Adds bytes: a few, or at times so many that there are more than 16,384.
fn lengthen(record: &mut Vec<u8>, random: &mut Random) {
    let length = match random.below(8) {
        0 => random.pick(&[16_385, 16_386, 16_400, 20_000, 65_536, 65_537]),
        _ => record.len() + 1 + random.below(16),
    };
    let byte = random.byte();
    record.resize(length.max(record.len() + 1), byte);
}
