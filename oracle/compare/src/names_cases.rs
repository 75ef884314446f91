//! The cases of the calls over texts.

use crate::call::{Case, EachCase, Options};
use crate::context_answers::Build;
use crate::context_cases::{EachArgs, Generate, How};
use crate::type_cases::{BUFFERS_EACH, TEN, short_types};
use crate::value_cases::{is_quick, one_in, refused_types};
use feel_cases::{
    Draft, Each, Kind, Random, Tree, dense_texts, each_chain, each_damage, each_long, each_string,
    long_texts, parts_of, random_texts, renamed, small_types, table_of,
};
use feel_form::{MAX_LENGTH, MAX_TYPE_LEVEL};

/// Cases of a call with an output: it has exactly the room that is wanted, or some more, in turn;
/// where it is wanted, and sometimes, every length around the need.
pub fn built(generate: Generate, call: Build, options: &Options, each: &mut EachCase) {
    let mut count = 0;
    generate(options, &mut |args, how| {
        count += 1;
        let need = call(args, usize::MAX).map_or(1, |answer| answer.len());
        let case = Case {
            args,
            others: (how == How::Judged).then_some(&[]),
            output: need + if count % 2 == 0 { 9 } else { 0 },
            ..Case::default()
        };
        each(case);
        if how == How::EveryRoom || count % BUFFERS_EACH == 0 {
            for output in [0, need.saturating_sub(1), need, need + 1, need + 100] {
                each(Case {
                    others: None,
                    output,
                    ..case
                });
            }
        }
    });
}

/// Receives a type and a table.
type EachShown<'a> = dyn FnMut(&[u8], &[u8], How) + 'a;

/// Arguments: a type and a table.
pub fn type_and_table(options: &Options, each: &mut EachArgs) {
    let mut each = |t: &[u8], table: &[u8], how| each(&[t, table], how);
    // All short types over tables with and without their names.
    let tables = small_tables();
    let mut short = small_types(options.pair_length, &TEN, &[0, 1]);
    if !is_quick(options) {
        short.extend(short_types());
    }
    for t in &short {
        for table in &tables {
            each(t, table, How::Plain);
        }
    }
    names_at_the_end(&mut each);
    wide_types(&mut each);
    no_tables(options, &mut each);
    long_tables(options, &mut each);
    // The refusals of the type come first.
    let bad = [&[][..], &[1, 0], &[0, 0, 0], &[1, 0, 1, b' ']].map(<[u8]>::to_vec);
    for t in refused_types() {
        for table in tables.iter().chain(&bad) {
            each(&t, table, How::EveryRoom);
        }
    }
    let bytes: Vec<u8> = (0..=255).collect();
    for length in 0..=options.length.min(2) {
        each_string(&bytes, length, &mut |t| each(t, &tables[3], How::Plain));
    }
    let levels = MAX_TYPE_LEVEL - 1..=MAX_TYPE_LEVEL + 1;
    let some = table_of(&["", "a", "b", "c: d", "e"]).bytes;
    each_chain(Kind::Type, levels, &mut |t| each(t, &some, How::Plain));
    let dense = table_of(&dense_texts(MAX_LENGTH)).bytes;
    let mut taken = one_in(if is_quick(options) { 8 } else { 1 });
    each_long(Kind::Type, &mut |t| {
        if taken() {
            each(t, &dense, How::Plain);
        }
    });
    let mut random = Random::new(options.seed);
    for number in 0..options.pairs {
        let texts = random_texts(&mut random);
        let table = table_of(&texts);
        // Sometimes a name may be the first that is missing.
        let count = texts.len() + usize::from(random.below(8) == 0);
        let tree = Tree::random_of_any_size(&mut random);
        let tree = renamed(&tree, count, &mut random);
        each(&tree.bytes(), &table.bytes, How::Plain);
        if number % 500 == 0 {
            let t = tree.draft();
            each_damage(&t, &mut random, &mut |bad| {
                each(bad, &table.bytes, How::Plain)
            });
            each_damage(&table, &mut random, &mut |bad| {
                each(&t.bytes, bad, How::Plain)
            });
        }
    }
}

/// Tables of no, one, two and more texts, some with what stands in the text of a type.
fn small_tables() -> Vec<Vec<u8>> {
    let long = "l".repeat(255);
    let tables: [&[&str]; 14] = [
        &[],
        &[""],
        &["a"],
        &["", "a"],
        &["age", "first name"],
        &["a: b", "a: b, c: d"],
        &["<", ">"],
        &[">->", "context<"],
        &[", ", "x"],
        &[",", ":"],
        &["!", "~"],
        &["a", "a b", "b"],
        &[&long, "m"],
        &["", &long, "m", "n"],
    ];
    tables.map(|texts| table_of(texts).bytes).to_vec()
}

/// Names at the end of the table and past it, at every place of a type.
fn names_at_the_end(each: &mut EachShown) {
    let all = dense_texts(MAX_LENGTH);
    for count in [0, 1, 2, 3, 254, 255, 256, 257, 258, 1_000, all.len()] {
        let table = table_of(&all[..count]).bytes;
        let count = count as u16;
        let near = [0, 1, 2, 3].map(|less| count.wrapping_add(1).wrapping_sub(less));
        for name in near.into_iter().chain([0, count ^ 0x0100, 0x8000, 0xFFFF]) {
            let entry = [&name.to_le_bytes()[..], &[0x22]].concat();
            let context = [&[0x2C, 1, 0], &entry[..]].concat();
            let inside: [(&[u8], &[u8]); 10] = [
                (&[], &[]),
                (&[0x2A], &[]),
                (&[0x2B], &[]),
                (&[0x2D, 0], &[]),
                (&[0x2D, 1], &[0x20]),
                (&[0x2D, 2, 0x22], &[0x20]),
                (&[0x2D, 2, 0x22, 0x23], &[]),
                (&[0x2C, 1, 0, 0, 0], &[]),
                (&[0x2C, 2, 0, 0, 0, 0x20, 1, 0], &[]),
                (&[0x2C, 2, 0, 0, 0], &[1, 0, 0x29]),
            ];
            for (before, behind) in inside {
                each(&[before, &context, behind].concat(), &table, How::EveryRoom);
            }
            // The first of two names, and the last.
            for other in [0, 1, name.wrapping_sub(1), name.wrapping_add(1), 0xFFFF] {
                let mut both = [name, other];
                both.sort();
                let mut t = vec![0x2C, 2, 0];
                for (place, number) in both.into_iter().enumerate() {
                    t.extend(number.to_le_bytes());
                    t.extend([&[0x2A, 0x23][..], &[0x28]][place]);
                }
                each(&t, &table, How::EveryRoom);
            }
        }
    }
}

/// Contexts with many entries, and functions with many parameters.
fn wide_types(each: &mut EachShown) {
    let table = table_of(&dense_texts(MAX_LENGTH)).bytes;
    for count in [3, 254, 255, 256, 257, 511, 512, 513, 1_024, 5_000] {
        let mut t = vec![0x2C];
        t.extend((count as u16).to_le_bytes());
        for name in 0..count as u16 {
            t.extend(name.to_le_bytes());
            t.push(TEN[usize::from(name) % TEN.len()]);
        }
        each(&t, &table, How::EveryRoom);
        each(&[&[0x2A], &t[..]].concat(), &table, How::EveryRoom);
    }
    for count in [3, 127, 128, 254, 255] {
        for parameter in [&[0x24][..], &[0x2C, 1, 0, 0, 1, 0x22]] {
            let parameters = parameter.repeat(count.into());
            let t = [&[0x2D, count], &parameters[..], &[0x28]].concat();
            each(&t, &table, How::EveryRoom);
        }
    }
}

/// Types with which a table is tried: the number, {0: number}, {0: list<Any>, 1: function}.
const TRIED: [&[u8]; 3] = [
    &[0x22],
    &[0x2C, 1, 0, 0, 0, 0x22],
    &[
        0x2C, 2, 0, 0, 0, 0x2A, 0x20, 1, 0, 0x2D, 1, 0x29, 0x2C, 1, 0, 0, 0, 0x24,
    ],
];

/// What is a table, or nearly: all short strings, all rows of few texts, damaged tables.
fn no_tables(options: &Options, each: &mut EachShown) {
    let bytes: Vec<u8> = (0..=255).collect();
    for length in 0..=options.length.min(2) {
        each_string(&bytes, length, &mut |table| {
            each(TRIED[0], table, How::Plain)
        });
    }
    let mut turn = 0;
    for length in 0..=options.alphabet_length.min(5) {
        let alphabet = [0, 1, 2, 0x1F, 0x20, b'a', b'b', 0x7E, 0x7F];
        each_string(&alphabet, length, &mut |rest| {
            for count in 0..=2 {
                turn += 1;
                let table = [&[count, 0], rest].concat();
                each(TRIED[turn % 2], &table, How::Plain);
            }
        });
    }
    // Every row of three of these texts: below each other, equal, none.
    let pool: [&[u8]; 22] = [
        b"", b"a", b"aa", b"ab", b"a b", b"b", b"B", b"!", b"~", b"a~", b"a!", b": ", b">", b" ",
        b" a", b"a ", b"\x1F", b"a\x1Fb", b"\x7F", b"a\x7F", b"a\x80", b"\xFFa",
    ];
    for first in pool {
        each(TRIED[1], &table_of(&[first]).bytes, How::EveryRoom);
        for second in pool {
            let how = How::EveryRoom;
            each(TRIED[2], &table_of(&[first, second]).bytes, how);
            for third in pool {
                let table = table_of(&[first, second, third]).bytes;
                each(TRIED[2], &table, How::Plain);
            }
        }
    }
    // Every byte of a table, and every byte of a text at its start, inside and at its end.
    for byte in 0..=255 {
        for text in [
            vec![byte],
            vec![byte, b'a'],
            vec![b'a', byte],
            vec![b'a', byte, b'b'],
        ] {
            each(TRIED[1], &table_of(&[&text]).bytes, How::Plain);
            let two = table_of(&[b"a".to_vec(), text.clone()]);
            each(TRIED[2], &two.bytes, How::Plain);
            let two = table_of(&[text, b"b".to_vec()]);
            each(TRIED[2], &two.bytes, How::Plain);
        }
    }
    let mut random = Random::new(options.seed);
    for table in small_tables() {
        let places = table.len().min(12);
        for place in 0..places {
            for byte in 0..=255 {
                let mut copy = table.clone();
                copy[place] = byte;
                each(TRIED[place % 3], &copy, How::Plain);
            }
        }
    }
    for number in 0..options.count / 20 {
        let table = table_of(&random_texts(&mut random));
        let t = TRIED[number % 3];
        each_damage(&table, &mut random, &mut |bad| each(t, bad, How::Plain));
    }
    for texts in [&["a", "b", "c"][..], &["", "a: b", "a: b, c"], &["x"]] {
        for t in TRIED {
            each_damage(&table_of(texts), &mut random, &mut |bad| {
                each(t, bad, How::EveryRoom)
            });
        }
    }
}

/// Tables of about 16,384 bytes, whole and damaged, and long texts of types.
fn long_tables(options: &Options, each: &mut EachShown) {
    let mut random = Random::new(options.seed);
    for length in [MAX_LENGTH - 1, MAX_LENGTH, MAX_LENGTH + 1, MAX_LENGTH + 2] {
        for texts in [long_texts(length), dense_texts(length)] {
            let table = table_of(&texts);
            let last = [
                &[0x2C, 1, 0][..],
                &(texts.len() as u16 - 1).to_le_bytes(),
                &[0x22],
            ];
            let past = [
                &[0x2C, 1, 0][..],
                &(texts.len() as u16).to_le_bytes(),
                &[0x22],
            ];
            for t in TRIED {
                each(t, &table.bytes, How::EveryRoom);
            }
            each(&last.concat(), &table.bytes, How::EveryRoom);
            each(&past.concat(), &table.bytes, How::EveryRoom);
            // The count, the first and the last bytes.
            let end = table.bytes.len();
            for place in [0, 1, 2, 3, end / 2, end - 3, end - 2, end - 1] {
                for mask in [0x01, 0x40, 0x80, 0xFF] {
                    let mut copy = table.bytes.clone();
                    copy[place] ^= mask;
                    each(TRIED[1], &copy, How::Plain);
                }
            }
            let mut copy = table.bytes.clone();
            copy.push(0);
            each(TRIED[1], &copy, How::Plain);
            copy.truncate(end - 1);
            each(TRIED[1], &copy, How::Plain);
            // Two neighbours in the other order, and equal ones.
            for _ in 0..10 {
                let place = random.below(texts.len() - 1);
                let mut other = texts.clone();
                other.swap(place, place + 1);
                each(TRIED[1], &table_of(&other).bytes, How::Plain);
                other[place] = other[place + 1].clone();
                each(TRIED[1], &table_of(&other).bytes, How::Plain);
            }
            if !is_quick(options) {
                let draft = Draft {
                    counts: table.counts[..4].to_vec(),
                    ..table
                };
                each_damage(&draft, &mut random, &mut |bad| {
                    each(TRIED[2], bad, How::Plain)
                });
            }
        }
    }
    for length in [65_536, 65_538, 65_536 + 6] {
        each(TRIED[0], &vec![0; length], How::Plain);
        let mut table = table_of(&["a", "b"]).bytes;
        table.resize(length, 0);
        each(TRIED[1], &table, How::Plain);
    }
    // Many contexts, each with all texts of 255 bytes: a text of more than a million bytes.
    let texts = long_texts(MAX_LENGTH);
    let mut context = vec![0x2C, texts.len() as u8, 0];
    for name in 0..texts.len() as u8 {
        context.extend([name, 0, 0x29]);
    }
    let table = table_of(&texts).bytes;
    for count in [1, 4, 80] {
        let t = [&[0x2D, count], &context.repeat(count.into())[..], &[0x20]].concat();
        each(&t, &table, How::EveryRoom);
    }
    let deep = |wrapper: &[u8], behind: &[u8]| {
        let before = wrapper.repeat(MAX_TYPE_LEVEL - 2);
        [&before, TRIED[1], &behind.repeat(MAX_TYPE_LEVEL - 2)].concat()
    };
    for (wrapper, behind) in [
        (&[0x2A][..], &[][..]),
        (&[0x2B], &[]),
        (&[0x2C, 1, 0, 1, 0], &[]),
        (&[0x2C, 2, 0, 0, 0, 0x20, 1, 0], &[]),
        (&[0x2C, 2, 0, 0, 0], &[1, 0, 0x20]),
        (&[0x2D, 0], &[]),
        (&[0x2D, 1], &[0x23]),
        (&[0x2D, 2, 0x23], &[0x23]),
    ] {
        for table in small_tables().iter().chain([&table]) {
            each(&deep(wrapper, behind), table, How::EveryRoom);
        }
    }
}

/// The names of the ten types.
const NAMES: [&str; 10] = [
    "Any",
    "boolean",
    "number",
    "string",
    "date",
    "time",
    "date and time",
    "days and time duration",
    "years and months duration",
    "Null",
];

/// Arguments: what is the name of a type, or nearly.
pub fn type_names(options: &Options, each: &mut EachArgs) {
    let each: &mut Each = &mut |s| each(&[s], How::Judged);
    let bytes: Vec<u8> = (0..=255).collect();
    for length in 0..=options.length.min(2) {
        each_string(&bytes, length, each);
    }
    for name in NAMES {
        near_a_name(name, each);
    }
    // Every part of the names one behind the other, in two orders.
    let mut sorted = NAMES;
    sorted.sort();
    for letters in [NAMES.concat(), sorted.concat()] {
        for from in 0..letters.len() {
            for to in from + 1..=letters.len() {
                each(&letters.as_bytes()[from..to]);
            }
        }
    }
    for first in NAMES {
        for second in NAMES {
            for between in ["", " ", "\0", " and "] {
                each([first, between, second].concat().as_bytes());
            }
            // The beginning of one with the end of the other.
            for place in 0..=first.len().min(second.len()) {
                let [a, b] = [first.as_bytes(), second.as_bytes()];
                each(&[&a[..place], &b[place..]].concat());
                each(&[&a[..place], &b[b.len() - place..]].concat());
            }
        }
    }
    for other in [
        "any",
        "ANY",
        "null",
        "NULL",
        "Number",
        "list",
        "range",
        "context",
        "function",
        "list<Any>",
        "range<number>",
        "context<>",
        "function<>->Any",
        "Boolean",
        "dateTime",
        "date time",
        "date  and time",
        "date And time",
        "dayTimeDuration",
        "days and time",
        "years and months",
        "duration",
        "Irrelevant",
        "nuLl",
        "string\u{A0}",
        "\u{85}date",
        "tim\u{E9}",
        "\u{FEFF}time",
    ] {
        each(other.as_bytes());
    }
    // Lengths whose low byte or low word is that of a name.
    for name in NAMES {
        for more in [256, 65_536] {
            let mut s = name.as_bytes().to_vec();
            s.resize(name.len() + more, b' ');
            each(&s);
            each(&name.repeat(2 + more / name.len()).as_bytes()[..name.len() + more]);
        }
    }
    let mut random = Random::new(options.seed);
    for number in 0..options.pairs {
        let name = random.pick(&NAMES).as_bytes();
        let mut s = name.to_vec();
        for _ in 0..1 + random.below(3) {
            let place = random.below(s.len() + 1);
            match random.below(5) {
                0 => s.insert(place, random_letter(&mut random)),
                1 => s.insert(place, random.byte()),
                2 if place < s.len() => s[place] = random_letter(&mut random),
                3 if place < s.len() => s[place] ^= 1 << random.below(8),
                _ if place < s.len() => {
                    s.remove(place);
                }
                _ => {}
            }
        }
        each(&s);
        let length = match number % 64 {
            0 => random.below(20_000),
            1..16 => random.below(300),
            _ => random.pick(&NAMES).len(),
        };
        let letters = random.below(2) == 0;
        let s: Vec<u8> = (0..length)
            .map(|_| match letters {
                true => random_letter(&mut random),
                false => random.byte(),
            })
            .collect();
        each(&s);
    }
}

/// A letter of the names, or a space.
fn random_letter(random: &mut Random) -> u8 {
    random.pick(b"AabcdeghilmNnorstuvy ")
}

/// A name with one byte changed, added, removed or doubled, with two in the other order, cut, in
/// other cases, with blanks and other bytes around it.
fn near_a_name(name: &str, each: &mut Each) {
    let name = name.as_bytes();
    each(name);
    for place in 0..=name.len() {
        let (before, behind) = name.split_at(place);
        each(before);
        each(behind);
        for byte in 0..=255 {
            each(&[before, &[byte], behind].concat());
            if let [_, rest @ ..] = behind {
                each(&[before, &[byte], rest].concat());
            }
        }
        match behind {
            [] => {}
            [first, rest @ ..] => {
                each(&[before, rest].concat());
                each(&[before, &[first ^ 0x20], rest].concat());
                each(&[before, &[*first], behind].concat());
                if let [second, rest @ ..] = rest {
                    each(&[before, &[*second, *first], rest].concat());
                    each(&[before, rest].concat());
                }
            }
        }
    }
    each(&name.to_ascii_uppercase());
    each(&name.to_ascii_lowercase());
    let mut capital = name.to_ascii_lowercase();
    capital[0] = capital[0].to_ascii_uppercase();
    each(&capital);
    let around: [&[u8]; 9] = [
        b"",
        b" ",
        b"  ",
        b"\t",
        b"\r\n",
        b"\0",
        b"\"",
        b"\xC2\xA0",
        b"\xFF",
    ];
    for before in around {
        for behind in around {
            each(&[before, name, behind].concat());
        }
    }
}

/// What may be a part of a name.
const PARTS: [&[u8]; 22] = [
    b"",
    b" ",
    b"\t\n\x0B\x0C\r ",
    b"a",
    b"b c",
    b".",
    b"/",
    b"-",
    b"'",
    b"+",
    b"*",
    b" . ",
    b"\t*\r",
    b"..",
    b". .",
    b",",
    b"a ",
    b" a",
    b"\x00",
    b"\x1F",
    b"\x7F",
    b"-1",
];

/// Arguments: the parts of a name.
pub fn parts(options: &Options, each: &mut EachArgs) {
    let mut each = |parts: &[u8], how| each(&[parts], how);
    let bytes: Vec<u8> = (0..=255).collect();
    for length in 0..=options.length.min(2) {
        each_string(&bytes, length, &mut |parts| each(parts, How::Plain));
    }
    let alphabet = [0, 1, 2, 3, b' ', b'.', b'a', 0x7F, 0x80];
    for length in 0..=options.alphabet_length.min(5) {
        each_string(&alphabet, length, &mut |rest| {
            for count in 0..=3 {
                each(&[&[count], rest].concat(), How::Plain);
            }
        });
    }
    // Every row of some of the parts.
    let most = if is_quick(options) { 2 } else { 4 };
    let places: Vec<u8> = (0..PARTS.len() as u8).collect();
    for count in 0..=most {
        let how = if count < 3 {
            How::EveryRoom
        } else {
            How::Plain
        };
        each_string(&places, count, &mut |row| {
            let row: Vec<&[u8]> = row.iter().map(|place| PARTS[usize::from(*place)]).collect();
            each(&parts_of(&row).bytes, how);
        });
    }
    // Every byte alone, at both ends of a part, and inside.
    for byte in 0..=255 {
        for part in [
            vec![byte],
            vec![byte, byte],
            vec![byte, b'x'],
            vec![b'x', byte],
            vec![b'x', byte, b'x'],
            vec![b' ', byte, b'\t'],
            vec![b'.', byte],
        ] {
            let part = &part[..];
            for row in [
                &[part][..],
                &[b"a", part, b"b"],
                &[part, b"b"],
                &[b"a", part],
            ] {
                each(&parts_of(row).bytes, How::Plain);
            }
            each(&parts_of(&[b"+", part, b"", part]).bytes, How::Plain);
        }
    }
    many_parts(options, &mut each);
    let mut random = Random::new(options.seed);
    for number in 0..options.pairs {
        let draft = random_parts(&mut random);
        each(&draft.bytes, How::Plain);
        if number % 200 == 0 {
            each_damage(&draft, &mut random, &mut |bad| each(bad, How::Plain));
        }
    }
}

/// Many parts, and parts of about 16,384 bytes together.
fn many_parts(options: &Options, each: &mut dyn FnMut(&[u8], How)) {
    for part in PARTS {
        for count in [5, 6, 7, 127, 128, 253, 254, 255] {
            let draft = parts_of(&vec![part; count]);
            each(&draft.bytes, How::EveryRoom);
            for lie in [0, 1, count as u8 - 1, (count as u8).wrapping_add(1), 255] {
                let mut copy = draft.bytes.clone();
                copy[0] = lie;
                each(&copy, How::Plain);
            }
            for end in [0, 1, 2] {
                let mut copy = draft.bytes.clone();
                copy.resize(copy.len() + end, 0);
                each(&copy, How::Plain);
                copy.truncate(draft.bytes.len() - 1 - end);
                each(&copy, How::Plain);
            }
        }
        for other in PARTS {
            let row: Vec<&[u8]> = [part, other].into_iter().cycle().take(255).collect();
            each(&parts_of(&row).bytes, How::Plain);
        }
    }
    let mut random = Random::new(options.seed);
    for length in [MAX_LENGTH - 1, MAX_LENGTH, MAX_LENGTH + 1, MAX_LENGTH + 2] {
        for fill in [b' ', b'a', b'.', b'\t', 0x00] {
            // 63 parts of 255 bytes, and one that makes up the length.
            let mut row = vec![vec![fill; 255]; 63];
            row.push(vec![fill; length - 1 - 63 * 256 - 1]);
            let draft = parts_of(&row);
            each(&draft.bytes, How::EveryRoom);
            for place in [0, 1, 2, length / 2, length - 2, length - 1] {
                for mask in [0x01, 0x80] {
                    let mut copy = draft.bytes.clone();
                    copy[place] ^= mask;
                    each(&copy, How::Plain);
                }
            }
            // 255 parts, of which some are long.
            let mut row = vec![vec![fill; 63]; 254];
            row.push(vec![b'z'; length - 1 - 254 * 64 - 1]);
            each(&parts_of(&row).bytes, How::EveryRoom);
            if !is_quick(options) {
                let draft = Draft {
                    counts: draft.counts[..4].to_vec(),
                    ..draft
                };
                each_damage(&draft, &mut random, &mut |bad| each(bad, How::Plain));
            }
        }
    }
    for length in [65_536, 65_537, 65_538] {
        each(&vec![0; length], How::Plain);
        let mut copy = parts_of(&["a", "b"]).bytes;
        copy.resize(length, b'c');
        each(&copy, How::Plain);
    }
}

/// Random parts: words, marks, blanks, and what is around them.
fn random_parts(random: &mut Random) -> Draft {
    let count = match random.below(20) {
        0..16 => random.below(6),
        16..19 => random.below(30),
        _ => random.below(256),
    };
    let part = |random: &mut Random| match random.below(10) {
        0..4 => random.pick(&PARTS).to_vec(),
        4..7 => random_string(random.below(6), random),
        7 => {
            let mark = random.pick(b"./-'+*");
            let blank = |random: &mut Random| random.pick(&[&b""[..], b" ", b"\t", b"  ", b"\r\n"]);
            [blank(random), &[mark], blank(random)].concat()
        }
        8 => random_string(random.below(20), random),
        _ => {
            let most = if count < 50 { 256 } else { 40 };
            random_string(random.below(most), random)
        }
    };
    let row: Vec<Vec<u8>> = (0..count).map(|_| part(random)).collect();
    parts_of(&row)
}

/// Random bytes 00 to 7F, many of them blanks.
fn random_string(length: usize, random: &mut Random) -> Vec<u8> {
    let byte = |random: &mut Random| match random.below(4) {
        0 => random.pick(b" \t\n\x0B\x0C\r"),
        1 => random.pick(b"ab.*\x08\x0E\x1F\x21"),
        _ => random.byte() & 0x7F,
    };
    (0..length).map(|_| byte(random)).collect()
}

/// Arguments: a string with blanks at its ends.
pub fn strings(options: &Options, each: &mut EachArgs) {
    let mut each = |s: &[u8], how| each(&[s], how);
    let bytes: Vec<u8> = (0..=255).collect();
    for length in 0..=options.length.min(2) {
        each_string(&bytes, length, &mut |s| each(s, How::Judged));
    }
    let alphabet = [b'\t', b'\r', b' ', 0x08, 0x0E, b'a', 0xA0];
    for length in 0..=options.alphabet_length + 1 {
        each_string(&alphabet, length, &mut |s| each(s, How::Judged));
    }
    for length in 0..=2 * options.alphabet_length + 2 {
        each_string(b" a", length, &mut |s| each(s, How::Judged));
    }
    for byte in 0..=255 {
        for s in [
            vec![byte, b'a', byte],
            vec![b' ', byte, b' '],
            vec![b'a', byte, b'a'],
            vec![b'\n', byte, b'a', byte, b'\x0B'],
            vec![byte, b' ', byte],
            vec![b' ', b'\t', byte, byte, b'\x0C', b'\r'],
        ] {
            each(&s, How::EveryRoom);
        }
    }
    // Blanks of other alphabets are kept.
    for blank in ["\u{A0}", "\u{85}", "\u{2003}", "\u{3000}", "\u{FEFF}"] {
        for s in [
            format!("{blank}a{blank}"),
            format!(" {blank} "),
            blank.repeat(3),
        ] {
            each(s.as_bytes(), How::EveryRoom);
        }
    }
    for length in [
        254, 255, 256, 257, 1_000, 16_383, 16_384, 16_385, 65_535, 65_536, 65_537, 70_000,
    ] {
        for fill in [b' ', b'\t', b'a', 0xFF] {
            let mut s = vec![fill; length];
            each(&s, How::EveryRoom);
            for place in [0, 1, length / 2, length - 2, length - 1] {
                for byte in [b' ', b'x'] {
                    s[place] = byte;
                    each(&s, How::EveryRoom);
                    s[place] = fill;
                }
            }
        }
    }
    let mut random = Random::new(options.seed);
    for number in 0..options.pairs {
        let length = match number % 16 {
            0 => random.below(1_000),
            1..5 => random.below(60),
            _ => random.below(12),
        };
        let mut s = random_string(length, &mut random);
        if number % 3 == 0 && length > 0 {
            s[random.below(length)] = random.byte();
        }
        each(&s, How::Judged);
    }
}
