//! The groups of the calls over texts.

use crate::list::{Answer, Call, Case, Group, bytes};
use feel_cases::{
    Draft, Random, Tree, each_damage, long_texts, parts_of, random_texts, renamed, table_of,
};
use feel_form::MAX_LENGTH;

pub fn groups() -> Vec<Group> {
    let group = |call, words, args: Vec<Vec<Vec<u8>>>| {
        let case = |args| with_room(call, args, 0);
        Group::new(call, words, args.into_iter().map(case).collect())
    };
    let call = Call::Display;
    let mut groups = vec![
        group(call, "simple types", over(&SIMPLE, &[])),
        group(
            call,
            "lists, ranges and functions",
            over(&WITHOUT_NAMES, &[]),
        ),
        group(call, "contexts", over(&CONTEXTS, &["age", "first name"])),
        group(call, "texts of every kind", texts_of_every_kind()),
        group(call, "level 32", deep_types()),
        group(call, "random types", random_types()),
        Group::new(call, "output", outputs(call, type_outputs())),
        Group::new(call, "names not in the table", no_names()),
        group(call, "tables", tables()),
        group(call, "damaged tables", damaged_tables()),
        Group::new(call, "16,384 bytes", long_tables()),
        Group::new(call, "refusals in order", refused_types()),
    ];
    for call in [Call::FromStr, Call::IsBuiltInTypeName] {
        let group = |words, strings: Vec<Vec<u8>>| Group::of_records(call, words, strings);
        groups.extend([
            group("the ten names", NAMES.map(Vec::from).to_vec()),
            group("one byte changed, added or removed", near_names()),
            group("other cases and blanks", padded_names()),
            group("parts of names and two of them", parts_of_names()),
            group("other strings", other_strings()),
        ]);
    }
    let call = Call::NameNew;
    groups.extend([
        group(call, "words and marks", rows()),
        group(call, "blanks", blank_rows()),
        group(call, "bytes 00 to 7F", every_kind_of_byte()),
        group(call, "many parts", many_parts()),
        group(call, "random parts", random_parts()),
        Group::new(call, "output", outputs(call, row_outputs())),
        group(call, "refusals", bad_parts()),
        group(call, "damaged parts", damaged_parts()),
        Group::new(call, "16,384 bytes", long_parts()),
    ]);
    let call = Call::Trim;
    groups.extend([
        group(call, "blanks and letters", blanks_and_letters()),
        group(call, "bytes beside the blanks", beside_blanks()),
        group(call, "long strings", long_strings()),
        group(call, "random strings", random_strings()),
        Group::new(call, "output", outputs(call, string_outputs())),
    ]);
    groups
}

const SIMPLE: [&str; 10] = ["20", "21", "22", "23", "24", "25", "26", "27", "28", "29"];

const WITHOUT_NAMES: [&str; 11] = [
    "2A 22",
    "2B 24",
    "2B 2A 2A 29",
    "2C 0000",
    "2A 2C 0000",
    "2D 00 20",
    "2D 00 2A 20",
    "2D 01 22 23",
    "2D 02 22 23 21",
    "2D 03 2A 25 2D 00 28 27 2D 01 29 20",
    "2D 01 2D 01 2D 01 20 21 22 2B 23",
];

const CONTEXTS: [&str; 10] = [
    "2C 0100 0000 22",
    "2C 0100 0100 23",
    "2C 0200 0000 22 0100 23",
    "2C 0200 0000 2C 0200 0000 26 0100 2A 20 0100 2C 0000",
    "2A 2C 0100 0100 2D 01 29 20",
    "2B 2C 0200 0000 28 0100 27",
    "2D 01 2C 0100 0000 22 2C 0100 0100 23",
    "2D 02 2C 0100 0100 25 2C 0000 2C 0200 0000 21 0100 24",
    "2D 00 2C 0200 0000 29 0100 2D 00 2C 0100 0000 20",
    "2C 0100 0000 2C 0100 0100 2C 0100 0000 2C 0100 0100 22",
];

/// Each type beside the table.
fn over(types: &[&str], texts: &[&str]) -> Vec<Vec<Vec<u8>>> {
    let args = |t: &&str| vec![bytes(t), table(texts)];
    types.iter().map(args).collect()
}

fn table(texts: &[&str]) -> Vec<u8> {
    table_of(texts).bytes
}

/// An empty text, texts with what stands between the parts of a type, a long text, many texts.
fn texts_of_every_kind() -> Vec<Vec<Vec<u8>>> {
    let two = "2C 0200 0000 2A 22 0100 2D 01 20 23";
    let long = "x".repeat(255);
    let mut all = vec![];
    for texts in [
        ["", "a"],
        [":", "a: b"],
        ["!", "~"],
        ["<", ">"],
        [",", ", :"],
        [">->", "a: b, c: d"],
        ["Null", "context<a: number>"],
        ["A", "a"],
    ] {
        all.push(vec![bytes(two), table(&texts)]);
    }
    all.push(vec![bytes("2C 0100 0000 22"), table(&[&long])]);
    let numbers: Vec<String> = (0..257).map(|number| format!("{number:03}")).collect();
    let numbers = table_of(&numbers).bytes;
    for name in ["FF00", "0001"] {
        let t = bytes(&format!("2C 0100 {name} 22"));
        all.push(vec![t, numbers.clone()]);
    }
    all
}

fn deep_types() -> Vec<Vec<Vec<u8>>> {
    let wrapped =
        |before: &str, behind: &str| format!("{}22{}", before.repeat(31), behind.repeat(31));
    let types = [
        wrapped("2A", ""),
        wrapped("2D00", ""),
        wrapped("2D01", "23"),
        wrapped("2C01000100", ""),
    ];
    let types = types.each_ref().map(String::as_str);
    over(&types, &["a", "b"])
}

fn random_types() -> Vec<Vec<Vec<u8>>> {
    let mut random = Random::new(45);
    let mut all = vec![];
    while all.len() < 8 {
        let texts = random_texts(&mut random);
        let table = table_of(&texts).bytes;
        let tree = Tree::random(5, 3 + random.below(10), &mut random);
        let t = renamed(&tree, texts.len(), &mut random).bytes();
        let is_context = t.windows(2).any(|two| two[0] == 0x2C && two[1] > 0);
        if (8..=60).contains(&t.len()) && (6..=60).contains(&table.len()) && is_context {
            all.push(vec![t, table]);
        }
    }
    all
}

fn type_outputs() -> Vec<Vec<Vec<u8>>> {
    let mut all = over(&["24", "2C 0000"], &[]);
    all.extend(over(&["2C 0200 0000 22 0100 23"], &["", "b"]));
    all
}

/// At the end of the table and past it, with no room and with much, in turn.
fn no_names() -> Vec<Case> {
    let table = table(&["a", "b"]);
    let types = [
        "2C 0100 0100 22",
        "2C 0100 0200 22",
        "2C 0100 0200 22",
        "2C 0100 0001 22",
        "2C 0200 0000 22 FFFF 22",
        "2D 01 2C 0100 0200 22 20",
        "2D 00 2A 2B 2C 0100 0300 22",
        "2C 0100 0000 2C 0100 0200 22",
    ];
    let case = |(place, t): (usize, &&str)| Case {
        args: vec![bytes(t), table.clone()],
        lent: vec![if place % 2 == 0 { 60 } else { 0 }],
    };
    types.iter().enumerate().map(case).collect()
}

/// Tables that are none, beside some that are.
fn tables() -> Vec<Vec<Vec<u8>>> {
    [
        "",
        "00",
        "0000",
        "0000 00",
        "0100",
        "0100 00",
        "0100 01 61",
        "0100 02 61",
        "0100 01 61 00",
        "0200 01 61",
        "0000 01 61",
        "0100 01 20",
        "0100 02 20 61",
        "0100 02 61 20",
        "0100 03 61 20 62",
        "0100 01 1F",
        "0100 03 61 1F 62",
        "0100 01 7E",
        "0100 01 7F",
        "0100 03 61 80 62",
        "0200 01 61 01 61",
        "0200 01 62 01 61",
        "0200 02 61 62 01 61",
        "0200 01 61 02 61 62",
        "0200 00 00",
        "0200 01 61 00",
        "0300 01 61 01 63 01 62",
    ]
    .map(|table| vec![bytes("22"), bytes(table)])
    .to_vec()
}

fn damaged_tables() -> Vec<Vec<Vec<u8>>> {
    let table = table_of(&["", "a: b", "c"]);
    let args = |table| vec![bytes("2C 0200 0000 22 0200 23"), table];
    damaged(&table, 6).into_iter().map(args).collect()
}

/// Some damaged copies.
fn damaged(draft: &Draft, count: usize) -> Vec<Vec<u8>> {
    let mut random = Random::new(1);
    let mut copies = vec![];
    each_damage(draft, &mut random, &mut |copy| copies.push(copy.to_vec()));
    (0..count)
        .map(|_| copies[random.below(copies.len())].clone())
        .collect()
}

fn long_tables() -> Vec<Case> {
    let case = |length| Case {
        args: vec![bytes("22"), table_of(&long_texts(length)).bytes],
        lent: vec![6],
    };
    vec![case(MAX_LENGTH), case(MAX_LENGTH + 1)]
}

/// The type is read, then the table; then come the names and the output.
fn refused_types() -> Vec<Case> {
    let too_deep = "2A".repeat(32) + "22";
    let mut cases = vec![];
    for (t, table) in [
        ("", "0000"),
        ("", ""),
        ("2E", "0000"),
        ("2A", "00"),
        ("2C 0200 0100 20 0100 20", "0100"),
        (&too_deep, "0000 00"),
        ("22 22", "0000"),
        ("22 22", ""),
        ("2C 0100 0000 22", "0000 00"),
        ("2C 0100 0000 22", "0000"),
        ("2C 0100 0000 22", "0100 00"),
    ] {
        cases.push(Case {
            args: vec![bytes(t), bytes(table)],
            lent: vec![0],
        });
    }
    cases
}

/// The names of the ten types.
const NAMES: [&str; 10] = [
    "Any",
    "boolean",
    "number",
    "string",
    "date",
    "time",
    "date and time",
    "days and time duration",
    "years and months duration",
    "Null",
];

fn near_names() -> Vec<Vec<u8>> {
    let mut all = vec![];
    for (place, name) in NAMES.into_iter().enumerate() {
        let name = name.as_bytes();
        let at = [0, name.len() / 2, name.len() - 1][place % 3];
        let mut changed = name.to_vec();
        changed[at] = changed[at].wrapping_add(1);
        let mut removed = name.to_vec();
        removed.remove(name.len() - 1 - at);
        let mut added = name.to_vec();
        added.insert(at, name[at]);
        all.extend([changed, removed, added]);
    }
    all
}

fn padded_names() -> Vec<Vec<u8>> {
    [
        "any",
        "ANY",
        "Boolean",
        "NUMBER",
        "String",
        "dAte",
        "timE",
        "Date and time",
        "date And time",
        "null",
        "nULL",
        " Any",
        "Any ",
        "\tdate",
        "time\n",
        " number ",
        "string\0",
        "\0Null",
        "date  and time",
        "date\tand time",
        "date and time ",
        "days and time duration.",
    ]
    .map(Vec::from)
    .to_vec()
}

fn parts_of_names() -> Vec<Vec<u8>> {
    [
        "",
        "A",
        "An",
        "dat",
        "ate",
        "date ",
        "date and ",
        " and time",
        "and",
        "days",
        "time duration",
        "years and months",
        "duration",
        "AnyAny",
        "datetime",
        "datedate and time",
        "numberstring",
        "NullAny",
        "yboolean",
        "durationNull",
        "days and months duration",
        "years and time duration",
    ]
    .map(Vec::from)
    .to_vec()
}

fn other_strings() -> Vec<Vec<u8>> {
    let mut all = [
        "list",
        "list<Any>",
        "range<date>",
        "context<>",
        "function<>->Any",
        "dateTime",
        "dayTimeDuration",
        "date and time\u{A0}",
        "tim\u{E9}",
        "\u{FEFF}time",
    ]
    .map(Vec::from)
    .to_vec();
    all.extend([vec![0], vec![0x20], vec![0xFF; 4], b"dat\xE5".to_vec()]);
    // Lengths whose low byte is that of a name.
    let mut long = b"date".to_vec();
    long.resize(260, b' ');
    all.push(long);
    all.push(b"Null".repeat(65));
    all
}

fn row(parts: &[&str]) -> Vec<Vec<u8>> {
    vec![parts_of(parts).bytes]
}

fn rows() -> Vec<Vec<Vec<u8>>> {
    let rows: [&[&str]; 20] = [
        &[],
        &[""],
        &["a"],
        &["", "b"],
        &["first", "name"],
        &["a", "", "b"],
        &["", "", ""],
        &["a", ".", "b"],
        &["a", "/", "b", "-", "c"],
        &["a", "'", "s"],
        &["a", "+", "-", "b", "c"],
        &["*", "a"],
        &["a", "*"],
        &["."],
        &[".", "", "b"],
        &["a", "..", "b"],
        &["a", "b.c", "d"],
        &["-1", "+", "2"],
        &["a", ",", "b"],
        &[".", "/", "-", "'", "+", "*"],
    ];
    rows.map(row).to_vec()
}

fn blank_rows() -> Vec<Vec<Vec<u8>>> {
    let rows: [&[&str]; 10] = [
        &[" "],
        &["a", "  ", "b"],
        &[" a b\t", "\r\n* ", "\u{B}c"],
        &["\t\n\u{B}\u{C}\r ", "a"],
        &[" . ", "a"],
        &["a", " ' ", "b"],
        &[". .", "a"],
        &["a ", " b"],
        &["", " ", "b", " "],
        &["+", " ", "b"],
    ];
    rows.map(row).to_vec()
}

fn every_kind_of_byte() -> Vec<Vec<Vec<u8>>> {
    let rows: [&[&str]; 8] = [
        &["a", "\0", "\u{1F}"],
        &["\u{8}", "\u{E}"],
        &["\u{8}\t", "\r\u{E}"],
        &["\u{7F}", "\u{7F}"],
        &["!", "~"],
        &["(", ")", ",", "0"],
        &["\u{1C}a", "\u{1F}"],
        &["a\0b", "c\nd"],
    ];
    rows.map(row).to_vec()
}

fn many_parts() -> Vec<Vec<Vec<u8>>> {
    vec![
        row(&vec!["a"; 255]),
        row(&vec![""; 255]),
        row(&["a", "+"].repeat(20)),
        row(&[&"w".repeat(255), &" ".repeat(255), "b"]),
    ]
}

fn random_parts() -> Vec<Vec<Vec<u8>>> {
    let mut random = Random::new(48);
    let pool = [
        "", " ", "a", "b c", ".", "-", " *", "'\t", "word", "\0", " x",
    ];
    (0..14)
        .map(|_| {
            let count = 2 + random.below(6);
            let parts: Vec<&str> = (0..count).map(|_| random.pick(&pool)).collect();
            row(&parts)
        })
        .collect()
}

fn row_outputs() -> Vec<Vec<Vec<u8>>> {
    vec![
        row(&["a"]),
        row(&["", "b"]),
        row(&[" a ", "+", " b ", "c "]),
    ]
}

fn bad_parts() -> Vec<Vec<Vec<u8>>> {
    [
        "",
        "01",
        "FF",
        "00 00",
        "01 01",
        "01 01 61 00",
        "02 01 61",
        "02 01 61 02 62",
        "01 00 61",
        "01 01 80",
        "01 02 61 FF",
        "02 00 01 A0",
        "03 01 61 01 2E",
        "01 03 C2 A0 61",
    ]
    .map(|parts| vec![bytes(parts)])
    .to_vec()
}

fn damaged_parts() -> Vec<Vec<Vec<u8>>> {
    let draft = parts_of(&["a", " . ", "", "bc"]);
    damaged(&draft, 10)
        .into_iter()
        .map(|parts| vec![parts])
        .collect()
}

/// 64 parts of blanks; one byte too much, with no room.
fn long_parts() -> Vec<Case> {
    let case = |length: usize| {
        let mut parts = vec![vec![b' '; 255]; 63];
        parts.push(vec![b' '; length - 63 * 256 - 2]);
        Case {
            args: vec![parts_of(&parts).bytes],
            lent: vec![0],
        }
    };
    vec![case(MAX_LENGTH), case(MAX_LENGTH + 1)]
}

fn blanks_and_letters() -> Vec<Vec<Vec<u8>>> {
    [
        "",
        " ",
        "\t",
        "   ",
        "\t\n\u{B}\u{C}\r ",
        "a",
        " a",
        "a ",
        " a ",
        "a b",
        " a b ",
        "  a  b  ",
        "\ta",
        "a\n",
        "\u{B}a\u{C}",
        "\r\na\r\n",
        "a\t\tb",
        " \t a b \n",
        "first name",
        "  first name",
        "first name\t",
        "a b ",
        " . ",
        "ab  ",
    ]
    .map(|s| vec![s.into()])
    .to_vec()
}

fn beside_blanks() -> Vec<Vec<Vec<u8>>> {
    let mut all = vec![];
    for byte in [
        0x00, 0x08, 0x09, 0x0A, 0x0B, 0x0C, 0x0D, 0x0E, 0x1F, 0x20, 0x21, 0x7F, 0x80, 0x85, 0xA0,
        0xFF,
    ] {
        all.push(vec![vec![byte, b'a', byte]]);
    }
    for blank in ["\u{A0}", "\u{85}", "\u{2003}"] {
        all.push(vec![format!(" {blank}a{blank} ").into()]);
    }
    all
}

fn long_strings() -> Vec<Vec<Vec<u8>>> {
    let blanks = |length| " ".repeat(length);
    [
        blanks(256),
        format!("{}a", blanks(255)),
        format!("a{}", blanks(255)),
        format!("{}a{}", blanks(128), blanks(128)),
        format!(" {} ", "b".repeat(257)),
    ]
    .map(|s| vec![s.into()])
    .to_vec()
}

fn random_strings() -> Vec<Vec<Vec<u8>>> {
    let mut random = Random::new(49);
    let string = |random: &mut Random| -> Vec<u8> {
        let length = 3 + random.below(10);
        let byte = |random: &mut Random| match random.below(3) {
            0 => random.byte(),
            _ => random.pick(b" \t\n\x0B\x0C\r\x08\x0Ea"),
        };
        (0..length).map(|_| byte(random)).collect()
    };
    (0..16).map(|_| vec![string(&mut random)]).collect()
}

fn string_outputs() -> Vec<Vec<Vec<u8>>> {
    ["a", " a b ", "\t\t\tabc"].map(|s| vec![s.into()]).to_vec()
}

/// The output one less than its need, one more, none and much; the other cases have it at its need.
fn outputs(call: Call, args: Vec<Vec<Vec<u8>>>) -> Vec<Case> {
    let mut cases = vec![];
    for args in args {
        let need = with_room(call, args.clone(), 0).lent[0] as isize;
        for room in [-need, -1, 1, 30] {
            cases.push(with_room(call, args.clone(), room));
        }
    }
    cases
}

/// A case with so much more or less output than is wanted; where there is no answer, as much as the
/// arguments have.
fn with_room(call: Call, args: Vec<Vec<u8>>, room: isize) -> Case {
    let ample = Case {
        args,
        lent: vec![1_000_000],
    };
    let need = match call.answer(&ample) {
        Answer::Bytes(answer) => answer.len(),
        _ => ample.args.concat().len(),
    };
    Case {
        lent: vec![need.checked_add_signed(room).expect("a length")],
        ..ample
    }
}
