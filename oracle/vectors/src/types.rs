//! The groups of `check_type`.

use crate::list::{Call, Group, all, bytes};
use crate::shared::{
    at_levels, beginnings, changed, each_byte_changed, each_byte_dropped_or_doubled, framed,
    random_records,
};
use feel_cases::{Kind, TYPE_IN_TYPE, long_records};
use feel_form::{MAX_LENGTH, MAX_TYPE_LEVEL};

/// A context with a list, a context, a function and a range.
const RECORD: &str = "2C 0400  0100 2A 22  FF00 2C 0200 0500 21 0700 2A 29
    0001 2D 02 23 2D 00 24 2C 0000  FFFF 2B 28";

/// Faults of a type, each as it would stand alone.
const FAULTS: [&str; 6] = [
    "FF",
    "0F",
    "2E",
    "1F",
    "2C 0200 0500 20 0500 20",
    "2C 0200 0001 20 FF00 20",
];

pub fn groups() -> Vec<Group> {
    let group = |words, cases| Group::of_records(Call::CheckType, words, cases);
    let record = bytes(RECORD);
    let last = record.len() - 1;
    let faults = all(&FAULTS);
    let first_child = framed(
        &[("2A", ""), ("2C 0200 0100", "0200 20"), ("2D 02", "20 20")],
        &faults,
    );
    let last_child = framed(
        &[
            ("2B", ""),
            ("2C 0200 0100 20 0200", ""),
            ("2D 02 20 20", ""),
        ],
        &faults,
    );
    let deep = framed(&[(&"2A 2D 01 ".repeat(10), &"20 ".repeat(10))], &faults);
    vec![
        group("commands", commands()),
        group("first byte", first_bytes()),
        group("length", lengths()),
        group("ends inside", beginnings(&record)),
        group("names", names()),
        group("fault in the first child", first_child),
        group("fault in the last child", last_child),
        group("fault deep inside", deep),
        group("level", levels()),
        group("nothing there, then level, then command", level_order()),
        group("name before child", name_order()),
        group("bytes left over and counts", counts()),
        group(
            "last byte changed",
            changed(&record, last, (0x00..0x02).chain(0x1E..0x30).chain([0xFF])),
        ),
        group(
            "one byte changed, dropped or doubled",
            [
                each_byte_changed(&record),
                each_byte_dropped_or_doubled(&record),
            ]
            .concat(),
        ),
        group("random records", random_records(Kind::Type, 30, 12)),
    ]
}

fn commands() -> Vec<Vec<u8>> {
    all(&[
        "20",
        "21",
        "22",
        "23",
        "24",
        "25",
        "26",
        "27",
        "28",
        "29",
        "2A 20",
        "2A 22",
        "2A 29",
        "2B 24",
        "2B 2A 25",
        "2A 2B 2A 26",
        "2C 0000",
        "2C 0100 0000 20",
        "2C 0100 FFFF 27",
        "2C 0200 0100 22 0200 23",
        "2C 0100 0500 2C 0100 0500 2C 0000",
        "2D 00 22",
        "2D 00 2D 00 23",
        "2D 01 22 20",
        "2D 01 29 20",
        "2D 02 22 23 21",
        "2D 01 2D 01 22 23 2A 24",
        "2D 03 2C 0000 2C 0100 0100 20 2A 21 2B 28",
    ])
}

fn first_bytes() -> Vec<Vec<u8>> {
    let bytes = (0x00..=0x30).chain([0x40, 0x7F, 0x80, 0xFE, 0xFF]);
    bytes
        .flat_map(|byte| [vec![byte], vec![byte, 0, 0x20]])
        .collect()
}

fn lengths() -> Vec<Vec<u8>> {
    vec![
        vec![],
        vec![0x20],
        long_records(Kind::Type, MAX_LENGTH).swap_remove(0),
        long_records(Kind::Type, MAX_LENGTH + 1).swap_remove(3),
    ]
}

fn names() -> Vec<Vec<u8>> {
    all(&[
        "2C 0200 0100 20 0200 20",
        "2C 0200 0200 20 0100 20",
        "2C 0200 0100 20 0100 20",
        "2C 0200 0000 20 0000 20",
        "2C 0200 FF00 20 0001 20",
        "2C 0200 0001 20 FF00 20",
        "2C 0200 0102 20 0201 20",
        "2C 0200 0201 20 0102 20",
        "2C 0200 FEFF 20 FFFF 20",
        "2C 0200 FFFF 20 0000 20",
        "2C 0200 FFFF 20 FFFF 20",
        "2C 0200 FF7F 20 0080 20",
        "2C 0200 0080 20 FF7F 20",
        "2C 0300 0100 20 0200 20 0200 20",
        "2C 0300 0100 20 0300 20 0200 20",
        "2C 0300 0100 20 0100 20 0200 20",
        "2C 0200 0500 2C 0100 0300 20 0600 20",
        "2C 0200 0500 2C 0100 0900 20 0600 20",
        "2C 0200 0500 2C 0100 0900 20 0500 20",
        "2C 0200 0500 2C 0200 0300 20 0200 20 0600 20",
        "2D 01 2C 0100 0500 20 2C 0100 0100 20",
        "2D 01 2C 0100 0500 20 2C 0200 0100 20 0000 20",
        "2D 01 2C 0200 0500 20 0400 20 20",
    ])
}

const LEVELS: [usize; 2] = [MAX_TYPE_LEVEL, MAX_TYPE_LEVEL + 1];

fn levels() -> Vec<Vec<u8>> {
    let mut cases = vec![];
    for wrapper in TYPE_IN_TYPE {
        let endings: [&[u8]; 3] = [&[0x20], &[0x2C, 0, 0], &[0xFF]];
        cases.extend(at_levels(&[], wrapper, &LEVELS, &endings));
    }
    let list = TYPE_IN_TYPE[0];
    cases.extend(at_levels(&[], list, &[2, 3, 10, 31, 34], &[&[0x29]]));
    cases
}

fn level_order() -> Vec<Vec<u8>> {
    let lists = "2A ".repeat(30);
    let below = [
        "2A",
        "2A FF",
        "2A 0F",
        "2A 20",
        "2A 2A",
        "2A 2A 20",
        "2A 2A FF",
        "2A 2A 20 20",
        "2A 2C",
        "2A 2C 00",
        "2A 2C 0000",
        "2A 2C 0100",
        "2A 2C 0100 0100",
        "2A 2C 0100 0100 20",
        "2A 2D",
        "2A 2D 00",
        "2A 2D 00 20",
        "2A 2D 00 FF",
        "2A 2D 01 FF 20",
        "2D 02 20 FF 20",
        "2D 02 20 2A 20 FF",
        "2D 02 FF 2A 2A 20 20",
        "2D 02 2A 2A 20 FF 20",
        "FF",
        "20",
        "2E",
    ];
    below
        .iter()
        .map(|end| bytes(&format!("{lists}{end}")))
        .collect()
}

fn name_order() -> Vec<Vec<u8>> {
    let mut cases = all(&[
        "2C 0200 0100 20 0100 FF",
        "2C 0200 0100 20 0100",
        "2C 0200 0100 20 0100 2C",
        "2C 0200 0100 20 01",
        "2C 0200 0100 20",
        "2C 0200 0100 FF 0100 20",
        "2C 0200 0100",
        "2C 0200 01",
        "2C 0100 0100 20 0100 20",
        "2C 0200 0200 2C 0200 0100 20 0100 20 0100 20",
    ]);
    let lists = "2A ".repeat(31);
    for end in [
        "2C 0200 0100 20 0100 20",
        "2C 0100 0100 20",
        "2C 0100 0100",
        "2C 0100 01",
        "2C 0000",
    ] {
        cases.push(bytes(&format!("{lists}{end}")));
        cases.push(bytes(&format!("{}{end}", &lists[3..])));
    }
    cases
}

fn counts() -> Vec<Vec<u8>> {
    let mut cases = all(&[
        "20 20",
        "29 00",
        "22 FF",
        "2A 20 20",
        "2B 20 FF",
        "2C 0000 20",
        "2C 0000 0100 20",
        "2C 0100 0100 20 0200 20",
        "2C 0300 0100 20 0200 20",
        "2C 0001 0100 20",
        "2C FFFF 0100 20 0200 20",
        "2C 0100",
        "2D 00 20 20",
        "2D 01 20 20 20",
        "2D 02 20 20",
        "2D FF 20 20",
        "2D 00",
        "2D 01 20",
        "2C 0100 0100 2D 00 20 20",
        "2C 0200 0100 2D 01 20 20 0200 20",
        "2C 0200 0100 2D 02 20 20 0200 20",
    ]);
    for types in [255, 256, 257] {
        cases.push([vec![0x2D, 0xFF], vec![0x21; types]].concat());
    }
    cases.push([bytes(RECORD), vec![0x20]].concat());
    cases.push(bytes(&format!("{}20 20", "2A ".repeat(31))));
    cases.push(bytes(&format!("{}20 20", "2A ".repeat(32))));
    cases
}
