//! The groups of `check_value`.

use crate::list::{Call, Group, all, bytes};
use crate::shared::{
    at_levels, beginnings, changed, each_byte_changed, each_byte_dropped_or_doubled, framed,
    random_records,
};
use feel_cases::{Kind, TYPE_IN_TYPE, TYPE_IN_VALUE, VALUE_IN_VALUE, long_records};
use feel_form::{MAX_LENGTH, MAX_VALUE_LEVEL};

/// A context with a range, a list, a function definition and a type value.
const RECORD: &str = "0B 0400  0100 09 02 00 03 0100 00 00  FF00 0A 0200 01 01 0D 43
    0001 0C 02 3412 2A 22 0700 2C 0100 0300 23 0700 20  FFFF 0E 2D 01 24 2B 25";

/// Faults of a value, each as it would stand alone.
const FAULTS: [&str; 10] = [
    "FF",
    "22",
    "00 04",
    "01 02",
    "09 00 04 0F 0F",
    "0D 56",
    "0B 0200 0500 0F 0500 0F",
    "0B 0200 0001 0F FF00 0F",
    "0E 0F",
    "0E 2C 0200 0500 20 0400 20",
];

pub fn groups() -> Vec<Group> {
    let group = |words, cases| Group::of_records(Call::CheckValue, words, cases);
    let record = bytes(RECORD);
    let last = record.len() - 1;
    let faults = all(&FAULTS);
    vec![
        group("leaves", leaves()),
        group("decimals", decimals()),
        group("parents", parents()),
        group("each type inside", types_inside()),
        group("unknown first byte", unknown_first()),
        group("operand outside its list", operands()),
        group("length", lengths()),
        group(
            "ends inside",
            [ends_of_leaves(), beginnings(&record)].concat(),
        ),
        group("names", names()),
        group("names of parameters", names_of_parameters()),
        group("fault at the root", faults.clone()),
        group(
            "fault in the first child",
            framed(
                &[
                    ("0A 0300", "0F 0F"),
                    ("0B 0200 0100", "0200 0F"),
                    ("09 00 00", "00 00"),
                ],
                &faults,
            ),
        ),
        group(
            "fault in the last child",
            framed(
                &[
                    ("0A 0300 0F 00 01", ""),
                    ("0B 0200 0100 0F 0200", ""),
                    ("09 02 02 03 0100", ""),
                ],
                &faults,
            ),
        ),
        group(
            "fault deep inside",
            framed(
                &[(&"0A 0200 0F 09 01 02 ".repeat(8), &"0F ".repeat(8))],
                &faults,
            ),
        ),
        group("fault in a type inside", faults_in_types()),
        group("level by values", levels_by_values()),
        group("level by types inside", levels_by_types()),
        group("nothing there, then level, then command", level_order()),
        group("name before child", name_order()),
        group("first of two faults", first_of_two()),
        group("bytes left over", left_over()),
        group("counts", counts()),
        group("first byte changed", changed(&record, 0, 0x00..0x30)),
        group(
            "last byte changed",
            changed(&record, last, (0x00..0x02).chain(0x1E..0x30).chain([0xFF])),
        ),
        group(
            "one byte changed, dropped or doubled",
            [
                each_byte_changed(&record),
                each_byte_dropped_or_doubled(&record),
            ]
            .concat(),
        ),
        group("random records", random_records(Kind::Value, 40, 11)),
    ]
}

fn leaves() -> Vec<Vec<u8>> {
    let mut cases = all(&[
        "00 00", "00 01", "00 02", "00 03", "01 00", "01 01", "03 0000", "03 2A00", "03 FF00",
        "03 0001", "03 FFFF", "0A 0000", "0B 0000", "0D 00", "0D 01", "0D 43", "0D 54", "0D 55",
        "0F",
    ]);
    for command in [0x02, 0x04, 0x05, 0x06, 0x07, 0x08] {
        for key in [0, 1, -1, i64::MIN, i64::MAX] {
            cases.push([&[command], &i64::to_le_bytes(key)[..]].concat());
        }
    }
    cases
}

/// Every sort of coefficient and exponent, exponents over 18, and decimals inside.
fn decimals() -> Vec<Vec<u8>> {
    let mut cases = all(&[
        "10 1900000000000000 01",
        "10 FA00000000000000 02",
        "10 B5FFFFFFFFFFFFFF 02",
        "10 0500000000000000 00",
        "10 FFFFFFFFFFFFFF7F 12",
        "10 0000000000000080 12",
        "10 1900000000000000 13",
        "10 0000000000000000 14",
        "10 1900000000000000 80",
        "10 1900000000000000 FF",
        "10 1900000000000000 01 00",
        "0A 0200 10 1900000000000000 01 02 0300000000000000",
        "0A 0200 10 1900000000000000 01 10 1900000000000000 13",
        "0B 0200 0100 10 1900000000000000 13 0100 0F",
        "09 02 02 10 1900000000000000 01 10 FA00000000000000 02",
    ]);
    for lists in [30, 31] {
        let lists = "0A 0100 ".repeat(lists);
        cases.push(bytes(&format!("{lists}10 1900000000000000 01")));
        cases.push(bytes(&format!("{lists}10 1900000000000000 13")));
    }
    cases
}

fn parents() -> Vec<Vec<u8>> {
    let mut cases = all(&[
        "0A 0100 0F",
        "0A 0200 01 00 01 01",
        "0A 0300 0A 0000 0A 0100 0F 0F",
        "0B 0100 0000 0F",
        "0B 0100 FFFF 0F",
        "0B 0200 0500 02 0100000000000000 0700 01 01",
        "0B 0200 FF00 0B 0100 0100 0F 0001 0A 0000",
        "0C 00 0000 20",
        "0C 00 FFFF 29",
        "0C 01 0100 22 0500 23",
        "0C 03 0100 2A 22 0500 23 0600 2B 24 0700 2D 00 20",
        "0E 20",
        "0E 2A 2A 22",
        "09 02 02 02 0100000000000000 02 0200000000000000",
        "09 00 00 0A 0100 0A 0100 0F 0B 0000",
    ]);
    for start in 0..4 {
        for end in 0..4 {
            cases.push(vec![0x09, start, end, 0x0F, 0x00, 0x00]);
        }
    }
    cases
}

fn types_inside() -> Vec<Vec<u8>> {
    let frames = [
        ("0E", ""),
        ("0C 00 0000", ""),
        ("0C 01 0100 20 0500", ""),
        ("0A 0200 0E", "0F"),
    ];
    let types = all(&[
        "20",
        "21",
        "22",
        "23",
        "24",
        "25",
        "26",
        "27",
        "28",
        "29",
        "2A 22",
        "2B 24",
        "2C 0000",
        "2C 0100 0500 22",
        "2D 00 22",
        "2D 01 22 23",
    ]);
    framed(&frames, &types)
}

fn unknown_first() -> Vec<Vec<u8>> {
    let bytes = (0x11..=0x2F).chain([0x30, 0x40, 0x7F, 0x80, 0xFE, 0xFF]);
    bytes
        .flat_map(|byte| [vec![byte], vec![byte, 0, 0]])
        .collect()
}

fn operands() -> Vec<Vec<u8>> {
    all(&[
        "00 04",
        "00 05",
        "00 80",
        "00 FF",
        "01 02",
        "01 03",
        "01 80",
        "01 FF",
        "0D 56",
        "0D 57",
        "0D 80",
        "0D FF",
        "09 04 00 0F 0F",
        "09 00 04 0F 0F",
        "09 03 05 0F 0F",
        "09 FF 00 0F 0F",
        "09 00 FF 0F 0F",
        "09 80 80 0F 0F",
        "09 05",
        "09 05 00",
        "09 00 05",
    ])
}

fn lengths() -> Vec<Vec<u8>> {
    vec![
        vec![],
        vec![0x0F],
        long_records(Kind::Value, MAX_LENGTH).swap_remove(0),
        long_records(Kind::Value, MAX_LENGTH + 1).swap_remove(6),
    ]
}

fn ends_of_leaves() -> Vec<Vec<u8>> {
    let mut cases = all(&["00", "01", "03", "03 01", "0D"]);
    for command in [0x02, 0x04, 0x05, 0x06, 0x07, 0x08] {
        for length in [1, 2, 8] {
            cases.push([&[command], &[0x01; 8][..length - 1]].concat());
        }
    }
    for length in [1, 2, 9] {
        cases.push([&[0x10], &[0x01; 8][..length - 1]].concat());
    }
    cases
}

fn names() -> Vec<Vec<u8>> {
    all(&[
        "0B 0200 0100 0F 0200 0F",
        "0B 0200 0200 0F 0100 0F",
        "0B 0200 0100 0F 0100 0F",
        "0B 0200 0000 0F 0000 0F",
        "0B 0200 FF00 0F 0001 0F",
        "0B 0200 0001 0F FF00 0F",
        "0B 0200 0102 0F 0201 0F",
        "0B 0200 0201 0F 0102 0F",
        "0B 0200 FEFF 0F FFFF 0F",
        "0B 0200 FFFF 0F 0000 0F",
        "0B 0200 FFFF 0F FFFF 0F",
        "0B 0200 FF7F 0F 0080 0F",
        "0B 0200 0080 0F FF7F 0F",
        "0B 0300 0100 0F 0200 0F 0200 0F",
        "0B 0300 0100 0F 0300 0F 0200 0F",
        "0B 0300 0100 0F 0100 0F 0200 0F",
        "0B 0200 0500 0B 0100 0300 0F 0600 0F",
        "0B 0200 0500 0B 0100 0900 0F 0600 0F",
        "0B 0200 0500 0B 0100 0900 0F 0500 0F",
        "0B 0200 0500 0B 0200 0300 0F 0200 0F 0600 0F",
        "0A 0200 0B 0100 0500 0F 0B 0100 0100 0F",
        "0E 2C 0200 0100 20 0200 20",
        "0E 2C 0200 0200 20 0200 20",
        "0B 0200 0500 0E 2C 0200 0900 20 0800 20 0600 0F",
    ])
}

fn names_of_parameters() -> Vec<Vec<u8>> {
    all(&[
        "0C 02 0000 20 0100 22 0200 23",
        "0C 02 0000 20 0200 22 0100 23",
        "0C 02 0000 20 0100 22 0100 23",
        "0C 03 0000 20 FFFF 22 0000 23 FFFF 24",
        "0C 01 0000 20 0100 2C 0200 0100 20 0100 20",
        "0C 01 0000 2C 0200 0100 20 0100 20 0100 20",
        "0C 02 0000 20 0200 2C 0100 0100 20 0100 2C 0100 0100 20",
        "0C 01 0000 20 01",
        "0C 01 0000 20 0100",
        "0C 02 0000 20 0100 22 01",
    ])
}

fn faults_in_types() -> Vec<Vec<u8>> {
    let frames = [
        ("0E", ""),
        ("0E 2A 2B", ""),
        ("0C 00 0000", ""),
        ("0C 01 0000", "0100 20"),
        ("0C 02 0000 20 0100", "0200 20"),
        ("0C 02 0000 20 0200 20 0100", ""),
        ("0A 0200 0F 0E 2D 01", "20"),
        ("0B 0100 0100 0E 2D 01 22", ""),
    ];
    framed(
        &frames,
        &all(&[
            "FF",
            "0F",
            "2E",
            "2C 0200 0500 20 0500 20",
            "2C 0200 0500 0F 0500 20",
            "2A 1F",
        ]),
    )
}

const LEVELS: [usize; 2] = [MAX_VALUE_LEVEL, MAX_VALUE_LEVEL + 1];

fn levels_by_values() -> Vec<Vec<u8>> {
    let mut cases = vec![];
    for wrapper in VALUE_IN_VALUE {
        let endings: [&[u8]; 3] = [&[0x0F], &[0x0A, 0, 0], &[0xFF]];
        cases.extend(at_levels(&[], wrapper, &LEVELS, &endings));
    }
    let list = VALUE_IN_VALUE[0];
    cases.extend(at_levels(&[], list, &[2, 3, 10, 30, 33], &[&[0x0F]]));
    cases
}

fn levels_by_types() -> Vec<Vec<u8>> {
    let mut cases = vec![];
    for bridge in TYPE_IN_VALUE {
        for values in [0, 14, 29] {
            let mut start = vec![VALUE_IN_VALUE[0]; values];
            start.push(bridge);
            let endings: [&[u8]; 2] = [&[0x20], &[0xFF]];
            cases.extend(at_levels(&start, TYPE_IN_TYPE[0], &LEVELS, &endings));
        }
    }
    for wrapper in TYPE_IN_TYPE {
        let start = [TYPE_IN_VALUE[0]];
        cases.extend(at_levels(&start, wrapper, &LEVELS, &[&[0x2C, 0, 0]]));
    }
    cases
}

fn level_order() -> Vec<Vec<u8>> {
    let lists = "0A 0100 ".repeat(29);
    let below = [
        "0A 0100",
        "0A 0100 FF",
        "0A 0100 20",
        "0A 0100 00",
        "0A 0100 00 04",
        "0A 0100 0F",
        "0A 0100 0A 0100",
        "0A 0100 0A 0100 0F",
        "0A 0100 0A 0100 FF",
        "0A 0100 0A 0100 0F 0F",
        "0A 0100 0E",
        "0A 0100 0E 20",
        "0A 0100 0E FF",
        "0A 0100 0C 00 0000",
        "0A 0100 0C 00 0000 20",
        "0A 0100 0C 00 0000 0F",
        "0A 0100 0C 01 0000 FF 0100 20",
        "0A 0100 09 00 04 0F 0F",
        "0A 0100 09 00 00",
        "0A 0100 09 00 00 FF",
        "0A 0200 0F FF",
        "0A 0200 FF 0A 0100 0F",
        "0A 0200 0A 0100 FF FF",
        "FF",
        "0A 0000",
        "0E 2A 20",
        "0E 2A FF",
        "0E 2D 00",
        "0E 2C 0000",
    ];
    below
        .iter()
        .map(|end| bytes(&format!("{lists}{end}")))
        .collect()
}

fn name_order() -> Vec<Vec<u8>> {
    let mut cases = all(&[
        "0B 0200 0100 0F 0100 FF",
        "0B 0200 0100 0F 0100",
        "0B 0200 0100 0F 0100 00",
        "0B 0200 0100 0F 01",
        "0B 0200 0100 0F",
        "0B 0200 0100 FF 0100 0F",
        "0B 0200 0100",
        "0B 0200 01",
        "0B 0100 0100 0F 0100 0F",
        "0B 0200 0200 0B 0200 0100 0F 0100 0F 0100 0F",
    ]);
    let lists = "0A 0100 ".repeat(30);
    for end in [
        "0B 0200 0100 0F 0100 0F",
        "0B 0100 0100 0F",
        "0B 0100 0100",
        "0B 0100 01",
        "0B 0000",
    ] {
        cases.push(bytes(&format!("{lists}{end}")));
        cases.push(bytes(&format!("{}{end}", &lists[8..])));
    }
    cases
}

fn first_of_two() -> Vec<Vec<u8>> {
    let deep = format!("{}0F", "0A 0100 ".repeat(31));
    let faults = ["FF", "0B 0200 0100 0F 0100 0F", "0A 0200 0F 00 04", &deep];
    let mut cases = vec![];
    for first in faults {
        for second in faults {
            cases.push(bytes(&format!("0A 0200 {first} {second}")));
            cases.push(bytes(&format!("0B 0200 0100 {first} 0000 {second}")));
            cases.push(bytes(&format!("09 04 00 {first} {second}")));
        }
    }
    cases
}

fn left_over() -> Vec<Vec<u8>> {
    let mut cases = framed(
        &[("", "00"), ("", "FF"), ("", "0F 0F")],
        &all(&[
            "0F",
            "00 00",
            "01 01",
            "02 0000000000000000",
            "03 0000",
            "0A 0000",
            "0A 0100 0F",
            "0B 0100 0100 0F",
            "0C 00 0000 20",
            "0D 00",
            "0E 20",
            "09 00 00 0F 0F",
        ]),
    );
    cases.push([bytes(RECORD), vec![0x0F]].concat());
    cases.push(bytes(&format!("{}0F 0F", "0A 0100 ".repeat(30))));
    cases.push(bytes(&format!("{}0F 0F", "0A 0100 ".repeat(31))));
    cases
}

fn counts() -> Vec<Vec<u8>> {
    all(&[
        "0A 0000 0F",
        "0A 0100 0F 0F",
        "0A 0300 0F 0F",
        "0A 0001 0F 0F",
        "0A FFFF 0F 0F",
        "0A 0200 0F 0F",
        "0A 0100",
        "0A FFFF",
        "0B 0000 0100 0F",
        "0B 0100 0100 0F 0200 0F",
        "0B 0300 0100 0F 0200 0F",
        "0B 0001 0100 0F",
        "0B FFFF 0100 0F 0200 0F",
        "0B 0100",
        "0C 00 0000 20 0100 20",
        "0C 02 0000 20 0100 20",
        "0C FF 0000 20 0100 20",
        "0C 01 0000 20",
        "0C 00 0001 20",
        "0E 2C 0000 0100 20",
        "0E 2C 0200 0100 20",
        "0E 2C 0001 0100 20",
        "0E 2D 00 20 20",
        "0E 2D 02 20 20",
        "0E 2D FF 20",
        "0A 0200 0E 2D 01 20 20",
        "0A 0200 0E 2D 00 20 0F",
        "0A 0200 0A 0000 0A 0100",
    ])
}
