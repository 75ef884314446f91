//! The groups of the small questions on values, on interval bytes and on built-in functions.

use crate::list::{Call, Case, Group, all, bytes};

pub fn groups() -> Vec<Group> {
    let records = |call, words, cases| Group::of_records(call, words, cases);
    let mut groups = vec![
        records(Call::IsInvalidCoercion, "null values", all(&NULLS)),
        records(Call::IsInvalidCoercion, "other values", all(&OTHERS)),
        records(Call::IsInvalidCoercion, "refusals", refusals()),
        records(Call::IsValidRange, "interval bytes", intervals()),
        records(Call::IsValidRange, "keys and texts", keys()),
        records(Call::IsValidRange, "decimals", all(&DECIMALS)),
        records(Call::IsValidRange, "kinds", all(&KINDS)),
        records(Call::IsValidRange, "refusals", refusals()),
    ];
    for (call, values) in [
        (Call::ValueIsNull, NULLS),
        (
            Call::IsTrue,
            ["01 00", "01 01", "00 00", "0A 0100 01 01", "03 0100"],
        ),
        (
            Call::IsFalse,
            ["01 00", "01 01", "00 00", "0A 0100 01 00", "03 0000"],
        ),
        (
            Call::IsNumber,
            [
                "02 0000000000000000",
                "02 FFFFFFFFFFFFFFFF",
                "04 0100000000000000",
                "08 0100000000000000",
                "0A 0100 02 0100000000000000",
            ],
        ),
        (
            Call::IsString,
            [
                "03 0000",
                "03 FFFF",
                "02 0300000000000000",
                "0A 0100 03 0100",
                "0B 0000",
            ],
        ),
        (
            Call::IsList,
            [
                "0A 0000",
                "0A 0100 01 01",
                "0B 0000",
                "09 00 00 0A 0000 0A 0000",
                "0E 2A 22",
            ],
        ),
        (
            Call::IsRange,
            [
                "09 00 00 00 00 00 00",
                "09 03 03 0F 0F",
                "0A 0100 09 00 00 0F 0F",
                "0E 2B 22",
                "0B 0000",
            ],
        ),
    ] {
        let values = [all(&values), all(&OTHER_KINDS)].concat();
        if call == Call::IsNumber {
            groups.push(records(call, "decimals", all(&NUMBERS)));
        }
        groups.push(records(call, "values", values));
        groups.push(records(call, "refusals", few_refusals()));
    }
    for call in [
        Call::IntervalOpened,
        Call::IntervalClosed,
        Call::IntervalUndefined,
    ] {
        let bytes = [0, 1, 2, 3, 4, 5, 0x80, 0xFE, 0xFF];
        let cases = bytes.map(|byte| vec![byte]).to_vec();
        groups.push(records(call, "bytes", cases));
    }
    groups.push(Group::new(
        Call::BifFeelType,
        "bytes and output",
        built_in_functions(),
    ));
    groups
}

const NULLS: [&str; 5] = ["00 00", "00 01", "00 02", "00 03", "01 01"];

/// Values in which a failed coercion, or the number 1, stands without being one.
const OTHERS: [&str; 14] = [
    "01 00",
    "01 01",
    "02 0100000000000000",
    "03 0100",
    "08 0100000000000000",
    "09 00 01 00 01 00 01",
    "0A 0000",
    "0A 0100 00 01",
    "0A 0100 0A 0100 00 01",
    "0B 0100 0100 00 01",
    "0C 00 0100 20",
    "0D 01",
    "0E 29",
    "0F",
];

/// Decimals, alone and in a list.
const NUMBERS: [&str; 3] = [
    "10 1900000000000000 01",
    "10 0000000000000000 00",
    "0A 0100 10 1900000000000000 01",
];

/// One value of each kind that no question is asked about, and Null.
const OTHER_KINDS: [&str; 6] = [
    "00 01",
    "06 0100000000000000",
    "0C 00 0000 22",
    "0D 00",
    "0E 22",
    "0F",
];

/// Every two interval bytes, with two texts; some with Null at either end.
fn intervals() -> Vec<Vec<u8>> {
    let mut cases = vec![];
    for start in 0..4 {
        for end in 0..4 {
            cases.push(vec![0x09, start, end, 0x03, 1, 0, 0x03, 2, 0]);
        }
        cases.push(vec![0x09, start, 2, 0x00, 1, 0x03, 2, 0]);
        cases.push(vec![0x09, 2, start, 0x03, 1, 0, 0x00, 3]);
    }
    cases
}

/// Keys are signed, texts are not.
fn keys() -> Vec<Vec<u8>> {
    let mut cases = vec![];
    for (command, start, end) in [
        (0x02, 1, 1),
        (0x02, -1, 0),
        (0x02, 0, -1),
        (0x02, i64::MIN, i64::MAX),
        (0x02, i64::MAX, i64::MIN),
        (0x02, 0x00FF, 0x0100),
        (0x04, -1, 1),
        (0x05, 1, -1),
        (0x06, i64::MIN, -1),
        (0x07, 0, i64::MIN),
        (0x08, 0, i64::MAX),
    ] {
        let key = |key: i64| [&[command], &key.to_le_bytes()[..]].concat();
        cases.push([vec![0x09, 2, 2], key(start), key(end)].concat());
    }
    cases.extend(all(&[
        "09 02 02 03 0000 03 FFFF",
        "09 02 02 03 FFFF 03 0000",
        "09 02 02 03 FF00 03 0001",
        "09 02 02 03 0001 03 FF00",
    ]));
    cases
}

/// Equal and written differently, negative, different in the last of 19 digits, the ends of 64 bits, Null
/// and another kind at one end.
const DECIMALS: [&str; 17] = [
    "09 02 02 10 1900000000000000 01 10 FA00000000000000 02",
    "09 02 02 10 FA00000000000000 02 10 1900000000000000 01",
    "09 02 02 10 1900000000000000 01 02 0200000000000000",
    "09 02 02 02 0500000000000000 10 0500000000000000 00",
    "09 02 02 10 0000F44482916345 12 02 0500000000000000",
    "09 02 02 10 0100F44482916345 12 02 0500000000000000",
    "09 02 02 10 B5FFFFFFFFFFFFFF 02 10 F9FFFFFFFFFFFFFF 01",
    "09 02 02 10 F9FFFFFFFFFFFFFF 01 10 B5FFFFFFFFFFFFFF 02",
    "09 02 02 10 FEFFFFFFFFFFFF7F 12 10 FFFFFFFFFFFFFF7F 12",
    "09 02 02 10 FFFFFFFFFFFFFF7F 12 10 FEFFFFFFFFFFFF7F 12",
    "09 02 02 10 0100000000000080 12 10 0000000000000080 12",
    "09 02 02 02 0000000000000080 10 0000000000000080 12",
    "09 02 02 02 FFFFFFFFFFFFFF7F 10 FFFFFFFFFFFFFF7F 12",
    "09 02 00 10 1900000000000000 01 00 00",
    "09 02 02 00 00 10 1900000000000000 01",
    "09 02 02 10 1900000000000000 00 04 1900000000000000",
    "09 02 03 10 1900000000000000 01 10 1900000000000000 01",
];

const KINDS: [&str; 12] = [
    "09 00 00 00 00 00 00",
    "09 00 00 00 00 01 01",
    "09 01 02 00 03 0A 0000",
    "09 01 02 00 03 0F",
    "09 00 00 01 00 01 01",
    "09 00 00 01 00 00 00",
    "09 00 00 0A 0000 0A 0000",
    "09 00 00 02 0100000000000000 04 0100000000000000",
    "09 00 00 07 0100000000000000 08 0100000000000000",
    "09 00 00 03 0100 02 0100000000000000",
    "0A 0100 09 02 02 03 0100 03 0200",
    "00 00",
];

fn refusals() -> Vec<Vec<u8>> {
    let mut cases = few_refusals();
    cases.extend(all(&[
        "00 04",
        "09 04 00 0F 0F",
        "09 00 00 0F",
        "0B 0200 0100 0F 0000 0F",
    ]));
    cases
}

/// Each of the refusals 1 to 5.
fn few_refusals() -> Vec<Vec<u8>> {
    let mut cases = all(&["", "10", "0B 0200 0100 0F 0100 0F", "0F 0F"]);
    cases.push(bytes(&format!("{} 0F", "0A 0100 ".repeat(31))));
    cases
}

/// Those whose type is known, their neighbours, the last one and bytes after it.
fn built_in_functions() -> Vec<Case> {
    let cases = [
        (0, 4),
        (0, 3),
        (0, 0),
        (0, 9),
        (1, 1),
        (1, 0),
        (66, 1),
        (67, 4),
        (67, 3),
        (67, 5),
        (68, 4),
        (85, 1),
        (85, 0),
        (86, 4),
        (86, 0),
        (128, 4),
        (255, 1),
    ];
    let case = |(byte, room)| Case {
        args: vec![vec![byte]],
        lent: vec![room],
    };
    cases.map(case).to_vec()
}
