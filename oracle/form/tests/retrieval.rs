//! Document 01's section "Retrieval and coercion", sentence by sentence, the examples 10 and 11,
//! and the small questions on values, intervals and built-in functions.

use feel_form::{MAX_LENGTH, calls};

/// The bytes of hexadecimal digits; blanks are free between bytes.
fn bytes(hex: &str) -> Vec<u8> {
    let digits: Vec<char> = hex.chars().filter(|digit| *digit != ' ').collect();
    let byte = |two: &[char]| String::from_iter(two);
    let parse = |byte: String| u8::from_str_radix(&byte, 16).expect("hexadecimal digits");
    digits.chunks(2).map(byte).map(parse).collect()
}

fn checked(t: &str, v: &str) -> Result<Vec<u8>, u8> {
    calls::get_value_checked(&bytes(t), &bytes(v), MAX_LENGTH)
}

fn conformant(t: &str, v: &str) -> Vec<u8> {
    calls::get_conformant_value(&bytes(t), &bytes(v), MAX_LENGTH).expect("accepted")
}

fn coerced(v: &str, t: &str) -> Vec<u8> {
    calls::coerced(&bytes(v), &bytes(t), MAX_LENGTH).expect("accepted")
}

fn conforms(v: &str, t: &str) -> bool {
    calls::value_is_conformant(&bytes(v), &bytes(t)).expect("accepted")
}

fn is_valid_range(v: &str) -> bool {
    calls::value_is_valid_range(&bytes(v)).expect("accepted")
}

const NUMBER: &str = "02 0100000000000000";

/// 2.5
const DECIMAL: &str = "10 1900000000000000 01";

/// Every value of level 1 but Null and the empty parents, a value of each other kind, each with the
/// types whose outer kind it has.
const VALUES: [(&str, &str); 17] = [
    ("01 01", "21"),
    (NUMBER, "22"),
    (DECIMAL, "22"),
    ("03 0500", "23"),
    ("04 0100000000000000", "24"),
    ("05 0100000000000000", "25"),
    ("06 0100000000000000", "26"),
    ("07 0100000000000000", "27"),
    ("08 0100000000000000", "28"),
    ("09 00 02 01 01 00 03", "2B 22"),
    ("0A 0000", "2A 22"),
    ("0B 0000", "2C 0000"),
    ("0C 00 0000 22", "2D 01 23 23"),
    // No type but Any.
    ("0D 00", "20"),
    ("0D 55", "20"),
    ("0E 22", "20"),
    ("0F", "20"),
];

const TYPES: [&str; 14] = [
    "20",
    "21",
    "22",
    "23",
    "24",
    "25",
    "26",
    "27",
    "28",
    "29",
    "2A 22",
    "2B 22",
    "2C 0000",
    "2D 01 23 23",
];

#[test]
fn example_10() {
    let (v, t) = (format!("0A 0100 {NUMBER}"), "2A 2A 22");
    assert_eq!(coerced(&v, t), bytes("00 01"));
}

#[test]
fn example_11() {
    let (v, t) = ("0B 0000", "2C 0100 0100 22");
    assert!(!conforms(v, t));
    assert_eq!(checked(t, v), Ok(bytes("0B 0000")));
    assert_eq!(conformant(t, v), bytes("00 02"));
}

#[test]
fn a_null_value_is_retrieved_without_its_trace() {
    for t in TYPES {
        for trace in ["00 00", "00 01", "00 02", "00 03"] {
            assert_eq!(checked(t, trace), Ok(bytes("00 00")), "{t}");
            assert_eq!(conformant(t, trace), bytes("00 00"), "{t}");
            assert_eq!(coerced(trace, t), bytes(trace), "{t}");
        }
    }
}

#[test]
fn the_outer_kind_is_checked() {
    for (v, own) in VALUES {
        for t in TYPES {
            let answer = if t == own || t == "20" {
                Ok(bytes(v))
            } else {
                Err(15)
            };
            assert_eq!(checked(t, v), answer, "{t} {v}");
        }
    }
}

#[test]
fn ranges_functions_and_any_are_copied() {
    // Whatever the inner types, with traces kept.
    for inner in TYPES {
        for v in ["09 00 02 00 01 00 03", "09 03 01 01 01 0F"] {
            assert_eq!(checked(&format!("2B {inner}"), v), Ok(bytes(v)));
        }
        let v = "0C 01 0700 22 0900 23";
        assert_eq!(checked(&format!("2D 00 {inner}"), v), Ok(bytes(v)));
    }
    for v in [
        "0A 0200 00 01 00 02",
        "0B 0100 0500 00 03",
        "09 00 00 00 02 0F",
    ] {
        assert_eq!(checked("20", v), Ok(bytes(v)));
        assert_eq!(conformant("20", v), bytes(v));
    }
}

#[test]
fn lists_retrieve_each_item() {
    assert_eq!(
        checked("2A 21", "0A 0300 00 01 01 01 00 03"),
        Ok(bytes("0A 0300 00 00 01 01 00 00"))
    );
    // Any drops a trace too where it stands for the item itself.
    assert_eq!(
        checked("2A 20", "0A 0200 00 01 0A 0100 00 01"),
        Ok(bytes("0A 0200 00 00 0A 0100 00 01"))
    );
    assert_eq!(
        checked("2A 2A 29", "0A 0200 0A 0000 0A 0100 00 02"),
        Ok(bytes("0A 0200 0A 0000 0A 0100 00 00"))
    );
    assert_eq!(checked("2A 21", "0A 0200 01 01 0F"), Err(15));
    assert_eq!(checked("2A 29", "0A 0100 01 01"), Err(15));
    assert_eq!(
        checked("2A 2D 01 22 22", "0A 0200 0C 00 0000 22 0D 00"),
        Err(15)
    );
}

#[test]
fn contexts_keep_the_names_of_the_type() {
    let v = "0B 0300 0100 00 03 0500 01 01 FFFF 0A 0100 00 01";
    for (t, answer) in [
        ("2C 0000", "0B 0000"),
        ("2C 0100 0200 22", "0B 0000"),
        ("2C 0100 0100 22", "0B 0100 0100 00 00"),
        ("2C 0300 0000 20 0500 21 FFFE 20", "0B 0100 0500 01 01"),
        (
            "2C 0200 0500 20 FFFF 2A 22",
            "0B 0200 0500 01 01 FFFF 0A 0100 00 00",
        ),
        ("2C 0100 FFFF 20", "0B 0100 FFFF 0A 0100 00 01"),
    ] {
        assert_eq!(checked(t, v), Ok(bytes(answer)), "{t}");
    }
    assert_eq!(checked("2C 0100 0500 22", v), Err(15));
    // A name that is missing inside is skipped as well.
    assert_eq!(
        checked(
            "2A 2C 0100 0500 2C 0100 0100 22",
            "0A 0200 0B 0100 0500 0B 0000 0B 0000"
        ),
        Ok(bytes("0A 0200 0B 0100 0500 0B 0000 0B 0000"))
    );
}

#[test]
fn the_conformant_value() {
    // Null target.
    for (v, _) in VALUES {
        assert_eq!(conformant("29", v), bytes("00 00"), "{v}");
    }
    // Else retrieval where the value conforms, and null with trace 2 where it does not.
    for (v, _) in VALUES {
        for t in TYPES.iter().filter(|t| **t != "29") {
            let answer = if conforms(v, t) {
                checked(t, v).expect("never met behind conformance")
            } else {
                bytes("00 02")
            };
            assert_eq!(conformant(t, v), answer, "{t} {v}");
        }
    }
    assert_eq!(
        conformant("2C 0100 0100 20", "0B 0200 0100 00 01 0200 0F"),
        bytes("0B 0100 0100 00 00")
    );
    // The inner Null is no Null target.
    assert_eq!(conformant("2A 29", "0A 0100 00 01"), bytes("0A 0100 00 00"));
    assert_eq!(conformant("2A 29", "0A 0100 01 01"), bytes("00 02"));
}

#[test]
fn function_definitions_are_never_coerced() {
    for v in ["0C 00 0000 22", "0C 01 0700 22 0900 23"] {
        for t in TYPES {
            assert_eq!(coerced(v, t), bytes(v), "{t}");
        }
        // In a list they are judged as any other item.
        assert_eq!(
            coerced(&format!("0A 0100 {v}"), "2D 03 22 22 22 22"),
            bytes("00 01")
        );
    }
    assert_eq!(
        coerced("0A 0100 0C 00 0000 22", "2D 00 20"),
        bytes("0C 00 0000 22")
    );
}

#[test]
fn built_in_functions() {
    let functions = [
        "2D 01 22 22",
        "2D 01 29 22",
        "2D 01 22 20",
        "2D 01 29 20",
        "2D 01 20 22",
        "2D 01 22 23",
        "2D 01 22 29",
        "2D 00 22",
        "2D 02 22 22 22",
    ];
    for b in 0..=85u8 {
        let v = format!("0D {b:02X}");
        let known = b == 0 || b == 67;
        for (place, t) in functions.iter().enumerate() {
            let unchanged = known && place < 4;
            let answer = if unchanged { &v } else { "00 01" };
            assert_eq!(coerced(&v, t), bytes(answer), "{v} {t}");
            // By conformance alone, so never.
            assert_eq!(coerced(&v, &format!("2A {t}")), bytes("00 01"));
            assert_eq!(coerced(&format!("0A 0100 {v}"), t), bytes("00 01"));
        }
        assert_eq!(coerced(&v, "20"), bytes(&v));
        assert_eq!(coerced(&v, "2A 20"), bytes(&format!("0A 0100 {v}")));
        assert_eq!(coerced(&v, "2A 2A 20"), bytes("00 01"));
        for t in ["21", "22", "29", "2B 20", "2C 0000"] {
            assert_eq!(coerced(&v, t), bytes("00 01"));
        }
        let feel_type = if known { "2D 01 22 22" } else { "20" };
        assert_eq!(calls::bif_feel_type(b, 4), Ok(bytes(feel_type)));
        let length = bytes(feel_type).len();
        assert_eq!(calls::bif_feel_type(b, length), Ok(bytes(feel_type)));
        assert_eq!(calls::bif_feel_type(b, length - 1), Err(18));
    }
    for b in 86..=255 {
        assert_eq!(calls::bif_feel_type(b, 4), Err(2));
        assert_eq!(calls::bif_feel_type(b, 0), Err(2));
    }
}

#[test]
fn from_and_to_a_one_item_list() {
    for (v, t, answer) in [
        // Conformant: unchanged, with its traces.
        ("0A 0200 00 01 01 01", "2A 21", "0A 0200 00 01 01 01"),
        ("0A 0100 01 01", "2A 21", "0A 0100 01 01"),
        ("0A 0100 01 01", "20", "0A 0100 01 01"),
        // The item of a one-item list.
        ("0A 0100 01 01", "21", "01 01"),
        ("0A 0100 0A 0100 01 01", "2A 21", "0A 0100 01 01"),
        ("0A 0100 0A 0100 01 01", "21", "00 01"),
        ("0A 0200 01 01 01 01", "21", "00 01"),
        ("0A 0000", "21", "00 01"),
        ("0A 0100 0F", "21", "00 01"),
        (
            "0A 0100 0B 0200 0100 00 03 0200 0F",
            "2C 0100 0100 22",
            "0B 0200 0100 00 03 0200 0F",
        ),
        // A one-item list of the value.
        ("01 01", "2A 21", "0A 0100 01 01"),
        ("01 01", "2A 20", "0A 0100 01 01"),
        ("01 01", "2A 22", "00 01"),
        ("01 01", "2A 2A 21", "00 01"),
        ("01 01", "2B 21", "00 01"),
        ("0B 0000", "2A 2C 0000", "0A 0100 0B 0000"),
        ("0F", "2A 20", "0A 0100 0F"),
        ("0E 22", "2A 20", "0A 0100 0E 22"),
        (
            "09 00 00 01 01 00 01",
            "2A 2B 21",
            "0A 0100 09 00 00 01 01 00 01",
        ),
        // No list is made around a list.
        ("0A 0000", "2A 2A 21", "0A 0000"),
        ("0A 0200 01 01 01 01", "2A 2A 21", "00 01"),
        ("0A 0100 01 01", "2A 2A 21", "00 01"),
    ] {
        assert_eq!(coerced(v, t), bytes(answer), "{v} {t}");
    }
    // Null and a one-item list of Null always meet one.
    for t in TYPES {
        for trace in 0..4 {
            let null = format!("00 0{trace}");
            let list = format!("0A 0100 {null}");
            let kept = conforms(&list, t);
            let answer = if kept { &list } else { &null };
            assert_eq!(coerced(&list, t), bytes(answer), "{t}");
        }
    }
}

#[test]
fn a_result_that_cannot_be_read_is_refused() {
    // A context of 16,381 bytes and one of 16,382.
    let context = |length: usize| {
        let texts = (length - 3) % 4;
        let entries = (length - 3) / 4;
        let mut v = vec![0x0B];
        v.extend((entries as u16).to_le_bytes());
        for number in 0..entries {
            v.extend((number as u16).to_le_bytes());
            v.extend(if number < texts {
                &[0x03, 7, 0][..]
            } else {
                &[0x00, 0]
            });
        }
        v
    };
    let lists = [0x2A, 0x20];
    for (length, refusal) in [
        (16_380, None),
        (16_381, None),
        (16_382, Some(17)),
        (16_384, Some(17)),
    ] {
        let v = context(length);
        assert_eq!(v.len(), length);
        let room = |room| calls::coerced(&v, &lists, room).map(|answer| answer.len());
        assert_eq!(room(length + 3), refusal.map_or(Ok(length + 3), Err));
        assert_eq!(room(length + 2), Err(refusal.unwrap_or(18)));
        assert_eq!(room(0), Err(refusal.unwrap_or(18)));
        assert_eq!(calls::coerced(&v, &[0x20], length), Ok(v.clone()));
        assert_eq!(calls::get_value_checked(&[0x20], &v, length), Ok(v.clone()));
    }
    // Levels 30 and 31.
    for (parents, refusal) in [(29, None), (30, Some(17))] {
        let v = [&[0x0B, 1, 0, 5, 0].repeat(parents), &[0x0F][..]].concat();
        let room = |room| calls::coerced(&v, &lists, room).map(|answer| answer.len());
        assert_eq!(room(v.len() + 3), refusal.map_or(Ok(v.len() + 3), Err));
        assert_eq!(room(0), Err(refusal.unwrap_or(18)));
        assert_eq!(calls::coerced(&v, &[0x22], 2), Ok(bytes("00 01")));
    }
}

#[test]
fn invalid_coercion_is_trace_1() {
    for trace in 0..4 {
        assert_eq!(
            calls::value_is_invalid_coercion(&[0x00, trace]),
            Ok(trace == 1)
        );
    }
    for v in ["0A 0100 00 01", "01 01", "0D 01", "0B 0100 0100 00 01"] {
        assert_eq!(calls::value_is_invalid_coercion(&bytes(v)), Ok(false));
    }
}

/// A question on a value.
type Question = fn(&[u8]) -> Result<bool, u8>;

#[test]
fn kinds_of_values() {
    let questions: [(Question, &[&str]); 7] = [
        (calls::value_is_null, &["00 00", "00 01", "00 02", "00 03"]),
        (calls::value_is_true, &["01 01"]),
        (calls::value_is_false, &["01 00"]),
        (calls::value_is_number, &[NUMBER, DECIMAL]),
        (calls::value_is_string, &["03 0500"]),
        (calls::value_is_list, &["0A 0000", "0A 0100 01 01"]),
        (calls::value_is_range, &["09 00 02 01 01 00 03"]),
    ];
    let more = ["00 00", "00 01", "00 02", "00 03", "01 00", "0A 0100 01 01"];
    for (question, yes) in questions {
        for v in VALUES.iter().map(|(v, _)| *v).chain(more) {
            assert_eq!(question(&bytes(v)), Ok(yes.contains(&v)), "{v}");
        }
        assert_eq!(question(&[]), Err(1));
        assert_eq!(question(&[0x01, 2]), Err(2));
        assert_eq!(question(&[0x0F, 0x0F]), Err(5));
    }
}

#[test]
fn valid_ranges() {
    let numbers = [i64::MIN, -1, 0, 1, i64::MAX];
    let key = |command: u8, key: i64| {
        let bytes = key.to_le_bytes().map(|byte| format!("{byte:02X}"));
        format!("{command:02X} {}", bytes.concat())
    };
    for command in [0x02, 0x04, 0x05, 0x06, 0x07, 0x08] {
        for start in numbers {
            for end in numbers {
                let v = format!("09 02 02 {} {}", key(command, start), key(command, end));
                assert_eq!(is_valid_range(&v), start <= end, "{v}");
                let other = if command == 0x08 { 0x07 } else { 0x08 };
                let v = format!("09 02 02 {} {}", key(command, start), key(other, end));
                assert!(!is_valid_range(&v), "{v}");
            }
        }
    }
    for (start, end) in [
        (0u16, 0u16),
        (0, 65_535),
        (255, 256),
        (65_535, 0),
        (256, 255),
    ] {
        let text = |number: u16| {
            let [low, high] = number.to_le_bytes();
            format!("03 {low:02X}{high:02X}")
        };
        let v = format!("09 02 02 {} {}", text(start), text(end));
        assert_eq!(is_valid_range(&v), start <= end, "{v}");
    }
    for start in 0..4 {
        for end in 0..4 {
            let range = |ends: &str| is_valid_range(&format!("09 0{start} 0{end} {ends}"));
            let open = start != 3 && end != 3;
            assert_eq!(range("03 0100 03 0200"), open);
            assert_eq!(range("03 0100 00 03"), open && end < 2);
            assert_eq!(range("00 01 03 0100"), open && start < 2);
            // Any kind may stand at the end beside Null at the start.
            assert_eq!(range("00 00 01 01"), open && start < 2);
            assert_eq!(range("00 00 0A 0000"), open && start < 2);
            for ends in [
                "00 00 00 00",
                "01 00 01 01",
                "01 00 00 00",
                "0F 0F",
                "0A 0000 0A 0000",
            ] {
                assert!(!range(ends), "{ends}");
            }
        }
    }
    for (v, _) in VALUES.iter().filter(|(v, _)| !v.starts_with("09")) {
        assert!(!is_valid_range(v));
    }
}

#[test]
fn valid_ranges_of_numbers_go_by_their_value() {
    let number = |(coefficient, exponent): (i64, Option<u8>)| {
        let bytes = coefficient.to_le_bytes().map(|byte| format!("{byte:02X}"));
        match exponent {
            None => format!("02 {}", bytes.concat()),
            Some(exponent) => format!("10 {} {exponent:02X}", bytes.concat()),
        }
    };
    // Ascending; those in one row are equal.
    let numbers: [&[(i64, Option<u8>)]; 11] = [
        &[(i64::MIN, None), (i64::MIN, Some(0))],
        &[(i64::MIN, Some(18))],
        &[(-75, Some(2)), (-750, Some(3))],
        &[(-7, Some(1))],
        &[(-1, Some(18))],
        &[(0, None), (0, Some(0)), (0, Some(18))],
        &[(25, Some(1)), (250, Some(2))],
        &[
            (5, None),
            (5, Some(0)),
            (5_000_000_000_000_000_000, Some(18)),
        ],
        &[(5_000_000_000_000_000_001, Some(18))],
        &[(i64::MAX, Some(18))],
        &[(i64::MAX, None), (i64::MAX, Some(0))],
    ];
    for (low, starts) in numbers.iter().enumerate() {
        for (high, ends) in numbers.iter().enumerate() {
            for start in *starts {
                for end in *ends {
                    let v = format!("09 02 02 {} {}", number(*start), number(*end));
                    assert_eq!(is_valid_range(&v), low <= high, "{v}");
                }
            }
        }
    }
    for start in 0..4 {
        for end in 0..4 {
            let range = |ends: &str| is_valid_range(&format!("09 0{start} 0{end} {ends}"));
            let open = start != 3 && end != 3;
            assert_eq!(range(&format!("{DECIMAL} {DECIMAL}")), open);
            assert_eq!(range(&format!("{DECIMAL} 00 00")), open && end < 2);
            assert_eq!(range(&format!("00 00 {DECIMAL}")), open && start < 2);
            assert!(!range(&format!("{DECIMAL} 03 0100")));
            assert!(!range(&format!("04 0000000000000000 {DECIMAL}")));
        }
    }
}

/// Nothing is written anew: 2.50 stays 2.50.
#[test]
fn decimals_are_retrieved_and_coerced_as_they_stand() {
    for v in [DECIMAL, "10 FA00000000000000 02", "10 0500000000000000 00"] {
        assert_eq!(checked("22", v), Ok(bytes(v)));
        assert_eq!(checked("23", v), Err(15));
        assert_eq!(conformant("20", v), bytes(v));
        assert_eq!(conformant("23", v), bytes("00 02"));
        assert_eq!(coerced(v, "22"), bytes(v));
        assert_eq!(coerced(v, "23"), bytes("00 01"));
        assert_eq!(coerced(v, "2A 22"), bytes(&format!("0A 0100 {v}")));
        assert_eq!(coerced(&format!("0A 0100 {v}"), "22"), bytes(v));
        let context = format!("0B 0200 0100 {v} 0200 {NUMBER}");
        let kept = bytes(&format!("0B 0100 0100 {v}"));
        assert_eq!(checked("2C 0100 0100 22", &context), Ok(kept));
    }
}

#[test]
fn intervals() {
    for i in 0..=255u8 {
        for (given, yes) in [
            (calls::interval_opened(i), [0, 1]),
            (calls::interval_closed(i), [2, 3]),
            (calls::interval_undefined(i), [1, 3]),
        ] {
            let answer = if i > 3 { Err(2) } else { Ok(yes.contains(&i)) };
            assert_eq!(given, answer);
        }
    }
}

#[test]
fn refusals_in_their_order() {
    let (value, no_value) = (&[0x01, 1][..], &[0x01, 2][..]);
    let (number, no_type) = (&[0x22][..], &[0x2A][..]);
    for call in [calls::get_value_checked, calls::get_conformant_value] {
        assert_eq!(call(no_type, no_value, 0), Err(7));
        assert_eq!(call(&[], no_value, 0), Err(6));
        assert_eq!(call(number, no_value, 0), Err(2));
        assert_eq!(call(number, &[], 0), Err(1));
        assert_eq!(call(&[0x21], value, 1), Err(18));
        assert_eq!(call(&[0x21], value, 2), Ok(value.to_vec()));
    }
    assert_eq!(calls::get_value_checked(number, value, 0), Err(15));
    assert_eq!(calls::get_conformant_value(number, value, 0), Err(18));
    assert_eq!(
        calls::get_conformant_value(number, value, 2),
        Ok(vec![0, 2])
    );
    // A null is longer than Irrelevant.
    assert_eq!(calls::get_conformant_value(number, &[0x0F], 1), Err(18));
    assert_eq!(calls::coerced(no_value, no_type, 0), Err(2));
    assert_eq!(calls::coerced(&[], no_type, 0), Err(1));
    assert_eq!(calls::coerced(value, no_type, 0), Err(7));
    assert_eq!(calls::coerced(value, &[], 0), Err(6));
    assert_eq!(calls::coerced(value, number, 1), Err(18));
    assert_eq!(calls::coerced(value, number, 2), Ok(vec![0, 1]));
    assert_eq!(calls::coerced(value, &[0x2A, 0x21], 4), Err(18));
}
