//! Document 01's sections "Value against type", "Least type" and "Type as the Rust infers it",
//! sentence by sentence, and the examples 1 to 5.

use feel_cases::{Kind, Random, random_draft};
use feel_form::{calls, lists_inside, read_type, read_value, type_level, type_of_parts};

/// The bytes of hexadecimal digits; blanks are free between bytes.
fn bytes(hex: &str) -> Vec<u8> {
    let digits: Vec<char> = hex.chars().filter(|digit| *digit != ' ').collect();
    let byte = |two: &[char]| String::from_iter(two);
    let parse = |byte: String| u8::from_str_radix(&byte, 16).expect("hexadecimal digits");
    digits.chunks(2).map(byte).map(parse).collect()
}

fn conforms(v: &str, t: &str) -> bool {
    calls::value_is_conformant(&bytes(v), &bytes(t)).expect("accepted")
}

fn type_of(v: &str) -> Vec<u8> {
    let v = bytes(v);
    calls::value_type_of(&v, 4 * v.len(), v.len()).expect("accepted")
}

fn least_type(v: &str) -> Vec<u8> {
    let v = bytes(v);
    calls::value_least_type(&v, 4 * v.len(), v.len()).expect("a data value")
}

fn assert_types(v: &str, inferred: &str, least: &str) {
    assert_eq!(type_of(v), bytes(inferred), "type of {v}");
    assert_eq!(least_type(v), bytes(least), "least type of {v}");
}

const NUMBER: &str = "02 0100000000000000";

/// 2.5
const DECIMAL: &str = "10 1900000000000000 01";

/// Every leaf of data with its type.
const LEAVES: [(&str, &str); 10] = [
    ("00 00", "29"),
    ("01 01", "21"),
    (NUMBER, "22"),
    ("03 0500", "23"),
    ("04 0100000000000000", "24"),
    ("05 0100000000000000", "25"),
    ("06 0100000000000000", "26"),
    ("07 0100000000000000", "27"),
    ("08 0100000000000000", "28"),
    (DECIMAL, "22"),
];

const SIMPLE: [&str; 10] = ["20", "21", "22", "23", "24", "25", "26", "27", "28", "29"];

const PARENTS: [&str; 6] = [
    "2A 20",
    "2B 20",
    "2C 0000",
    "2C 0100 0100 20",
    "2D 00 20",
    "2D 01 20 20",
];

/// 0C, 0D, 0E and 0F.
const NO_DATA: [&str; 5] = ["0C 00 0000 20", "0D 00", "0D 55", "0E 22", "0F"];

#[test]
fn example_1() {
    assert_types("0A 0000", "2A 29", "2A 29");
}

#[test]
fn example_2() {
    assert_types(&format!("0A 0200 {NUMBER} 00 00"), "2A 22", "2A 22");
}

#[test]
fn example_3() {
    assert_types(&format!("0A 0200 00 00 {NUMBER}"), "2A 20", "2A 22");
}

#[test]
fn example_4() {
    assert_types(&format!("0A 0200 {NUMBER} 01 01"), "2A 20", "2A 20");
}

#[test]
fn example_5() {
    let first = format!("0B 0200 0500 {NUMBER} 0700 01 01");
    assert_types(
        &format!("0A 0200 {first} 0B 0100 0500 00 00"),
        "2A 20",
        "2A 2C 0100 0500 22",
    );
}

#[test]
fn leaves_have_their_type() {
    for (v, own) in LEAVES {
        assert_types(v, own, own);
        for t in SIMPLE.iter().chain(&PARENTS) {
            assert_eq!(
                conforms(v, t),
                own == "29" || *t == own || *t == "20",
                "{v} {t}"
            );
        }
    }
    for trace in ["00 00", "00 01", "00 02", "00 03"] {
        assert_types(trace, "29", "29");
        assert!(conforms(trace, "2D 01 22 22"));
    }
}

#[test]
fn everything_conforms_to_any() {
    for (v, _) in LEAVES {
        assert!(conforms(v, "20"));
    }
    for v in NO_DATA {
        assert!(conforms(v, "20"));
        assert!(conforms(&format!("0A 0200 {v} {v}"), "2A 20"));
    }
}

#[test]
fn ranges() {
    for (start, of_start) in LEAVES {
        for (end, of_end) in LEAVES {
            let v = format!("09 00 02 {start} {end}");
            let inferred = if of_start == of_end { of_start } else { "20" };
            let least = match (of_start, of_end) {
                ("29", other) | (other, "29") => other,
                (a, b) if a == b => a,
                _ => "20",
            };
            assert_types(&v, &format!("2B {inferred}"), &format!("2B {least}"));
            for t in SIMPLE {
                let both = conforms(start, t) && conforms(end, t);
                assert_eq!(conforms(&v, &format!("2B {t}")), both, "{v} {t}");
                assert!(!conforms(&v, &format!("2A {t}")));
            }
        }
    }
    // Equal as types, not only conformant to each other.
    let v = "09 00 00 0E 2D 00 22 0E 2D 00 23";
    assert_eq!(type_of(v), bytes("2B 20"));
    assert_eq!(
        type_of("09 00 00 0E 2D 00 22 0E 2D 00 22"),
        bytes("2B 2D 00 22")
    );
}

#[test]
fn lists() {
    for (first, of_first) in LEAVES {
        for (second, of_second) in LEAVES {
            let v = format!("0A 0300 {first} {second} 00 01");
            let inferred = match of_second {
                "29" => of_first,
                other if other == of_first => of_first,
                _ => "20",
            };
            let least = match (of_first, of_second) {
                ("29", other) | (other, "29") => other,
                (a, b) if a == b => a,
                _ => "20",
            };
            assert_types(&v, &format!("2A {inferred}"), &format!("2A {least}"));
            for t in SIMPLE {
                let all = conforms(first, t) && conforms(second, t);
                assert_eq!(conforms(&v, &format!("2A {t}")), all, "{v} {t}");
                assert!(!conforms(&v, &format!("2B {t}")));
            }
        }
    }
    // An empty list conforms to every list, and its type to every list type.
    assert!(conforms("0A 0000", "2A 29") && conforms("0A 0000", "2A 22"));
    assert_types("0A 0200 0A 0000 0A 0100 01 01", "2A 20", "2A 2A 21");
    assert_types("0A 0200 0A 0100 01 01 0A 0000", "2A 2A 21", "2A 2A 21");
    // Every item's type against the first's, with the functions' own way round.
    let items = |a: &str, b: &str| type_of(&format!("0A 0200 0E {a} 0E {b}"));
    assert_eq!(items("2D 01 29 20", "2D 01 22 20"), bytes("2A 2D 01 29 20"));
    assert_eq!(items("2D 01 22 20", "2D 01 29 20"), bytes("2A 20"));
    assert_eq!(items("2D 00 22", "2D 00 23"), bytes("2A 2D 00 22"));
}

#[test]
fn contexts() {
    let v = format!("0B 0300 0100 {NUMBER} 0500 00 00 FFFF 0A 0000");
    let own = "2C 0300 0100 22 0500 29 FFFF 2A 29";
    assert_types(&v, own, own);
    assert_types("0B 0000", "2C 0000", "2C 0000");
    for t in [
        own,
        "2C 0000",
        "2C 0100 0100 22",
        "2C 0100 0500 2D 01 22 22",
        "2C 0200 0100 20 FFFF 2A 22",
    ] {
        assert!(conforms(&v, t), "{t}");
    }
    for t in [
        "2C 0100 0200 20",
        "2C 0100 0100 23",
        "2C 0400 0100 22 0500 29 0600 20 FFFF 2A 29",
        "2A 20",
        "29",
    ] {
        assert!(!conforms(&v, t), "{t}");
    }
}

#[test]
fn function_definitions() {
    // Two parameters, number and string, and a boolean result.
    let v = "0C 02 0700 21 0900 22 0300 23";
    assert_eq!(type_of(v), bytes("2D 02 22 23 21"));
    for (t, yes) in [
        ("2D 02 22 23 21", true),
        // Own parameters conform to the target's, and not the other way.
        ("2D 02 20 20 20", true),
        ("2D 02 29 23 21", false),
        ("2D 02 22 29 21", false),
        ("2D 02 23 22 21", false),
        ("2D 02 22 23 29", false),
        ("2D 02 22 23 22", false),
        ("2D 01 22 21", false),
        ("2D 03 22 23 23 21", false),
        ("2D 00 21", false),
        ("20", true),
        ("29", false),
        ("2A 20", false),
    ] {
        assert_eq!(conforms(v, t), yes, "{t}");
    }
    // Without parameters the result is still compared.
    let v = "0C 00 0000 22";
    assert_eq!(type_of(v), bytes("2D 00 22"));
    for (t, yes) in [("22", true), ("20", true), ("23", false), ("29", false)] {
        assert_eq!(conforms(v, &format!("2D 00 {t}")), yes, "{t}");
    }
    // In a result that is a parameterless function it is not.
    assert!(conforms("0C 00 0000 2D 00 22", "2D 00 2D 00 23"));
}

#[test]
fn others_conform_to_any_alone() {
    for v in &NO_DATA[1..] {
        for t in SIMPLE.iter().chain(&PARENTS) {
            assert_eq!(conforms(v, t), *t == "20", "{v} {t}");
        }
    }
    assert_eq!(type_of("0D 00"), bytes("20"));
    assert_eq!(type_of("0D 43"), bytes("20"));
    assert_eq!(type_of("0F"), bytes("20"));
    assert_eq!(type_of("0E 2A 22"), bytes("2A 22"));
}

#[test]
fn no_least_type_where_one_part_is_no_data() {
    for part in NO_DATA {
        for v in [
            part.to_string(),
            format!("0A 0100 {part}"),
            format!("0A 0300 00 00 {part} 00 00"),
            format!("0A 0200 01 01 0A 0100 {part}"),
            format!("09 00 00 {part} 00 00"),
            format!("09 00 00 00 00 {part}"),
            format!("0B 0200 0100 00 00 0200 {part}"),
        ] {
            let v = bytes(&v);
            for (scratch, room) in [(0, 0), (4 * v.len(), v.len())] {
                assert_eq!(calls::value_least_type(&v, scratch, room), Err(13));
            }
        }
    }
}

#[test]
fn refusals_in_their_order() {
    let (value, no_value) = (&[0x01, 1][..], &[0x01, 2][..]);
    let (number, no_type) = (&[0x22][..], &[0x2A][..]);
    assert_eq!(calls::value_is_conformant(no_value, no_type), Err(2));
    assert_eq!(calls::value_is_conformant(&[], no_type), Err(1));
    assert_eq!(calls::value_is_conformant(value, no_type), Err(7));
    assert_eq!(calls::value_is_conformant(value, &[]), Err(6));
    assert_eq!(calls::value_is_conformant(value, number), Ok(false));
    for call in [calls::value_least_type, calls::value_type_of] {
        assert_eq!(call(no_value, 0, 0), Err(2));
        assert_eq!(call(value, 7, 0), Err(14));
        assert_eq!(call(value, 7, 1), Err(14));
        assert_eq!(call(value, 8, 0), Err(18));
        assert_eq!(call(value, 8, 1), Ok(vec![0x21]));
    }
    assert_eq!(calls::value_least_type(&[0x0F], 3, 0), Err(13));
    assert_eq!(calls::value_type_of(&[0x0F], 3, 0), Err(14));
    assert_eq!(calls::value_type_of(&[0x0F], 4, 0), Err(18));
    assert_eq!(calls::value_type_of(&[0x0F], 4, 1), Ok(vec![0x20]));
}

#[test]
fn the_highest_level() {
    // At level 31 an empty list: its type has level 32.
    let v = [&[0x0A, 1, 0].repeat(30), &[0x0A, 0, 0][..]].concat();
    let own = [&[0x2A].repeat(31), &[0x29][..]].concat();
    assert_eq!(calls::value_type_of(&v, 4 * v.len(), 32), Ok(own.clone()));
    assert_eq!(
        calls::value_least_type(&v, 4 * v.len(), 32),
        Ok(own.clone())
    );
    assert_eq!(calls::value_is_conformant(&v, &own), Ok(true));
    let (tree, _) = read_type(&own).expect("accepted");
    assert_eq!(type_level(&tree), 32);
}

#[test]
fn the_type_of_parts_is_the_type_of_the_whole() {
    let mut random = Random::new(11);
    let mut compared = 0;
    for _ in 0..3_000 {
        let v = random_draft(Kind::Value, &mut random).bytes;
        let Ok((value, _)) = read_value(&v) else {
            continue;
        };
        if lists_inside(&value) <= 9 {
            assert_eq!(type_of_parts(&value), value.type_of());
            compared += 1;
        }
    }
    assert!(compared > 2_000, "{compared}");
    // Many lists inside each other, with more than one item.
    let v = [&[0x0A, 2, 0].repeat(18), &[0x0F][..], &[0x00, 0].repeat(18)].concat();
    let (value, _) = read_value(&v).expect("accepted");
    assert_eq!(lists_inside(&value), 18);
    assert_eq!(type_of_parts(&value), value.type_of());
}
