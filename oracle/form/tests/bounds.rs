//! Document 01's sections "Type against type" and "Common supertype and subtype", sentence by
//! sentence, and the examples 6 to 9.

use dsntk_feel::FeelType;
use feel_cases::{Move, Random, Tree, near};
use feel_form::{Reading, calls, common_subtype, common_supertype, read_type, reduced, write_type};

/// The bytes of hexadecimal digits; blanks are free between bytes.
fn bytes(hex: &str) -> Vec<u8> {
    let digits: Vec<char> = hex.chars().filter(|digit| *digit != ' ').collect();
    let byte = |two: &[char]| String::from_iter(two);
    let parse = |byte: String| u8::from_str_radix(&byte, 16).expect("hexadecimal digits");
    digits.chunks(2).map(byte).map(parse).collect()
}

fn feel_type(hex: &str) -> FeelType {
    read_type(&bytes(hex)).expect("accepted").0
}

fn conforms(a: &str, b: &str) -> bool {
    feel_type(a).is_conformant(&feel_type(b))
}

/// The supertype is this one, in either order of the arguments.
fn assert_supertype(a: &str, b: &str, answer: &str) {
    for (a, b) in [(a, b), (b, a)] {
        let actual = common_supertype(&feel_type(a), &feel_type(b), Reading::Ported);
        assert_eq!(write_type(&actual), bytes(answer), "{a} with {b}");
    }
}

/// The subtype is this one, in either order of the arguments.
fn assert_subtype(a: &str, b: &str, answer: &str) {
    for (a, b) in [(a, b), (b, a)] {
        let actual = common_subtype(&feel_type(a), &feel_type(b), Reading::Ported);
        assert_eq!(write_type(&actual), bytes(answer), "{a} with {b}");
    }
}

fn assert_reduced(t: &str, answer: &str) {
    assert_eq!(write_type(&reduced(&feel_type(t))), bytes(answer), "{t}");
}

const SIMPLE: [&str; 10] = ["20", "21", "22", "23", "24", "25", "26", "27", "28", "29"];

/// One of each kind; the function of count 0 is reduced.
const ALL: [&str; 16] = [
    "20",
    "21",
    "22",
    "23",
    "24",
    "25",
    "26",
    "27",
    "28",
    "29",
    "2A 22",
    "2B 22",
    "2C 0000",
    "2C 0100 0100 22",
    "2D 00 20",
    "2D 01 22 23",
];

#[test]
fn example_6() {
    assert!(conforms("2D 00 22", "2D 00 23") && conforms("2D 00 23", "2D 00 22"));
    assert_reduced("2D 00 22", "2D 00 20");
    assert_reduced("2D 00 23", "2D 00 20");
}

#[test]
fn example_7() {
    assert!(conforms("2D 01 22 20", "2D 01 29 20"));
    assert!(!conforms("2D 01 29 20", "2D 01 22 20"));
}

#[test]
fn example_8() {
    assert_supertype("2D 01 22 22", "2D 01 23 23", "2D 01 29 20");
}

#[test]
fn example_9() {
    assert_subtype(
        "2C 0100 0100 22",
        "2C 0100 0200 23",
        "2C 0200 0100 22 0200 23",
    );
}

#[test]
fn reduced_forms() {
    for simple in SIMPLE {
        assert_reduced(simple, simple);
    }
    assert_reduced("2A 2D 00 22", "2A 2D 00 20");
    assert_reduced("2B 2D 00 22", "2B 2D 00 20");
    assert_reduced("2C 0100 0100 2D 00 22", "2C 0100 0100 2D 00 20");
    assert_reduced("2D 01 2D 00 22 2D 00 23", "2D 01 2D 00 20 2D 00 20");
    // Only the result of a parameterless function: whatever stood there is gone.
    assert_reduced("2D 00 2C 0100 0100 2D 00 22", "2D 00 20");
    assert_reduced("2D 01 22 22", "2D 01 22 22");
    assert_reduced("2D 00 20", "2D 00 20");
}

#[test]
fn null_with_a_type_and_any_with_a_type() {
    for other in ALL {
        assert_supertype("29", other, other);
        assert_supertype("20", other, "20");
        assert_subtype("20", other, other);
        assert_subtype("29", other, "29");
    }
    assert_supertype("29", "2A 2D 00 22", "2A 2D 00 20");
    assert_subtype("20", "2A 2D 00 22", "2A 2D 00 20");
}

#[test]
fn equal_and_unequal_kinds() {
    for a in ALL {
        assert_supertype(a, a, a);
        assert_subtype(a, a, a);
        for b in ALL {
            let ends = ["20", "29"];
            let same_command = a[..2] == b[..2];
            if !same_command && !ends.contains(&a) && !ends.contains(&b) {
                assert_supertype(a, b, "20");
                assert_subtype(a, b, "29");
            }
        }
    }
}

#[test]
fn lists_and_ranges_by_their_inner_type() {
    for parent in ["2A ", "2B "] {
        let over = |inner: &str| format!("{parent}{inner}");
        assert_supertype(&over("22"), &over("23"), &over("20"));
        assert_supertype(&over("22"), &over("29"), &over("22"));
        assert_subtype(&over("22"), &over("23"), &over("29"));
        assert_subtype(&over("22"), &over("20"), &over("22"));
    }
    assert_supertype("2A 2B 22", "2A 2B 23", "2A 2B 20");
    assert_supertype("2A 2B 22", "2A 2A 22", "2A 20");
    assert_subtype("2A 2B 22", "2A 2A 22", "2A 29");
}

#[test]
fn contexts() {
    let a = "2C 0300 0100 22 0200 23 0500 29";
    let b = "2C 0300 0200 24 0400 21 0500 2D 00 22";
    // The common names, each at its supertype.
    assert_supertype(a, b, "2C 0200 0200 20 0500 2D 00 20");
    // All names, the common ones at their subtype.
    assert_subtype(a, b, "2C 0400 0100 22 0200 29 0400 21 0500 29");
    assert_supertype("2C 0000", a, "2C 0000");
    assert_subtype("2C 0000", a, a);
    // A name of one alone is reduced too.
    assert_subtype("2C 0000", "2C 0100 0100 2D 00 22", "2C 0100 0100 2D 00 20");
    // Names are ordered as numbers.
    assert_subtype(
        "2C 0100 FF00 22",
        "2C 0200 0001 23 FFFF 24",
        "2C 0300 FF00 22 0001 23 FFFF 24",
    );
}

#[test]
fn functions() {
    // Parameters go the other way.
    assert_supertype("2D 01 20 22", "2D 01 22 22", "2D 01 22 22");
    assert_subtype("2D 01 20 22", "2D 01 22 22", "2D 01 20 22");
    assert_supertype("2D 02 22 29 22", "2D 02 22 23 23", "2D 02 22 29 20");
    assert_subtype("2D 02 22 29 22", "2D 02 22 23 23", "2D 02 22 23 29");
    // A parameter's parameter goes the same way.
    let (a, b) = ("2D 01 2D 01 22 20 20", "2D 01 2D 01 23 20 20");
    assert_supertype(a, b, "2D 01 2D 01 20 20 20");
    assert_subtype(a, b, "2D 01 2D 01 29 20 20");
    // Unequal counts.
    assert_supertype("2D 01 22 22", "2D 02 22 22 22", "20");
    assert_subtype("2D 01 22 22", "2D 02 22 22 22", "29");
    assert_supertype("2D 00 22", "2D 01 22 22", "20");
    assert_subtype("2D 00 22", "2D 01 22 22", "29");
    // Of count 0, function to Any.
    assert_supertype("2D 00 22", "2D 00 22", "2D 00 20");
    assert_subtype("2D 00 22", "2D 00 22", "2D 00 20");
    assert_supertype("2D 00 22", "2D 00 23", "2D 00 20");
    assert_subtype("2D 00 22", "2D 00 23", "2D 00 20");
}

#[test]
fn refusals_in_their_order() {
    let supertype = calls::common_supertype;
    let (a, bad) = (&[0x22][..], &[0x2A][..]);
    assert_eq!(supertype(bad, &[], 0, 0), Err(7));
    assert_eq!(supertype(a, &[], 0, 0), Err(6));
    assert_eq!(supertype(a, bad, 0, 0), Err(7));
    assert_eq!(supertype(a, a, 1, 0), Err(14));
    assert_eq!(supertype(a, a, 2, 0), Err(18));
    assert_eq!(supertype(a, a, 2, 1), Ok(vec![0x22]));
    assert_eq!(calls::common_subtype(a, &[0x23], 1, 1), Err(14));
    assert_eq!(calls::common_subtype(a, &[0x23], 2, 0), Err(18));
    assert_eq!(calls::common_subtype(a, &[0x23], 2, 1), Ok(vec![0x29]));
    assert_eq!(calls::is_conformant(&[], bad), Err(6));
    assert_eq!(calls::instance_of(a, bad), Err(7));
    assert_eq!(calls::reduced(bad, 0), Err(7));
    assert_eq!(calls::reduced(&[0x2D, 0, 0x22], 2), Err(18));
    assert_eq!(calls::reduced(&[0x2D, 0, 0x22], 3), Ok(vec![0x2D, 0, 0x20]));
    assert_eq!(calls::is_null(bad), Err(7));
    assert_eq!(calls::is_simple_built_in_type(&[]), Err(6));
}

#[test]
fn an_answer_may_pass_the_length_of_a_type() {
    let context = |first: u16| {
        let mut bytes = vec![0x2A, 0x2C];
        bytes.extend(5_460u16.to_le_bytes());
        for number in 0..5_460 {
            bytes.extend((first + 2 * number).to_le_bytes());
            bytes.push(0x22);
        }
        bytes
    };
    let (a, b) = (context(0), context(1));
    let sum = a.len() + b.len();
    let answer = calls::common_subtype(&a, &b, sum, sum).expect("a subtype");
    assert_eq!((sum, answer.len()), (32_768, 32_764));
    assert_eq!(calls::common_subtype(&a, &b, sum, 32_763), Err(18));
    assert_eq!(calls::common_subtype(&a, &b, sum - 1, sum), Err(14));
}

#[test]
fn near_copies_stand_where_they_should() {
    let mut random = Random::new(3);
    let mut compared = 0;
    for _ in 0..2_000 {
        let tree = Tree::random(6, 12, &mut random);
        let copies = [Move::Up, Move::Down].map(|how| near(&tree, how, &mut random).bytes());
        let bytes = tree.bytes();
        assert_eq!(calls::is_conformant(&bytes, &copies[0]), Ok(true));
        assert_eq!(calls::is_conformant(&copies[1], &bytes), Ok(true));
        compared += usize::from(copies[0] != bytes && copies[1] != bytes);
    }
    assert!(compared > 1_000, "{compared}");
}
