//! Document 02's request K8, sentence by sentence.

use dsntk_feel::FeelType;
use feel_cases::{Move, Random, Tree, near, near_result, with_parameterless};
use feel_form::{Reading, calls, conforms, read_type, reduced};

/// The bytes of hexadecimal digits; blanks are free between bytes.
fn bytes(hex: &str) -> Vec<u8> {
    let digits: Vec<char> = hex.chars().filter(|digit| *digit != ' ').collect();
    let byte = |two: &[char]| String::from_iter(two);
    let parse = |byte: String| u8::from_str_radix(&byte, 16).expect("hexadecimal digits");
    digits.chunks(2).map(byte).map(parse).collect()
}

/// Whether the first type conforms to the second, as the Rust says and strictly.
fn types(a: &str, b: &str) -> [bool; 2] {
    let (a, b) = (bytes(a), bytes(b));
    [calls::is_conformant, calls::strict_is_conformant].map(|call| call(&a, &b).expect("accepted"))
}

/// Whether the value conforms to the type, as the Rust says and strictly.
fn values(v: &str, t: &str) -> [bool; 2] {
    let (v, t) = (bytes(v), bytes(t));
    [
        calls::value_is_conformant,
        calls::strict_value_is_conformant,
    ]
    .map(|call| call(&v, &t).expect("accepted"))
}

type Bound = fn(&[u8], &[u8], usize, usize) -> Result<Vec<u8>, u8>;

/// The bound is this one, in either order of the arguments.
fn assert_bound(bound: Bound, a: &str, b: &str, answer: &str) {
    for (a, b) in [(a, b), (b, a)] {
        let (a, b) = (bytes(a), bytes(b));
        let sum = a.len() + b.len();
        assert_eq!(
            bound(&a, &b, sum, sum),
            Ok(bytes(answer)),
            "{a:02X?} {b:02X?}"
        );
    }
}

fn least(v: &str) -> Result<Vec<u8>, u8> {
    let v = bytes(v);
    calls::strict_value_least_type(&v, 4 * v.len(), v.len())
}

#[test]
fn a_parameterless_function_conforms_only_if_its_result_does() {
    assert_eq!(types("2D 00 22", "2D 00 23"), [true, false]);
    assert_eq!(types("2D 00 22", "2D 00 20"), [true, true]);
    assert_eq!(types("2D 00 20", "2D 00 22"), [true, false]);
    assert_eq!(types("2A 2D 00 22", "2A 2D 00 23"), [true, false]);
    assert_eq!(types("2D 00 2D 00 22", "2D 00 2D 00 23"), [true, false]);
    // In a parameter it is the other way round.
    assert_eq!(
        types("2D 01 2D 00 20 22", "2D 01 2D 00 22 22"),
        [true, true]
    );
    assert_eq!(
        types("2D 01 2D 00 22 22", "2D 01 2D 00 20 22"),
        [true, false]
    );
    assert_eq!(types("2D 00 22", "2D 01 22 22"), [false, false]);
}

#[test]
fn a_function_definition_conforms_exactly_when_its_function_type_does() {
    assert_eq!(
        values("0C 01 0000 20 0000 22", "2D 01 20 20"),
        [true, false]
    );
    assert_eq!(
        values("0C 01 0000 20 0000 20", "2D 01 22 20"),
        [false, true]
    );
    assert_eq!(values("0C 00 0000 22", "2D 00 23"), [false, false]);
    let nested = "0C 00 0000 2D 00 22";
    assert_eq!(values(nested, "2D 00 2D 00 23"), [true, false]);
    assert_eq!(values(nested, "2D 00 2D 00 20"), [true, true]);
    assert_eq!(values(nested, "20"), [true, true]);
    assert_eq!(values(nested, "29"), [false, false]);
    let inside = "0B 0100 0100 0A 0200 00 00 0C 00 0000 2D 00 22";
    assert_eq!(
        values(inside, "2C 0100 0100 2A 2D 00 2D 00 23"),
        [true, false]
    );
    for other in ["0D 00", "0D 43", "0E 2D 00 22", "0F"] {
        assert_eq!(values(other, "20"), [true, true]);
        for t in ["2D 01 22 22", "2D 00 22", "29"] {
            assert_eq!(values(other, t), [false, false]);
        }
    }
}

#[test]
fn the_bounds_work_on_results_and_reduce_nothing() {
    let supertype = calls::strict_common_supertype;
    assert_bound(supertype, "2D 00 22", "2D 00 23", "2D 00 20");
    assert_bound(supertype, "2D 00 2A 22", "2D 00 2A 23", "2D 00 2A 20");
    assert_bound(supertype, "29", "2A 2D 00 22", "2A 2D 00 22");
    assert_bound(supertype, "2D 00 22", "2D 01 22 22", "20");
    let subtype = calls::strict_common_subtype;
    assert_bound(subtype, "2D 00 22", "2D 00 23", "2D 00 29");
    assert_bound(subtype, "20", "2A 2D 00 22", "2A 2D 00 22");
    assert_bound(
        subtype,
        "2C 0100 0100 2D 00 22",
        "2C 0100 0200 2D 00 23",
        "2C 0200 0100 2D 00 22 0200 2D 00 23",
    );
    // Parameters go the other way.
    assert_bound(
        supertype,
        "2D 01 2D 00 22 22",
        "2D 01 2D 00 23 22",
        "2D 01 2D 00 29 22",
    );
    assert_bound(
        subtype,
        "2D 01 2D 00 22 22",
        "2D 01 2D 00 23 22",
        "2D 01 2D 00 20 22",
    );
}

#[test]
fn a_function_definition_has_its_function_type() {
    assert_eq!(least("0C 00 0000 22"), Ok(bytes("2D 00 22")));
    let definition = "0C 02 3412 21 0900 22 0300 2D 00 23";
    assert_eq!(least(definition), Ok(bytes("2D 02 22 2D 00 23 21")));
    let two = "0C 00 0000 22 0C 00 0000 23";
    assert_eq!(least(&format!("0A 0200 {two}")), Ok(bytes("2A 2D 00 20")));
    assert_eq!(least(&format!("09 0000 {two}")), Ok(bytes("2B 2D 00 20")));
    assert_eq!(least("0A 0200 00 00 01 01"), Ok(bytes("2A 21")));
    for other in ["0D 00", "0E 22", "0F"] {
        assert_eq!(least(other), Err(13));
        assert_eq!(least(&format!("0A 0200 0C 00 0000 22 {other}")), Err(13));
    }
}

#[test]
fn refusals_come_in_their_order() {
    let call = calls::strict_value_least_type;
    let v = bytes("0C 00 0000 22");
    assert_eq!(call(&[0x0F], 0, 0), Err(13));
    assert_eq!(call(&v, 19, 0), Err(14));
    assert_eq!(call(&v, 20, 2), Err(18));
    assert_eq!(call(&v, 20, 3), Ok(bytes("2D 00 22")));
    for call in [calls::strict_common_supertype, calls::strict_common_subtype] {
        assert_eq!(call(&[], &[0x2E], 0, 0), Err(6));
        assert_eq!(call(&[0x22], &[0x2E], 0, 0), Err(7));
        assert_eq!(call(&[0x22], &[0x22], 1, 0), Err(14));
        assert_eq!(call(&[0x22], &[0x22], 2, 0), Err(18));
    }
}

fn feel_type(tree: &Tree) -> FeelType {
    read_type(&tree.bytes()).expect("accepted").0
}

#[test]
fn two_types_that_each_conform_to_the_other_are_equal() {
    let mut random = Random::new(1);
    let mut mutual = [0; 2];
    for _ in 0..20_000 {
        let tree = Tree::random(5, 1 + random.below(12), &mut random);
        let tree = with_parameterless(tree, &mut random);
        let how = random.pick(&[Move::Up, Move::Down, Move::Free]);
        let other = match random.below(2) {
            0 => near(&tree, how, &mut random),
            _ => near_result(&tree, how, &mut random),
        };
        let (a, b) = (feel_type(&tree), feel_type(&other));
        let both = |reading| conforms(&a, &b, reading) && conforms(&b, &a, reading);
        assert_eq!(both(Reading::Strict), tree.bytes() == other.bytes());
        assert_eq!(both(Reading::Ported), reduced(&a) == reduced(&b));
        mutual[0] += usize::from(both(Reading::Ported));
        mutual[1] += usize::from(both(Reading::Strict));
    }
    assert!(mutual[1] > 100 && mutual[0] > 5 * mutual[1], "{mutual:?}");
}
