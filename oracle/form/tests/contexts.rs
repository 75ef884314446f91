//! Document 01's section "Paths into a context", sentence by sentence, example 12, the small
//! questions on contexts, and the refusals of these calls in their order.

use feel_form::contexts::{self, Part};
use feel_form::{MAX_LENGTH, MAX_VALUE_LEVEL};

/// The bytes of hexadecimal digits; blanks are free between bytes.
fn bytes(hex: &str) -> Vec<u8> {
    let digits: Vec<char> = hex.chars().filter(|digit| *digit != ' ').collect();
    let byte = |two: &[char]| String::from_iter(two);
    let parse = |byte: String| u8::from_str_radix(&byte, 16).expect("hexadecimal digits");
    digits.chunks(2).map(byte).map(parse).collect()
}

fn create(c: &str, path: &[u16], v: &str) -> Result<Vec<u8>, u8> {
    contexts::create_entries(&bytes(c), path, &bytes(v), MAX_LENGTH)
}

fn apply(c: &str, path: &[u16], v: &str) -> Result<Vec<u8>, u8> {
    contexts::apply_entries(&bytes(c), path, &bytes(v), MAX_LENGTH)
}

fn search(c: &str, path: &[u16]) -> Result<Option<Part>, u8> {
    contexts::search_deep(&bytes(c), path)
}

fn moved(c: &str, name: u16, parent: u16) -> Result<Vec<u8>, u8> {
    contexts::move_entry(&bytes(c), name, parent, MAX_LENGTH)
}

fn part(place: usize, length: usize) -> Result<Option<Part>, u8> {
    Ok(Some(Part { place, length }))
}

/// {1: true, 2: {3: Irrelevant}}
const C: &str = "0B 0200 0100 01 01 0200 0B 0100 0300 0F";

/// Contexts inside each other, each with the name 1; so many of them around the value.
fn chain(count: usize, v: &str) -> String {
    format!("{}{v}", "0B 0100 0100 ".repeat(count))
}

/// A value for each of the refusals 1 to 5.
fn refused() -> [(String, u8); 6] {
    [
        (String::new(), 1),
        ("10".to_string(), 2),
        ("0B 0100 0100 00 04".to_string(), 2),
        ("0B 0200 0100 0F 0100 0F".to_string(), 3),
        (chain(MAX_VALUE_LEVEL, "0F"), 4),
        ("0B 0000 0F".to_string(), 5),
    ]
}

#[test]
fn example_12() {
    let v = "02 0500000000000000";
    assert_eq!(
        create("0B 0100 0100 01 01", &[1, 2], v),
        Ok(bytes(&format!("0B 0100 0100 0B 0100 0200 {v}")))
    );
    assert_eq!(apply("0B 0100 0100 01 01", &[1, 2], v), Err(16));
}

#[test]
fn an_entry_is_a_part_of_the_bytes() {
    let c = bytes("0B 0100 0500 01 01");
    assert_eq!(contexts::get_entry(&c, 5), part(5, 2));
    assert_eq!(contexts::get_entry(&c, 4), Ok(None));
    assert_eq!(contexts::get_entry(&c, 0x0500), Ok(None));
    assert_eq!(contexts::get_first(&c), part(5, 2));
    assert_eq!(contexts::get_first(&bytes("0B 0000")), Ok(None));
    let part = Part {
        place: 5,
        length: 2,
    };
    assert_eq!((part.number(), part.of(&c)), (5 * 65_536 + 2, &[1, 1][..]));
}

#[test]
fn a_path_is_followed_through_contexts() {
    assert_eq!(search(C, &[1]), part(5, 2));
    assert_eq!(search(C, &[2]), part(9, 6));
    assert_eq!(search(C, &[2, 3]), part(14, 1));
    for path in [&[][..], &[3], &[1, 3], &[2, 1], &[2, 3, 3], &[3, 2]] {
        assert_eq!(search(C, path), Ok(None), "{path:?}");
        assert_eq!(contexts::contains_deep(&bytes(C), path), Ok(false));
    }
    // A list is not looked into.
    assert_eq!(
        search("0B 0100 0100 0A 0100 0B 0100 0100 0F", &[1, 1]),
        Ok(None)
    );
    assert_eq!(contexts::contains_deep(&bytes(C), &[2, 3]), Ok(true));
    let deep = chain(30, "0F");
    assert_eq!(search(&deep, &[1; 30]), part(150, 1));
    assert_eq!(search(&deep, &[1; 31]), Ok(None));
    assert_eq!(search(&deep, &[1; 32]), Err(11));
}

#[test]
fn the_small_questions() {
    let c = bytes(C);
    for (name, contained, context) in [(0, false, false), (1, true, false), (2, true, true)] {
        assert_eq!(contexts::contains_entry(&c, name), Ok(contained));
        assert_eq!(contexts::is_context(&c, name), Ok(context));
    }
    assert_eq!(contexts::is_empty(&c), Ok(false));
    assert_eq!(contexts::is_empty(&bytes("0B 0000")), Ok(true));
    assert_eq!(contexts::len(&c), Ok(2));
    assert_eq!(contexts::len(&bytes("0B 0000")), Ok(0));
}

#[test]
fn an_empty_path_copies() {
    assert_eq!(create(C, &[], "0F"), Ok(bytes(C)));
    assert_eq!(apply(C, &[], "0F"), Ok(bytes(C)));
}

#[test]
fn entries_are_created_and_applied() {
    for (path, after) in [
        (&[0][..], "0B 0300 0000 0F 0100 01 01 0200 0B 0100 0300 0F"),
        (&[1], "0B 0200 0100 0F 0200 0B 0100 0300 0F"),
        (&[2], "0B 0200 0100 01 01 0200 0F"),
        (&[2, 4], "0B 0200 0100 01 01 0200 0B 0200 0300 0F 0400 0F"),
        (
            &[0xFFFF, 7],
            "0B 0300 0100 01 01 0200 0B 0100 0300 0F FFFF 0B 0100 0700 0F",
        ),
    ] {
        assert_eq!(create(C, path, "0F"), Ok(bytes(after)));
        assert_eq!(apply(C, path, "0F"), Ok(bytes(after)));
    }
    // What is no context on the way.
    assert_eq!(
        create(C, &[2, 3, 4, 5], "0F"),
        Ok(bytes(
            "0B 0200 0100 01 01 0200 0B 0100 0300 0B 0100 0400 0B 0100 0500 0F"
        ))
    );
    assert_eq!(apply(C, &[2, 3, 4, 5], "0F"), Err(16));
    assert_eq!(apply("0B 0100 0100 00 00", &[1, 2], "0F"), Err(16));
}

#[test]
fn contexts_are_zipped_and_overwritten() {
    let (c, other) = (bytes(C), bytes("0B 0300 0000 0F 0200 00 01 0500 0F"));
    assert_eq!(
        contexts::zip(&c, &other, MAX_LENGTH),
        Ok(bytes("0B 0400 0000 0F 0100 01 01 0200 00 01 0500 0F"))
    );
    assert_eq!(
        contexts::overwrite(&c, &other, MAX_LENGTH),
        Ok(bytes("0B 0200 0100 01 01 0200 00 01"))
    );
    assert_eq!(
        contexts::overwrite(&other, &c, MAX_LENGTH),
        Ok(bytes("0B 0300 0000 0F 0200 0B 0100 0300 0F 0500 0F"))
    );
}

#[test]
fn an_entry_is_moved_below_its_parent() {
    assert_eq!(moved(C, 7, 2), Ok(bytes(C)));
    assert_eq!(
        moved(C, 1, 2),
        Ok(bytes("0B 0100 0200 0B 0200 0100 01 01 0300 0F"))
    );
    // A parent that is no context is replaced, one that is not there is made.
    assert_eq!(
        moved(C, 2, 1),
        Ok(bytes("0B 0100 0100 0B 0100 0200 0B 0100 0300 0F"))
    );
    assert_eq!(
        moved(C, 1, 9),
        Ok(bytes(
            "0B 0200 0200 0B 0100 0300 0F 0900 0B 0100 0100 01 01"
        ))
    );
    // Equal names nest: the entry is removed first.
    assert_eq!(
        moved(C, 2, 2),
        Ok(bytes(
            "0B 0200 0100 01 01 0200 0B 0100 0200 0B 0100 0300 0F"
        ))
    );
}

#[test]
fn entries_are_set_and_removed() {
    let c = bytes(C);
    assert_eq!(
        contexts::set_entry(&c, 2, &[0x0F], MAX_LENGTH),
        Ok(bytes("0B 0200 0100 01 01 0200 0F"))
    );
    assert_eq!(
        contexts::set_null(&c, 2, MAX_LENGTH),
        Ok(bytes("0B 0200 0100 01 01 0200 00 00"))
    );
    assert_eq!(
        contexts::set_null(&c, 0, MAX_LENGTH),
        Ok(bytes("0B 0300 0000 00 00 0100 01 01 0200 0B 0100 0300 0F"))
    );
    assert_eq!(
        contexts::remove_entry(&c, 2, MAX_LENGTH),
        Ok(bytes("0B 0100 0100 01 01"))
    );
    assert_eq!(contexts::remove_entry(&c, 3, MAX_LENGTH), Ok(bytes(C)));
}

#[test]
fn the_limits_of_a_value_come_before_the_output() {
    // A path of n names and a value of level l give level n + l.
    assert!(create("0B 0000", &[1; 30], "0F").is_ok());
    assert_eq!(create("0B 0000", &[1; 31], "0F"), Err(17));
    assert_eq!(apply("0B 0000", &[1; 31], "0F"), Err(17));
    assert!(create("0B 0000", &[1], &chain(29, "0F")).is_ok());
    assert_eq!(create("0B 0000", &[1], &chain(30, "0F")), Err(17));
    assert!(moved(&chain(29, "0F"), 1, 2).is_ok());
    assert_eq!(moved(&chain(30, "0F"), 1, 2), Err(17));
    // What was deep is replaced.
    assert_eq!(
        create(&chain(30, "0F"), &[1], "0F"),
        Ok(bytes("0B 0100 0100 0F"))
    );
    let long =
        |length: usize| feel_cases::context_chain(1, 1, &feel_cases::filled_list(length - 5));
    let set_null = |length, room| contexts::set_null(&long(length), 2, room);
    assert_eq!(
        set_null(MAX_LENGTH - 4, MAX_LENGTH).map(|after| after.len()),
        Ok(MAX_LENGTH)
    );
    assert_eq!(set_null(MAX_LENGTH - 4, MAX_LENGTH - 1), Err(18));
    assert_eq!(set_null(MAX_LENGTH - 3, MAX_LENGTH + 1), Err(17));
    assert_eq!(set_null(MAX_LENGTH - 3, 0), Err(17));
}

#[test]
fn the_output_must_be_long_enough() {
    let c = bytes(C);
    let after = bytes("0B 0100 0100 01 01");
    assert_eq!(contexts::remove_entry(&c, 2, after.len()), Ok(after));
    assert_eq!(contexts::remove_entry(&c, 2, 6), Err(18));
    assert_eq!(contexts::remove_entry(&c, 2, 0), Err(18));
    // An update that does not work comes first.
    let v = [0x0F];
    assert_eq!(contexts::apply_entries(&c, &[1, 1], &v, 0), Err(16));
    assert_eq!(contexts::apply_entries(&c, &[1; 31], &v, 0), Err(16));
}

#[test]
fn refusals_of_the_context_come_first() {
    for (bad, refusal) in refused() {
        let c = bytes(&bad);
        let (long, v) = ([1; 32], [0x10]);
        assert_eq!(contexts::get_entry(&c, 1), Err(refusal));
        assert_eq!(contexts::search_deep(&c, &long), Err(refusal));
        assert_eq!(contexts::get_first(&c), Err(refusal));
        assert_eq!(contexts::contains_entry(&c, 1), Err(refusal));
        assert_eq!(contexts::contains_deep(&c, &long), Err(refusal));
        assert_eq!(contexts::is_context(&c, 1), Err(refusal));
        assert_eq!(contexts::is_empty(&c), Err(refusal));
        assert_eq!(contexts::len(&c), Err(refusal));
        assert_eq!(contexts::create_entries(&c, &long, &v, 0), Err(refusal));
        assert_eq!(contexts::apply_entries(&c, &long, &v, 0), Err(refusal));
        assert_eq!(contexts::zip(&c, &v, 0), Err(refusal));
        assert_eq!(contexts::overwrite(&c, &v, 0), Err(refusal));
        assert_eq!(contexts::move_entry(&c, 1, 2, 0), Err(refusal));
        assert_eq!(contexts::set_entry(&c, 1, &v, 0), Err(refusal));
        assert_eq!(contexts::remove_entry(&c, 1, 0), Err(refusal));
        assert_eq!(contexts::set_null(&c, 1, 0), Err(refusal));
    }
}

#[test]
fn then_the_path_then_the_value_then_the_kind() {
    for (bad, refusal) in refused() {
        // The path before the value, the value before the kind.
        for c in [C, "0F"] {
            assert_eq!(create(c, &[1; 32], &bad), Err(11));
            assert_eq!(apply(c, &[1; 32], &bad), Err(11));
            assert_eq!(create(c, &[1, 1], &bad), Err(refusal));
            assert_eq!(apply(c, &[1, 1], &bad), Err(refusal));
            let (c, bad) = (bytes(c), bytes(&bad));
            assert_eq!(contexts::zip(&c, &bad, 0), Err(refusal));
            assert_eq!(contexts::overwrite(&c, &bad, 0), Err(refusal));
            assert_eq!(contexts::set_entry(&c, 1, &bad, 0), Err(refusal));
        }
    }
    for other in ["00 00", "03 0B00", "0A 0100 0B 0000", "0D 0B", "0E 2C 0000"] {
        assert_eq!(search(other, &[1; 32]), Err(11));
        assert_eq!(search(other, &[]), Err(12));
        assert_eq!(create(other, &[], "0F"), Err(12));
        let (c, other) = (bytes(C), bytes(other));
        assert_eq!(contexts::get_entry(&other, 1), Err(12));
        assert_eq!(contexts::get_first(&other), Err(12));
        assert_eq!(contexts::contains_entry(&other, 1), Err(12));
        assert_eq!(contexts::contains_deep(&other, &[1; 31]), Err(12));
        assert_eq!(contexts::is_context(&other, 1), Err(12));
        assert_eq!(contexts::is_empty(&other), Err(12));
        assert_eq!(contexts::len(&other), Err(12));
        assert_eq!(contexts::zip(&c, &other, 0), Err(12));
        assert_eq!(contexts::zip(&other, &c, 0), Err(12));
        assert_eq!(contexts::overwrite(&c, &other, 0), Err(12));
        assert_eq!(contexts::overwrite(&other, &c, 0), Err(12));
        assert_eq!(contexts::move_entry(&other, 1, 1, 0), Err(12));
        assert_eq!(contexts::set_entry(&other, 1, &[0x0F], 0), Err(12));
        assert_eq!(contexts::remove_entry(&other, 1, 0), Err(12));
        assert_eq!(contexts::set_null(&other, 1, 0), Err(12));
    }
}
