//! The refusals of document 01, their order, and the limits.

use feel_form::{read_type, read_value};

/// The level of a value, or its refusal.
fn value(bytes: &[u8]) -> Result<usize, u8> {
    read_value(bytes).map(|(_, level)| level)
}

/// The level of a type, or its refusal.
fn feel_type(bytes: &[u8]) -> Result<usize, u8> {
    read_type(bytes).map(|(_, level)| level)
}

/// A list of one item in a list of one item and so on, then `end`.
fn lists(count: usize, end: &[u8]) -> Vec<u8> {
    [&[0x0A, 1, 0].repeat(count), end].concat()
}

/// A list type in a list type and so on, then `end`.
fn list_types(count: usize, end: &[u8]) -> Vec<u8> {
    [&[0x2A].repeat(count), end].concat()
}

#[test]
fn length_comes_first() {
    assert_eq!(value(&[]), Err(1));
    assert_eq!(feel_type(&[]), Err(6));
    assert_eq!(value(&[0xFF; 16_384]), Err(2));
    assert_eq!(value(&[0xFF; 16_385]), Err(1));
    assert_eq!(feel_type(&[0xFF; 16_384]), Err(7));
    assert_eq!(feel_type(&[0xFF; 16_385]), Err(6));
}

#[test]
fn the_longest_records() {
    let list = |items: u16| {
        [
            &[0x0A],
            &items.to_le_bytes()[..],
            &[0x0F].repeat(items.into()),
        ]
        .concat()
    };
    assert_eq!(list(16_381).len(), 16_384);
    assert_eq!(value(&list(16_381)), Ok(2));
    assert_eq!(value(&list(16_382)), Err(1));
    let context = |entries: u16| {
        let mut bytes = [&[0x2A, 0x2C], &entries.to_le_bytes()[..]].concat();
        for number in 0..entries {
            bytes.extend(number.to_le_bytes());
            bytes.push(0x22);
        }
        bytes
    };
    assert_eq!(context(5_460).len(), 16_384);
    assert_eq!(feel_type(&context(5_460)), Ok(3));
    assert_eq!(feel_type(&context(5_461)), Err(6));
    assert_eq!(feel_type(&[&context(5_460)[..], &[0x20]].concat()), Err(6));
}

#[test]
fn an_end_inside_is_2_or_7() {
    let record = [
        0x0B, 2, 0, 1, 0, 0x09, 2, 2, 0x03, 1, 0, 0x04, 1, 2, 3, 4, 5, 6, 7, 8, 2, 0, 0x0C, 1, 1,
        0, 0x2A, 0x22, 5, 0, 0x2C, 1, 0, 3, 0, 0x2D, 1, 0x20, 0x21,
    ];
    assert_eq!(value(&record), Ok(5));
    for end in 1..record.len() {
        assert_eq!(value(&record[..end]), Err(2), "{end}");
    }
    let record = &record[30..];
    assert_eq!(feel_type(record), Ok(3));
    for end in 1..record.len() {
        assert_eq!(feel_type(&record[..end]), Err(7), "{end}");
    }
}

#[test]
fn one_operand_missing_is_2_in_any_case() {
    assert_eq!(value(&[0x09, 5]), Err(2));
    assert_eq!(value(&[0x09, 0]), Err(2));
    assert_eq!(value(&[0x0C, 0, 0]), Err(2));
    assert_eq!(value(&[0x0A, 1]), Err(2));
    assert_eq!(value(&[0x10, 0, 0, 0, 0, 0, 0, 0, 0]), Err(2));
    assert_eq!(feel_type(&[0x2C, 0]), Err(7));
    assert_eq!(feel_type(&[0x2D]), Err(7));
}

#[test]
fn an_exponent_is_at_most_18() {
    let decimal = |exponent: u8| [&[0x10], &(-75i64).to_le_bytes()[..], &[exponent]].concat();
    for exponent in 0..=255 {
        let answer = if exponent > 18 { Err(2) } else { Ok(1) };
        assert_eq!(value(&decimal(exponent)), answer);
        let inside = [&[0x0A, 2, 0], &decimal(exponent)[..], &decimal(18)].concat();
        assert_eq!(value(&inside), answer.map(|level| level + 1));
    }
    // It is judged before what follows, and the level before it.
    let unordered = [0x0B, 2, 0, 1, 0, 0x0F, 1, 0, 0x0F];
    assert_eq!(
        value(&[&[0x0A, 2, 0], &decimal(19)[..], &unordered].concat()),
        Err(2)
    );
    assert_eq!(value(&[&decimal(19)[..], &[0x0F]].concat()), Err(2));
    assert_eq!(value(&[&decimal(18)[..], &[0x0F]].concat()), Err(5));
    assert_eq!(value(&lists(30, &decimal(18))), Ok(31));
    assert_eq!(value(&lists(31, &decimal(18))), Err(4));
    assert_eq!(value(&lists(31, &decimal(19))), Err(4));
    assert_eq!(value(&lists(30, &decimal(19))), Err(2));
    for end in 1..10 {
        assert_eq!(value(&decimal(0)[..end]), Err(2));
        assert_eq!(value(&lists(3, &decimal(0)[..end])), Err(2));
    }
}

#[test]
fn a_type_is_no_value_and_a_value_no_type() {
    for command in 0x20..=0x2D {
        assert_eq!(value(&[command, 0, 0, 0x20]), Err(2));
        assert_eq!(value(&[0x0A, 1, 0, command, 0, 0, 0x20]), Err(2));
    }
    for command in 0x00..=0x10 {
        assert_eq!(feel_type(&[command, 0, 0, 0x20]), Err(7));
        assert_eq!(feel_type(&[0x2A, command, 0, 0, 0x20]), Err(7));
        assert_eq!(value(&[0x0E, command, 0, 0, 0x20]), Err(2));
    }
}

#[test]
fn names_ascend_strictly() {
    let context = |first: u16, second: u16| {
        let [a, b] = [first, second].map(u16::to_le_bytes);
        value(&[0x0B, 2, 0, a[0], a[1], 0x0F, b[0], b[1], 0x0F])
    };
    let context_type = |first: u16, second: u16| {
        let [a, b] = [first, second].map(u16::to_le_bytes);
        feel_type(&[0x2C, 2, 0, a[0], a[1], 0x20, b[0], b[1], 0x20])
    };
    for (first, second) in [(0, 1), (255, 256), (0x0102, 0x0201), (0, 0xFFFF)] {
        assert_eq!(context(first, second), Ok(2));
        assert_eq!(context(second, first), Err(3));
        assert_eq!(context(second, second), Err(3));
        assert_eq!(context_type(first, second), Ok(2));
        assert_eq!(context_type(second, first), Err(8));
        assert_eq!(context_type(second, second), Err(8));
    }
    // A context type in a value is refused with the value's number.
    let in_value = [0x0E, 0x2C, 2, 0, 1, 0, 0x20, 1, 0, 0x20];
    assert_eq!(value(&in_value), Err(3));
    // Names of an inner context start anew.
    let inner = [0x0B, 2, 0, 5, 0, 0x0B, 1, 0, 3, 0, 0x0F, 6, 0, 0x0F];
    assert_eq!(value(&inner), Ok(3));
}

#[test]
fn a_name_comes_before_its_child() {
    assert_eq!(value(&[0x0B, 2, 0, 1, 0, 0x0F, 1, 0, 0xFF]), Err(3));
    assert_eq!(value(&[0x0B, 2, 0, 1, 0, 0x0F, 1, 0]), Err(3));
    assert_eq!(value(&[0x0B, 2, 0, 1, 0, 0x0F, 1]), Err(2));
    assert_eq!(value(&[0x0B, 2, 0, 1, 0, 0xFF, 1, 0, 0x0F]), Err(2));
    assert_eq!(feel_type(&[0x2C, 2, 0, 1, 0, 0x20, 0, 0, 0x0F]), Err(8));
    assert_eq!(feel_type(&[0x2C, 2, 0, 1, 0, 0x20, 0, 0]), Err(8));
    assert_eq!(feel_type(&[0x2C, 2, 0, 1, 0, 0x20, 0]), Err(7));
    // Two entries at the level that is too deep: the first child decides before the second name.
    let entries = [0x0B, 2, 0, 1, 0, 0x0F, 1, 0, 0x0F];
    assert_eq!(value(&lists(29, &entries)), Err(3));
    assert_eq!(value(&lists(30, &entries)), Err(4));
    assert_eq!(value(&lists(30, &entries[..5])), Err(2));
}

#[test]
fn the_highest_levels() {
    for level in 1..=31 {
        assert_eq!(value(&lists(level - 1, &[0x0F])), Ok(level));
        assert_eq!(value(&lists(level - 1, &[0x0A, 0, 0])), Ok(level));
    }
    assert_eq!(value(&lists(31, &[0x0F])), Err(4));
    assert_eq!(value(&lists(31, &[0x0A, 0, 0])), Err(4));
    for level in 1..=32 {
        assert_eq!(feel_type(&list_types(level - 1, &[0x22])), Ok(level));
    }
    assert_eq!(feel_type(&list_types(32, &[0x22])), Err(9));
    assert_eq!(feel_type(&list_types(31, &[0x2C, 0, 0])), Ok(32));
    assert_eq!(feel_type(&list_types(32, &[0x2C, 0, 0])), Err(9));
}

#[test]
fn types_count_towards_the_level_of_a_value() {
    for outer in [&[0x0E][..], &[0x0C, 0, 0, 0], &[0x0C, 1, 0, 0, 0x20, 0, 0]] {
        for values in 0..30 {
            let with_types = |types| lists(values, &[outer, &list_types(types, &[0x20])].concat());
            assert_eq!(value(&with_types(29 - values)), Ok(31));
            assert_eq!(value(&with_types(30 - values)), Err(4));
        }
        assert_eq!(value(&lists(30, &[outer, &[0x20]].concat())), Err(4));
    }
}

#[test]
fn nothing_there_then_level_then_command() {
    assert_eq!(value(&lists(31, &[])), Err(2));
    assert_eq!(value(&lists(31, &[0xFF])), Err(4));
    assert_eq!(value(&lists(30, &[0xFF])), Err(2));
    assert_eq!(feel_type(&list_types(32, &[])), Err(7));
    assert_eq!(feel_type(&list_types(32, &[0xFF])), Err(9));
    assert_eq!(feel_type(&list_types(31, &[0xFF])), Err(7));
    let in_value =
        |types: usize, end: &[u8]| value(&[&[0x0E], &list_types(types, end)[..]].concat());
    assert_eq!(in_value(30, &[]), Err(2));
    assert_eq!(in_value(30, &[0xFF]), Err(4));
    assert_eq!(in_value(29, &[0xFF]), Err(2));
}

#[test]
fn the_first_fault_from_the_left_decides() {
    let deep = lists(31, &[0x0F]);
    assert_eq!(value(&[&[0x0A, 2, 0], &deep[..], &[0xFF]].concat()), Err(4));
    assert_eq!(value(&[&[0x0A, 2, 0, 0xFF], &deep[..]].concat()), Err(2));
    let unordered = [0x0B, 2, 0, 1, 0, 0x0F, 1, 0, 0x0F];
    assert_eq!(
        value(&[&[0x0A, 2, 0], &unordered[..], &[0xFF]].concat()),
        Err(3)
    );
    assert_eq!(
        value(&[&[0x0A, 2, 0, 0xFF], &unordered[..]].concat()),
        Err(2)
    );
}

#[test]
fn leftovers_come_last() {
    assert_eq!(value(&[0x0F, 0x0F]), Err(5));
    assert_eq!(value(&[0x0A, 0, 0, 0xFF]), Err(5));
    assert_eq!(value(&[0x01, 2, 0]), Err(2));
    assert_eq!(value(&[&lists(31, &[0x0F])[..], &[0]].concat()), Err(4));
    assert_eq!(feel_type(&[0x20, 0x20]), Err(10));
    assert_eq!(feel_type(&[0x2D, 0, 0x20, 0x20]), Err(10));
    assert_eq!(feel_type(&[0x2A, 0xFF, 0x20]), Err(7));
}

#[test]
fn counts_decide_how_much_is_read() {
    assert_eq!(value(&[0x0A, 1, 0, 0x0F, 0x0F]), Err(5));
    assert_eq!(value(&[0x0A, 3, 0, 0x0F, 0x0F]), Err(2));
    assert_eq!(value(&[0x0A, 0xFF, 0xFF, 0x0F, 0x0F]), Err(2));
    assert_eq!(value(&[0x0A, 0, 1, 0x0F]), Err(2));
    assert_eq!(value(&[0x0C, 1, 0, 0, 0x20]), Err(2));
    assert_eq!(value(&[0x0C, 0, 1, 0, 0x20]), Ok(2));
    let parameters =
        |count: u8, types: usize| feel_type(&[&[0x2D, count], &[0x22].repeat(types)[..]].concat());
    assert_eq!(parameters(255, 256), Ok(2));
    assert_eq!(parameters(255, 255), Err(7));
    assert_eq!(parameters(255, 257), Err(10));
}
