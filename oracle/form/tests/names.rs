//! Document 01's section "Wording", sentence by sentence, and the refusals of these calls in their
//! order.

use feel_form::{MAX_LENGTH, names};

const ROOM: usize = 100_000;

/// The table of these texts.
fn table(texts: &[&str]) -> Vec<u8> {
    let mut table = (texts.len() as u16).to_le_bytes().to_vec();
    for text in texts {
        table.push(text.len() as u8);
        table.extend(text.as_bytes());
    }
    table
}

/// The parts of a name.
fn parts(parts: &[&str]) -> Vec<u8> {
    let mut bytes = vec![parts.len() as u8];
    for part in parts {
        bytes.push(part.len() as u8);
        bytes.extend(part.as_bytes());
    }
    bytes
}

fn display(t: &[u8], table: &[u8]) -> Result<String, u8> {
    let text = names::display(t, table, ROOM)?;
    Ok(String::from_utf8(text).expect("a text"))
}

fn name_new(row: &[&str]) -> Result<String, u8> {
    let name = names::name_new(&parts(row), ROOM)?;
    Ok(String::from_utf8(name).expect("a name"))
}

const NAMES: [&str; 10] = [
    "Any",
    "boolean",
    "number",
    "string",
    "date",
    "time",
    "date and time",
    "days and time duration",
    "years and months duration",
    "Null",
];

#[test]
fn the_ten_names() {
    for (command, name) in (0x20..).zip(NAMES) {
        assert_eq!(names::from_str(name.as_bytes()), Some(command));
        assert!(names::is_built_in_type_name(name.as_bytes()));
        assert_eq!(display(&[command], &table(&[])), Ok(name.to_string()));
    }
}

#[test]
fn any_other_string_is_unknown() {
    let long = "Any".repeat(10_000);
    for other in [
        "",
        "any",
        " Any",
        "Any ",
        "Any\0",
        "dat",
        "list<Any>",
        "caf\u{E9}",
        &long,
    ] {
        assert_eq!(names::from_str(other.as_bytes()), None, "{other}");
        assert!(!names::is_built_in_type_name(other.as_bytes()), "{other}");
    }
    // No string of the Rust.
    assert_eq!(names::from_str(b"Any\xFF"), None);
    assert!(!names::is_built_in_type_name(b"\xFFAny"));
}

#[test]
fn types_are_shown_with_the_texts_of_the_table() {
    let two = table(&["age", "first name"]);
    let shown = |t: &[u8]| display(t, &two).expect("accepted");
    assert_eq!(shown(&[0x2A, 0x22]), "list<number>");
    assert_eq!(shown(&[0x2B, 0x24]), "range<date>");
    assert_eq!(shown(&[0x2C, 0, 0]), "context<>");
    assert_eq!(
        shown(&[0x2C, 2, 0, 0, 0, 0x22, 1, 0, 0x23]),
        "context<age: number, first name: string>"
    );
    assert_eq!(
        shown(&[0x2D, 2, 0x22, 0x23, 0x21]),
        "function<number, string>->boolean"
    );
    assert_eq!(shown(&[0x2D, 0, 0x2A, 0x20]), "function<>->list<Any>");
    assert_eq!(
        shown(&[0x2A, 0x2C, 1, 0, 1, 0, 0x2D, 1, 0x29, 0x20]),
        "list<context<first name: function<Null>->Any>>"
    );
    assert_eq!(
        display(
            &[0x2C, 2, 0, 0, 0, 0x22, 1, 0, 0x23],
            &table(&["", ">, : <"])
        ),
        Ok("context<: number, >, : <: string>".to_string())
    );
}

#[test]
fn a_table_is_read_whole() {
    for texts in [
        &[][..],
        &[""],
        &["", "a"],
        &["a", "ab"],
        &["!", "~"],
        &["a b"],
    ] {
        assert_eq!(display(&[0x20], &table(texts)), Ok("Any".to_string()));
    }
    for texts in [
        &["a", "a"][..],
        &["b", "a"],
        &["ab", "a"],
        &["", ""],
        &["a", ""],
        &["b", "B"],
        &[" "],
        &[" a"],
        &["a "],
        &["\u{1F}"],
        &["\u{7F}"],
        &["a\tb"],
    ] {
        assert_eq!(display(&[0x20], &table(texts)), Err(19), "{texts:?}");
    }
    for bytes in [
        &[][..],
        &[0],
        &[0, 0, 0],
        &[1, 0],
        &[0, 1],
        &[1, 0, 1],
        &[1, 0, 2, b'a'],
        &[1, 0, 1, b'a', 0],
        &[2, 0, 1, b'a'],
        &[1, 0, 1, 0x80],
    ] {
        assert_eq!(display(&[0x20], bytes), Err(19), "{bytes:?}");
    }
}

#[test]
fn a_table_and_parts_have_at_most_16384_bytes() {
    for (last, table_answer, parts_answer) in [
        (253, Ok("Any".to_string()), Ok(String::new())),
        (254, Err(19), Ok(String::new())),
        (255, Err(19), Err(19)),
    ] {
        let mut texts: Vec<String> = (b'!'..=b'_')
            .map(|first| char::from(first).to_string() + &"a".repeat(254))
            .collect();
        texts.push("~".repeat(last));
        let texts: Vec<&str> = texts.iter().map(String::as_str).collect();
        let table = table(&texts);
        assert_eq!(table.len(), MAX_LENGTH + last - 253);
        assert_eq!(display(&[0x20], &table), table_answer);
        let blanks = [" ".repeat(255), " ".repeat(last)];
        let mut row = vec![blanks[0].as_str(); 63];
        row.push(&blanks[1]);
        assert_eq!(name_new(&row), parts_answer);
    }
}

#[test]
fn a_name_must_be_in_the_table() {
    let t = |name: u16| [&[0x2C, 1, 0][..], &name.to_le_bytes(), &[0x22]].concat();
    let two = table(&["a", "b"]);
    assert_eq!(display(&t(1), &two), Ok("context<b: number>".to_string()));
    for name in [2, 3, 0x0100, 0x0101, 0xFFFF] {
        assert_eq!(names::display(&t(name), &two, 0), Err(20));
    }
    assert_eq!(display(&t(0), &table(&[])), Err(20));
    // Also below a function without parameters.
    assert_eq!(display(&[&[0x2D, 0], &t(2)[..]].concat(), &two), Err(20));
}

#[test]
fn the_type_comes_first_then_the_table_then_the_name() {
    for (t, refusal) in [
        (&[][..], 6),
        (&[0x2A], 7),
        (&[0x2C, 2, 0, 1, 0, 0x20, 1, 0, 0x20], 8),
        (&[0x2A; 33], 9),
        (&[0x22, 0x22], 10),
    ] {
        assert_eq!(names::display(t, &[], 0), Err(refusal));
    }
    let missing = [0x2C, 1, 0, 9, 0, 0x22];
    assert_eq!(names::display(&missing, &[0, 0, 0], 0), Err(19));
    assert_eq!(names::display(&missing, &[0, 0], 0), Err(20));
    assert_eq!(names::display(&[0x22], &[0, 0], 5), Err(18));
    assert_eq!(names::display(&[0x22], &[0, 0], 6), Ok(b"number".to_vec()));
}

#[test]
fn parts_are_trimmed_and_joined() {
    for (row, name) in [
        (&[][..], ""),
        (&["a"], "a"),
        (&["", "b"], " b"),
        (&["first", "name"], "first name"),
        (&["a", ".", "b"], "a.b"),
        (&["a", "+", "-", "b", "c"], "a+-b c"),
        (&[" a b\t", "\r\n* ", "\u{B}c"], "a b*c"),
        (&["a", "  ", "b"], "a b"),
        (&["a", "\0", "\u{1F}"], "a \0 \u{1F}"),
        (&[".", "", "b"], ". b"),
        (&["a", "..", "b"], "a .. b"),
        (&["/", "'", "*"], "/'*"),
        (&["\u{7F}", "a"], "\u{7F} a"),
    ] {
        assert_eq!(name_new(row), Ok(name.to_string()), "{row:?}");
    }
    assert_eq!(name_new(&vec!["a"; 255]).map(|name| name.len()), Ok(509));
    for bytes in [
        &[][..],
        &[1],
        &[0, 0],
        &[1, 1],
        &[1, 1, b'a', 0],
        &[1, 1, 0x80],
        &[1, 2, 0xC2, 0xA0],
    ] {
        assert_eq!(names::name_new(bytes, 0), Err(19), "{bytes:?}");
    }
    assert_eq!(names::name_new(&parts(&["a", "b"]), 2), Err(18));
    assert_eq!(names::name_new(&parts(&["", " "]), 0), Ok(vec![]));
}

#[test]
fn trim_strips_09_to_0d_and_20() {
    for byte in 0..=255 {
        let blank = matches!(byte, 0x09..=0x0D | 0x20);
        let s = [byte, b'a', byte, b'b', byte];
        let expected = if blank { &s[1..4] } else { &s[..] };
        assert_eq!(names::trim(&s, 5), Ok(expected.to_vec()), "{byte:02X}");
        let alone = if blank { vec![] } else { vec![byte] };
        assert_eq!(names::trim(&[byte], 1), Ok(alone));
    }
    assert_eq!(names::trim(b" \t a b \n", 3), Ok(b"a b".to_vec()));
    assert_eq!(names::trim(b" \t a b \n", 2), Err(18));
    assert_eq!(names::trim(b"\t\n\x0B\x0C\r ", 0), Ok(vec![]));
    assert_eq!(names::trim(b"", 0), Ok(vec![]));
    assert_eq!(names::trim(&[b' '; 16_384], 0), Ok(vec![]));
    assert_eq!(names::trim(&[b' '; 16_385], 0), Err(19));
    // The blanks of other alphabets stay.
    let other = "\u{A0}\u{85}a\u{2003}".as_bytes();
    assert_eq!(names::trim(other, 100), Ok(other.to_vec()));
}
