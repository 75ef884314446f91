//! What is accepted is written back as it was read, and a random well-formed record within the
//! limits is accepted.

use feel_cases::{Kind, Random, each_string, long_records, random_draft};
use feel_form::{MAX_LENGTH, read_type, read_value, write_type, write_value};

#[test]
fn random_records() {
    let mut random = Random::new(7);
    let mut accepted = [0; 2];
    for _ in 0..3_000 {
        let bytes = random_draft(Kind::Value, &mut random).bytes;
        match read_value(&bytes) {
            Ok((value, _)) => {
                assert_eq!(write_value(&value), bytes);
                accepted[0] += 1;
            }
            Err(1) => assert!(bytes.len() > MAX_LENGTH),
            Err(refusal) => assert_eq!(refusal, 4),
        }
        let bytes = random_draft(Kind::Type, &mut random).bytes;
        match read_type(&bytes) {
            Ok((feel_type, _)) => {
                assert_eq!(write_type(&feel_type), bytes);
                accepted[1] += 1;
            }
            Err(6) => assert!(bytes.len() > MAX_LENGTH),
            Err(refusal) => assert_eq!(refusal, 9),
        }
    }
    assert!(accepted.iter().all(|&count| count > 2_000), "{accepted:?}");
}

#[test]
fn records_of_the_highest_length() {
    for bytes in long_records(Kind::Value, MAX_LENGTH) {
        let (value, _) = read_value(&bytes).expect("accepted");
        assert_eq!(write_value(&value), bytes);
    }
    for bytes in long_records(Kind::Type, MAX_LENGTH) {
        let (feel_type, _) = read_type(&bytes).expect("accepted");
        assert_eq!(write_type(&feel_type), bytes);
    }
}

#[test]
fn short_strings() {
    let mut accepted = [0; 2];
    let alphabet: Vec<u8> = (0..0x11).chain(0x20..0x2E).collect();
    for length in 1..=3 {
        each_string(&alphabet, length, &mut |bytes| {
            if let Ok((value, _)) = read_value(bytes) {
                assert_eq!(write_value(&value), bytes);
                accepted[0] += 1;
            }
            if let Ok((feel_type, _)) = read_type(bytes) {
                assert_eq!(write_type(&feel_type), bytes);
                accepted[1] += 1;
            }
        });
    }
    // Values of one byte: 0F. Of two: 4 nulls, 2 booleans, 31 built-in functions with a number in
    // the alphabet, 10 type values. Of three: 961 texts, the empty list and context, 0E over 20
    // types of two bytes.
    assert_eq!(accepted[0], 1 + (4 + 2 + 31 + 10) + (961 + 2 + 20));
    // Types of one byte: 10. Of two: 2A and 2B over those. Of three: 2A and 2B over those of two,
    // the empty context, 2D 00 over those of one.
    assert_eq!(accepted[1], 10 + 20 + (40 + 1 + 10));
}
