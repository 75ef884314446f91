//! Numbers, whole and decimal.

use crate::{Each, Random};

/// The highest exponent of a decimal number.
pub const MAX_EXPONENT: u8 = 18;

/// The bytes of a whole number, command 02.
pub fn whole(key: i64) -> Vec<u8> {
    [&[0x02], &key.to_le_bytes()[..]].concat()
}

/// The bytes of a decimal number, command 10; an exponent over [MAX_EXPONENT] is refused.
pub fn decimal(coefficient: i64, exponent: u8) -> Vec<u8> {
    [&[0x10], &coefficient.to_le_bytes()[..], &[exponent]].concat()
}

/// A random decimal number; equal ones that are written differently, and the ends of 64 bits, are
/// frequent.
pub fn random_decimal(random: &mut Random) -> Vec<u8> {
    const MANY: i64 = 1_000_000_000_000_000_000;
    let any = random.bits() as i64;
    let coefficient = random.pick(&[
        0,
        1,
        -1,
        25,
        250,
        -75,
        -7,
        MANY - 1,
        MANY,
        MANY + 1,
        -MANY - 1,
        i64::MIN,
        i64::MAX,
        any,
    ]);
    let exponent = random.pick(&[0, 0, 1, 1, 2, 2, 9, 17, 18]);
    decimal(coefficient, exponent)
}

/// Whether these are the bytes of a number.
pub fn is_number(bytes: &[u8]) -> bool {
    matches!(bytes[0], 0x02 | 0x10)
}

/// A number near this one: of equal value and written differently, one more or less in the last
/// digit, with another exponent, or of the other sign.
pub fn near_number(bytes: &[u8], random: &mut Random) -> Vec<u8> {
    let coefficient = i64::from_le_bytes(bytes[1..9].try_into().expect("eight bytes"));
    let exponent = bytes.get(9).copied().unwrap_or(0);
    match random.below(8) {
        0 | 1 => match coefficient.checked_mul(10) {
            Some(more) if exponent < MAX_EXPONENT => decimal(more, exponent + 1),
            _ if exponent > 0 && coefficient % 10 == 0 => decimal(coefficient / 10, exponent - 1),
            _ => decimal(coefficient, exponent),
        },
        2 if exponent == 0 && bytes[0] == 0x10 => whole(coefficient),
        2 => decimal(coefficient, exponent),
        3 => decimal(coefficient.wrapping_add(1), exponent),
        4 => decimal(coefficient.wrapping_sub(1), exponent),
        5 => decimal(coefficient, random.below(19) as u8),
        6 => decimal(coefficient.wrapping_neg(), exponent),
        _ => whole(coefficient),
    }
}

/// Decimals alone, in each parent and below the highest level: with every exponent, over 18 too, with
/// every beginning, and with bytes left over.
pub fn each_decimal(each: &mut Each) {
    let frames: [(&[u8], &[u8]); 7] = [
        (&[], &[]),
        (&[0x0A, 1, 0], &[]),
        (&[0x0A, 2, 0], &[0x0F]),
        (&[0x0A, 2, 0, 0x0F], &[]),
        (&[0x09, 0, 2], &[0x00, 0]),
        (&[0x09, 2, 2, 0x00, 3], &[]),
        (&[0x0B, 1, 0, 0x10, 0x10], &[]),
    ];
    for (before, after) in frames {
        for coefficient in [0, 25, -1, i64::MIN, i64::MAX] {
            for exponent in 0..=255 {
                each(&[before, &decimal(coefficient, exponent), after].concat());
            }
        }
        for exponent in [0, MAX_EXPONENT, MAX_EXPONENT + 1] {
            let bytes = decimal(0x1010_1010_1010_1010, exponent);
            for end in 0..bytes.len() {
                each(&[before, &bytes[..end]].concat());
                each(&[before, &bytes[..end], after].concat());
            }
            for more in [&[0x00][..], &[0x0F], &[0x10], &bytes] {
                each(&[before, &bytes, after, more].concat());
            }
        }
    }
    for parents in 29..=32 {
        for exponent in [0, 1, MAX_EXPONENT, MAX_EXPONENT + 1, 255] {
            let bytes = [&[0x0A, 1, 0].repeat(parents), &decimal(25, exponent)[..]].concat();
            each(&bytes);
            each(&bytes[..bytes.len() - 1]);
            each(&bytes[..bytes.len() - 9]);
        }
    }
}

#[cfg(test)]
mod tests {
    use super::*;

    #[test]
    fn every_change_occurs() {
        let mut random = Random::new(1);
        let copies: Vec<Vec<u8>> = (0..1_000)
            .map(|_| near_number(&decimal(25, 1), &mut random))
            .collect();
        for expected in [
            decimal(250, 2),
            decimal(25, 1),
            decimal(26, 1),
            decimal(24, 1),
            decimal(25, 18),
            decimal(-25, 1),
            whole(25),
        ] {
            assert!(copies.contains(&expected), "{expected:02X?}");
        }
        let copies: Vec<Vec<u8>> = (0..1_000)
            .map(|_| near_number(&decimal(i64::MAX - 7, 0), &mut random))
            .collect();
        assert!(copies.contains(&whole(i64::MAX - 7)));
        let least: Vec<Vec<u8>> = (0..1_000)
            .map(|_| near_number(&whole(i64::MIN), &mut random))
            .collect();
        assert!(least.contains(&decimal(i64::MIN, 0)));
        assert!(least.iter().all(|number| is_number(number)));
    }

    #[test]
    fn every_fault_occurs() {
        let mut all = vec![];
        each_decimal(&mut |bytes| all.push(bytes.to_vec()));
        let has = |bytes: Vec<u8>| all.contains(&bytes);
        assert!(has(decimal(25, 18)) && has(decimal(25, 19)) && has(decimal(25, 255)));
        assert!(has(vec![0x10]) && has(vec![0x10; 9]));
        assert!(has(
            [&decimal(0x1010_1010_1010_1010, 0)[..], &[0x0F]].concat()
        ));
        assert!(has(
            [&[0x0A, 1, 0].repeat(30), &decimal(25, 18)[..]].concat()
        ));
    }
}
