//! Records at the limit of length.

use crate::{Each, Kind, MAX_EXPONENT, decimal};

/// The lengths around the limit, and two where a 16-bit length starts again.
const LENGTHS: [usize; 6] = [16_383, 16_384, 16_385, 16_386, 65_536, 65_537];

/// Well-formed records of exactly `length` bytes, made in several ways.
pub fn long_records(kind: Kind, length: usize) -> Vec<Vec<u8>> {
    match kind {
        Kind::Value => {
            let list = |item: &[u8]| list_of(item, length);
            let numbers = list(&[0x02, 1, 0, 0, 0, 0, 0, 0, 0x80]);
            let ranges = list(&[0x09, 2, 2, 0x03, 1, 0, 0x03, 0, 1]);
            let decimals = list(&decimal(i64::MIN, MAX_EXPONENT));
            let mut definition = vec![0x0C, 255, 1, 0, 0x20];
            let mut function = vec![0x0E, 0x2D, 255];
            for number in 0..255 {
                definition.extend([255 - number, 0, 0x22]);
                function.push(0x23);
            }
            function.push(0x20);
            vec![
                list(&[0x0F]),
                list(&[0x00, 3]),
                numbers,
                ranges,
                list(&definition),
                list(&function),
                context_of(0x0B, &[0x0F], &[0x00, 0], length),
                context_of(0x0B, &[0x0E, 0x22], &[0x0E, 0x2A, 0x22], length),
                [
                    &[0x0E],
                    &context_of(0x2C, &[0x22], &[0x2B, 0x22], length - 1)[..],
                ]
                .concat(),
                decimals,
            ]
        }
        Kind::Type => {
            let mut function = vec![0x2D, 255];
            function.extend([0x24; 256]);
            let longer = [&[0x2A], &function[..]].concat();
            vec![
                context_of(0x2C, &[0x20], &[0x2A, 0x20], length),
                context_of(0x2C, &[0x2C, 0, 0], &[0x2A, 0x2C, 0, 0], length),
                context_of(0x2C, &function, &longer, length),
                [
                    &[0x2A],
                    &context_of(0x2C, &[0x29], &[0x2B, 0x29], length - 1)[..],
                ]
                .concat(),
                [
                    &[0x2D, 1, 0x20],
                    &context_of(0x2C, &[0x29], &[0x2B, 0x29], length - 3)[..],
                ]
                .concat(),
            ]
        }
    }
}

/// Data values of exactly `length` bytes: wide lists with Null first, last or between, lists of
/// contexts, of lists, of ranges and of decimals, wide contexts, ranges of wide lists, wide lists deep
/// inside.
pub fn long_data(length: usize) -> Vec<Vec<u8>> {
    let number: &[u8] = &[0x02, 1, 0, 0, 0, 0, 0, 0, 0];
    let fraction = decimal(25, 1);
    let record: &[u8] = &[0x0B, 2, 0, 1, 0, 0x01, 1, 2, 0, 0x00, 0];
    let less: &[u8] = &[0x0B, 1, 0, 1, 0, 0x00, 0];
    let lists: &[u8] = &[0x0A, 2, 0, 0x0A, 0, 0, 0x0A, 1, 0, 0x01, 0];
    let range: &[u8] = &[0x09, 2, 2, 0x03, 1, 0, 0x00, 0];
    // Items, then as many of the next as there is room for, then Null.
    let list = |length: usize, first: &[&[u8]], next: &[u8], last: &[&[u8]]| {
        let ends = [first.concat(), last.concat()].map(|items| items.len());
        let space = length - 3 - ends[0] - ends[1];
        // Null has two bytes, a text three; at least one byte must not be left alone.
        let next_count = (space - 3) / next.len();
        let rest = space - next_count * next.len();
        let texts = rest % 2;
        let nulls = (rest - 3 * texts) / 2;
        let count = first.len() + last.len() + next_count + texts + nulls;
        let middle = next_count / 2;
        [
            &[0x0A],
            &(count as u16).to_le_bytes()[..],
            &first.concat(),
            &next.repeat(middle),
            &[0x00, 0].repeat(nulls),
            &[0x03, 7, 0].repeat(texts),
            &next.repeat(next_count - middle),
            &last.concat(),
        ]
        .concat()
    };
    let wide_context = context_of(0x0B, &[0x00, 0], &[0x03, 7, 0], length - 500);
    let half = (length - 3) / 2;
    let ends = [half, length - 3 - half];
    vec![
        list(length, &[], &[0x00, 0], &[]),
        list(length, &[], &[0x00, 0], &[number]),
        list(length, &[number], &[0x00, 0], &[]),
        list(length, &[], number, &[]),
        list(length, &[&[0x00, 0]], number, &[&[0x00, 1]]),
        list(length, &[], &[0x01, 1], &[number]),
        list(length, &[], record, &[]),
        list(length, &[record], less, &[]),
        list(length, &[less], record, &[]),
        list(length, &[], lists, &[]),
        list(length, &[], &[0x0A, 0, 0], &[lists]),
        list(length, &[], range, &[]),
        list(length, &[&wide_context], &[0x00, 3], &[]),
        list(length, &[&wide_context], &[0x0B, 0, 0], &[]),
        context_of(0x0B, &[0x00, 0], &[0x03, 7, 0], length),
        context_of(
            0x0B,
            lists,
            &list(lists.len() + 1, &[], &[0x00, 0], &[]),
            length,
        ),
        [
            &[0x09, 1, 2],
            &list(ends[0], &[], number, &[])[..],
            &list(ends[1], &[], &[0x01, 1], &[]),
        ]
        .concat(),
        [
            &[0x0A, 1, 0].repeat(29),
            &list(length - 87, &[], number, &[])[..],
        ]
        .concat(),
        list(length, &[], &fraction, &[]),
        list(length, &[number], &fraction, &[&fraction, &[0x00, 0]]),
        context_of(0x0B, number, &fraction, length),
    ]
}

/// A list of `item` repeated, filled up with Irrelevant.
fn list_of(item: &[u8], length: usize) -> Vec<u8> {
    let space = length - 3;
    let items = space / item.len();
    let fill = space % item.len();
    let mut bytes = vec![0x0A];
    bytes.extend(((items + fill) as u16).to_le_bytes());
    bytes.extend(item.repeat(items));
    bytes.resize(length, 0x0F);
    bytes
}

/// A context of entries `entry`; the first ones are `longer`, which has one byte more, as often as
/// the length asks for it.
fn context_of(command: u8, entry: &[u8], longer: &[u8], length: usize) -> Vec<u8> {
    let space = length - 3;
    let width = 2 + entry.len();
    let entries = space / width;
    let over = space % width;
    assert!(over <= entries, "too few entries to make up {length} bytes");
    let mut bytes = vec![command];
    bytes.extend((entries as u16).to_le_bytes());
    for number in 0..entries {
        bytes.extend((number as u16).to_le_bytes());
        bytes.extend(if number < over { longer } else { entry });
    }
    bytes
}

/// The long records at every length of [LENGTHS], and copies with a byte changed at the front, in
/// the middle and at the end, with the last byte dropped and with one byte more.
pub fn each_long(kind: Kind, each: &mut Each) {
    for length in LENGTHS {
        for mut bytes in long_records(kind, length) {
            each(&bytes);
            for place in [0, 1, 2, 3, 4, length / 2, length - 2, length - 1] {
                for mask in [0x01, 0x20, 0xFF] {
                    bytes[place] ^= mask;
                    each(&bytes);
                    bytes[place] ^= mask;
                }
            }
            bytes.push(0x0F);
            each(&bytes);
            bytes.truncate(length - 1);
            each(&bytes);
        }
    }
}

#[cfg(test)]
mod tests {
    use super::*;

    #[test]
    fn long_records_have_their_length() {
        for kind in [Kind::Value, Kind::Type] {
            for length in LENGTHS {
                for bytes in long_records(kind, length) {
                    assert_eq!(bytes.len(), length);
                }
            }
        }
        for length in LENGTHS {
            for (number, bytes) in long_data(length).iter().enumerate() {
                assert_eq!(bytes.len(), length, "{number}");
            }
        }
    }
}
