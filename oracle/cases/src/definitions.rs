//! Function definitions of every count beside function types.

use crate::EachPair;

/// An own type and the target's: equal, below, above and beside each other, and functions, where
/// the parameters go the other way and the result of a parameterless one does not count.
const TWO: [(&[u8], &[u8]); 11] = [
    (&[0x22], &[0x22]),
    (&[0x22], &[0x20]),
    (&[0x20], &[0x22]),
    (&[0x29], &[0x22]),
    (&[0x22], &[0x29]),
    (&[0x22], &[0x23]),
    (&[0x2C, 1, 0, 1, 0, 0x22], &[0x2C, 0, 0]),
    (&[0x2C, 0, 0], &[0x2C, 1, 0, 1, 0, 0x22]),
    (&[0x2D, 1, 0x22, 0x20], &[0x2D, 1, 0x29, 0x20]),
    (&[0x2D, 1, 0x29, 0x20], &[0x2D, 1, 0x22, 0x20]),
    (&[0x2D, 0, 0x22], &[0x2D, 0, 0x23]),
];

/// Every count from 0 to 255: the results stand to each other in some way, and all parameters or
/// one of them, first, last or between; the other parameters are equal. Up to three parameters all
/// ways occur, with more parameters one in `step`, in turn. Then unequal counts.
pub fn each_definition(step: usize, each: &mut EachPair) {
    let equal: (&[u8], &[u8]) = (&[0x24], &[0x24]);
    for count in 0..=255usize {
        let mut turn = count;
        for result in TWO {
            for parameter in TWO {
                turn += 1;
                if count > 3 && turn % step > 0 {
                    continue;
                }
                for place in places(count) {
                    let types = |number| match place {
                        Some(place) if place != number => equal,
                        _ => parameter,
                    };
                    let own = (0..count).map(|number| types(number).0);
                    let target = (0..count).map(|number| types(number).1);
                    each(&definition(own, result.0), &function(target, result.1));
                }
                if count == 0 {
                    break;
                }
            }
        }
        let numbers = |count| std::iter::repeat_n(&[0x22][..], count);
        for other in [0, 1, count.wrapping_sub(1), count + 1, count ^ 0x80, 255] {
            if other <= 255 {
                let (v, t) = (
                    definition(numbers(count), &[0x22]),
                    function(numbers(other), &[0x22]),
                );
                each(&v, &t);
                each(
                    &[&[0x0A, 2, 0, 0x00, 0], &v[..]].concat(),
                    &[&[0x2A], &t[..]].concat(),
                );
            }
        }
    }
}

/// Which parameters are meant: all, the first, the one between, the last.
fn places(count: usize) -> Vec<Option<usize>> {
    match count {
        0 | 1 => vec![None],
        _ => vec![None, Some(0), Some(count / 2), Some(count - 1)],
    }
}

/// A function definition with these types; the names of its parameters descend.
fn definition<'a>(parameters: impl Iterator<Item = &'a [u8]>, result: &[u8]) -> Vec<u8> {
    let mut types = vec![];
    let mut count: u16 = 0;
    for parameter in parameters {
        types.extend((300 - count).to_le_bytes());
        types.extend(parameter);
        count += 1;
    }
    [&[0x0C, count as u8, 0x34, 0x12], result, &types].concat()
}

/// A function type.
fn function<'a>(parameters: impl Iterator<Item = &'a [u8]>, result: &[u8]) -> Vec<u8> {
    let parameters: Vec<&[u8]> = parameters.collect();
    let count = parameters.len() as u8;
    [&[0x2D, count], &parameters.concat()[..], result].concat()
}

#[cfg(test)]
mod tests {
    use super::*;

    #[test]
    fn definitions_of_every_count_occur() {
        let mut equal = [0; 256];
        let mut unequal = [0; 256];
        each_definition(4, &mut |v, t| {
            if v[0] == 0x0C {
                let counts = if v[1] == t[1] {
                    &mut equal
                } else {
                    &mut unequal
                };
                counts[usize::from(v[1])] += 1;
            }
        });
        assert!(equal[0] >= 11 && equal[1] >= 121);
        assert!(equal[2] >= 4 * 121 && equal[3] >= 4 * 121);
        assert!(equal[4..].iter().all(|count| *count >= 4 * 30));
        assert!(unequal.iter().all(|count| *count >= 2));
        let parameters: [&[u8]; 2] = [&[0x22], &[0x23]];
        assert_eq!(
            definition(parameters.into_iter(), &[0x21]),
            [0x0C, 2, 0x34, 0x12, 0x21, 44, 1, 0x22, 43, 1, 0x23]
        );
        assert_eq!(
            function(parameters.into_iter(), &[0x21]),
            [0x2D, 2, 0x22, 0x23, 0x21]
        );
    }
}
