//! All strings over an alphabet.

use crate::Each;

/// Every string of exactly `length` bytes of `alphabet`, the first byte changing fastest.
pub fn each_string(alphabet: &[u8], length: usize, each: &mut Each) {
    let Some(&first) = alphabet.first() else {
        return;
    };
    let mut places = vec![0; length];
    let mut string = vec![first; length];
    loop {
        each(&string);
        let mut at = 0;
        loop {
            if at == length {
                return;
            }
            places[at] += 1;
            if places[at] < alphabet.len() {
                string[at] = alphabet[places[at]];
                break;
            }
            places[at] = 0;
            string[at] = first;
            at += 1;
        }
    }
}

#[cfg(test)]
mod tests {
    use super::*;
    use std::collections::BTreeSet;

    fn strings(alphabet: &[u8], length: usize) -> Vec<Vec<u8>> {
        let mut all = vec![];
        each_string(alphabet, length, &mut |string| all.push(string.to_vec()));
        all
    }

    #[test]
    fn each_string_occurs_once() {
        assert_eq!(strings(b"ab", 0), [b""]);
        assert_eq!(strings(b"ab", 2), [b"aa", b"ba", b"ab", b"bb"]);
        let all = strings(b"abc", 4);
        assert_eq!(all.len(), 81);
        assert_eq!(all.iter().collect::<BTreeSet<_>>().len(), 81);
    }
}
