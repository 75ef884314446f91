//! Writes cases as questions to the program `verdicts`, and the Rust's answers in its words, behind
//! the questions and answers that stand in its files `stdin` and `stdout`.

mod asked;
mod bounds;
mod conformance;
mod contexts;
mod inferred;
mod kinds;
mod list;
mod names;
mod pairs;
mod questions;
mod retrieval;
mod shared;
mod strict;
mod table;
mod types;
mod values;

use asked::Stored;
use list::Group;
use std::path::Path;
use std::{env, fs, io, process};

/// All groups, in the order of their calls.
fn groups() -> Vec<Group> {
    let mut groups: Vec<Group> = values::groups()
        .into_iter()
        .chain(types::groups())
        .chain(pairs::groups())
        .chain(bounds::groups())
        .chain(kinds::groups())
        .chain(conformance::groups())
        .chain(inferred::groups())
        .chain(retrieval::groups())
        .chain(questions::groups())
        .chain(contexts::groups())
        .chain(names::groups())
        .chain(strict::groups())
        .chain(table::groups())
        .collect();
    groups.sort_by_key(|group| group.call);
    groups
}

/// What stands in a folder.
fn read(folder: &Path) -> io::Result<Stored> {
    Ok(Stored {
        input: fs::read_to_string(folder.join("stdin"))?,
        output: fs::read_to_string(folder.join("stdout"))?,
    })
}

fn main() -> io::Result<()> {
    let words: Vec<String> = env::args().skip(1).collect();
    let [folder] = &words[..] else {
        eprintln!("usage: vectors FOLDER");
        process::exit(2);
    };
    let folder = Path::new(folder);
    let new = asked::stored(&groups(), &read(folder)?);
    fs::write(folder.join("stdin"), new.input)?;
    fs::write(folder.join("stdout"), new.output)
}

#[cfg(test)]
mod tests {
    use super::*;
    use feel_form::MAX_LENGTH;
    use list::{Answer, Call, Case};
    use std::collections::{BTreeMap, BTreeSet};

    /// Every case with its call and its answer.
    fn cases() -> Vec<(Call, Case, Answer)> {
        let mut all = vec![];
        for group in groups() {
            for case in group.cases {
                let answer = group.call.answer(&case);
                all.push((group.call, case, answer));
            }
        }
        all
    }

    #[test]
    fn groups_have_distinct_plain_titles() {
        let groups = groups();
        assert!((310..=360).contains(&groups.len()), "{}", groups.len());
        let titles: BTreeSet<&str> = groups.iter().map(|group| &group.title[..]).collect();
        assert_eq!(titles.len(), groups.len());
        for title in titles {
            assert!(title.len() <= 100 && title.bytes().all(|byte| (0x20..0x7F).contains(&byte)));
        }
    }

    #[test]
    fn the_calls_stand_in_their_order() {
        let calls: Vec<Call> = groups().iter().map(|group| group.call).collect();
        assert!(calls.is_sorted(), "{calls:?}");
    }

    #[test]
    fn every_answer_of_the_readers_occurs_often() {
        let mut refusals = BTreeMap::new();
        let mut levels = BTreeSet::new();
        let mut count = 0;
        for (_, _, answer) in cases()
            .iter()
            .filter(|(call, _, _)| *call <= Call::CheckType)
        {
            count += 1;
            match answer {
                Answer::Number(level) => {
                    levels.insert(*level);
                }
                Answer::Refused(refusal) => *refusals.entry(*refusal).or_insert(0) += 1,
                Answer::Bytes(bytes) => panic!("{bytes:?}"),
            }
        }
        assert!(count >= 500, "{count}");
        assert!(levels.contains(&1) && levels.contains(&31) && levels.contains(&32));
        for refusal in 1..=10 {
            // Of the refusals by length: no bytes, and one byte too many.
            let least = if refusal == 1 || refusal == 6 { 2 } else { 10 };
            assert!(refusals[&refusal] >= least, "{refusals:?}");
        }
    }

    #[test]
    fn every_answer_of_the_other_calls_occurs() {
        let mut answers: BTreeMap<Call, Vec<Answer>> = BTreeMap::new();
        let mut rather_long = 0;
        for (call, case, answer) in cases() {
            if call > Call::CheckType {
                let lengths = || case.args.iter().map(Vec::len);
                rather_long += lengths()
                    .filter(|length| (401..=800).contains(length))
                    .count();
                let long = lengths().filter(|length| *length > 800).count();
                assert!(long == 0 || call >= Call::CreateEntries);
                answers.entry(call).or_default().push(answer);
            }
        }
        // A function definition with 255 parameters, or nearly 256 items, or 256 entries; 255 parts.
        assert!(rather_long <= 11, "{rather_long}");
        assert_eq!(answers.len(), 58);
        for (call, answers) in answers {
            let counts = match call {
                Call::GetValueChecked | Call::GetConformantValue | Call::Coerced => 100..=210,
                Call::IsInvalidCoercion | Call::IsValidRange => 20..=80,
                _ if call >= Call::TableCheck => 10..=30,
                _ if call > Call::Trim => 15..=90,
                _ if call > Call::BifFeelType => 60..=140,
                _ if call > Call::IsValidRange => 5..=20,
                _ if call >= Call::ValueIsConformant => 150..=310,
                _ => 25..=65,
            };
            assert!(
                counts.contains(&answers.len()),
                "{call:?} {}",
                answers.len()
            );
            let (own, least): (&[u8], _) = match call {
                Call::CommonSupertype
                | Call::CommonSubtype
                | Call::ValueTypeOf
                | Call::StrictCommonSupertype
                | Call::StrictCommonSubtype => (&[14, 18], 3),
                Call::Reduced | Call::GetConformantValue | Call::BifFeelType => (&[18], 3),
                Call::ValueLeastType | Call::StrictValueLeastType => (&[13, 14, 18], 3),
                Call::GetValueChecked => (&[15, 18], 3),
                Call::Coerced => (&[17, 18], 3),
                Call::GetEntry | Call::GetFirst => (&[12], 3),
                Call::SearchDeep => (&[11, 12], 3),
                Call::CreateEntries => (&[11, 12, 17, 18], 3),
                Call::ApplyEntries => (&[11, 12, 16, 17, 18], 3),
                Call::MoveEntry | Call::SetEntry => (&[12, 17, 18], 3),
                // Only length leads to 17.
                Call::Zip | Call::Overwrite | Call::SetNull => (&[12, 17, 18], 1),
                Call::RemoveEntry => (&[12, 18], 3),
                Call::Display => (&[18, 19, 20], 3),
                Call::FromStr => {
                    assert!(answers.contains(&Answer::Number(0)));
                    assert!((0x20..=0x29).all(|known| answers.contains(&Answer::Number(known))));
                    (&[], 0)
                }
                Call::TableCommonSupertype | Call::TableCommonSubtype => (&[14, 18], 1),
                Call::TableValueLeastType => (&[13, 14, 18], 1),
                Call::TableCheck => {
                    assert!(answers.contains(&Answer::Number(1)));
                    (&[], 0)
                }
                Call::NameNew => (&[18, 19], 3),
                Call::Trim => (&[18], 3),
                _ => {
                    assert!(answers.contains(&Answer::Number(0)));
                    assert!(answers.contains(&Answer::Number(1)));
                    (&[], 0)
                }
            };
            let count = |refusal: &u8| {
                let refused = Answer::Refused(*refusal);
                answers.iter().filter(|answer| **answer == refused).count()
            };
            if (Call::GetEntry..=Call::SetNull).contains(&call) {
                let parts = |answer: &&Answer| matches!(answer, Answer::Number(2..));
                let none = answers.contains(&Answer::Number(0));
                let found = answers.iter().filter(parts).count();
                match call {
                    Call::GetEntry | Call::SearchDeep | Call::GetFirst => {
                        assert!(none && found > 10, "{call:?}");
                    }
                    Call::Len => assert!(none && answers.contains(&Answer::Number(256))),
                    Call::ContainsDeep => assert!(count(&11) >= 3 && count(&12) >= 3),
                    _ => assert!(count(&12) >= 3, "{call:?}"),
                }
            }
            let of_reading: &[u8] = match call {
                Call::ValueIsConformant
                | Call::StrictValueIsConformant
                | Call::GetValueChecked
                | Call::GetConformantValue
                | Call::Coerced => &[1, 2, 3, 4, 5, 6, 7, 8, 9, 10],
                Call::Display
                | Call::StrictIsConformant
                | Call::StrictCommonSupertype
                | Call::StrictCommonSubtype => &[6, 7, 8, 9, 10],
                Call::StrictValueLeastType => &[1, 2, 3, 4, 5],
                Call::TableIsConformant => &[6, 7, 8, 9, 10, 26, 27, 28],
                Call::TableValueIsConformant => &[1, 2, 5, 7, 26, 27, 28],
                Call::TableValueLeastType => &[1, 26, 27, 28],
                _ if call >= Call::TableCheck => &[26, 27, 28],
                _ if call > Call::Display => &[],
                _ if call > Call::BifFeelType => &[1, 2, 3, 4, 5],
                _ if call >= Call::IntervalOpened => &[2],
                _ if call >= Call::ValueLeastType => &[1, 2, 3, 4, 5],
                _ => &[6, 7, 8, 9, 10],
            };
            assert!(
                of_reading.iter().all(|refusal| count(refusal) > 0),
                "{call:?}"
            );
            assert!(
                own.iter().all(|refusal| count(refusal) >= least),
                "{call:?}"
            );
        }
    }

    #[test]
    fn the_examples_of_document_01_are_answered() {
        let examples = |call: Call| -> Vec<Answer> {
            let groups = groups();
            let is_examples =
                |group: &&Group| group.call == call && group.title.ends_with(": examples");
            let group = groups.iter().find(is_examples).expect("a group");
            group.cases.iter().map(|case| call.answer(case)).collect()
        };
        let bytes = |lines: [&str; 5]| lines.map(|line| Answer::Bytes(list::bytes(line))).to_vec();
        assert_eq!(
            examples(Call::ValueTypeOf),
            bytes(["2A 29", "2A 22", "2A 20", "2A 20", "2A 20"])
        );
        assert_eq!(
            examples(Call::ValueLeastType),
            bytes(["2A 29", "2A 22", "2A 22", "2A 20", "2A 2C 0100 0500 22"])
        );
        let one = |line: &str| vec![Answer::Bytes(list::bytes(line))];
        assert_eq!(examples(Call::Coerced), one("00 01"));
        assert_eq!(examples(Call::GetValueChecked), one("0B 0000"));
        assert_eq!(examples(Call::GetConformantValue), one("00 02"));
        assert_eq!(
            examples(Call::CreateEntries),
            one("0B 0100 0100 0B 0100 0200 0F")
        );
        assert_eq!(examples(Call::ApplyEntries), [Answer::Refused(16)]);
    }

    #[test]
    fn few_cases_are_long() {
        let long: Vec<usize> = cases()
            .iter()
            .flat_map(|(_, case, _)| &case.args)
            .map(Vec::len)
            .filter(|&length| length > 1_000)
            .collect();
        // Of the readers, of create_entries, of zip twice, of overwrite and of set_null; of a table and
        // of parts of 16,384 bytes and of one more, and of a table with 257 texts.
        assert_eq!(
            long[..4],
            [MAX_LENGTH, MAX_LENGTH + 1, MAX_LENGTH, MAX_LENGTH + 1]
        );
        assert_eq!(long.len(), 4 + 2 + 4 + 2 + 1 + 2 + 4);
    }

    #[test]
    fn what_is_stored_is_what_the_rust_answers() {
        let folder = Path::new(env!("CARGO_MANIFEST_DIR")).join("../../crates/verdicts");
        let old = read(&folder).expect("the files of the program");
        let new = asked::stored(&groups(), &old);
        assert!(new.input == old.input, "stdin is not what is written");
        assert!(new.output == old.output, "stdout is not what is written");
    }

    #[test]
    fn the_cases_are_questions_in_their_form() {
        let empty = Stored {
            input: String::new(),
            output: String::new(),
        };
        let new = asked::stored(&groups(), &empty);
        let is_hex = |byte: u8| byte.is_ascii_digit() || (b'A'..=b'F').contains(&byte);
        let is_bytes =
            |word: &str| word == "." || (word.len().is_multiple_of(2) && word.bytes().all(is_hex));
        let mut questions = BTreeSet::new();
        for line in new.input.lines().filter(|line| !line.starts_with('#')) {
            let (word, args) = line.split_once(' ').expect("a word and arguments");
            assert!(
                !word.is_empty() && args.split(", ").all(|arg| is_bytes(arg.trim())),
                "{line}"
            );
            assert!(questions.insert(line), "{line}");
        }
        assert_eq!(new.output.lines().count(), questions.len() + 1);
        assert!(
            (5_000..=6_500).contains(&questions.len()),
            "{}",
            questions.len()
        );
    }
}
