//! Writes the sample week: pass requests, the types of nine missions, the table of names, and the
//! Rust's verdicts on every request by every mission.

mod missions;
mod names;
mod requests;

use feel_cases::Random;
use feel_form::{calls, words};
use missions::MISSIONS;
use std::path::Path;
use std::{env, fs, io, process};

const SEED: u64 = 1_412;

fn main() -> io::Result<()> {
    let words: Vec<String> = env::args().skip(1).collect();
    let [folder] = &words[..] else {
        eprintln!("usage: week FOLDER");
        process::exit(2);
    };
    for (name, text) in files() {
        fs::write(Path::new(folder).join(name), text)?;
    }
    Ok(())
}

/// The files by their names.
fn files() -> Vec<(&'static str, String)> {
    let requests = requests::requests(&mut Random::new(SEED));
    let types: Vec<Vec<u8>> = missions::types().iter().map(|t| t.bytes()).collect();
    let mut answers = String::new();
    for t in &types {
        for request in &requests {
            answers.push_str(&verdict(request, t));
            answers.push('\n');
        }
    }
    let lines = |records: &[Vec<u8>]| records.iter().map(|r| hex(r) + "\n").collect::<String>();
    let missions = MISSIONS
        .iter()
        .zip(&types)
        .map(|(mission, t)| format!("{mission} {}\n", hex(t)))
        .collect();
    vec![
        ("requests.txt", lines(&requests)),
        ("missions.txt", missions),
        ("names.txt", lines(&[names::table()])),
        ("answers.txt", answers),
    ]
}

/// The Rust's verdict in the words of the program `verdicts`.
fn verdict(request: &[u8], t: &[u8]) -> String {
    match calls::value_is_conformant(request, t) {
        Ok(true) => "yes".to_string(),
        Ok(false) => "no".to_string(),
        Err(refusal) => format!("refused {refusal}: {}", words(refusal)),
    }
}

fn hex(bytes: &[u8]) -> String {
    bytes.iter().map(|byte| format!("{byte:02X}")).collect()
}

#[cfg(test)]
mod tests {
    use super::*;
    use dsntk_feel::values::Value;
    use dsntk_feel_number::FeelNumber;
    use feel_form::{read_type, read_value};

    const FOLDER: &str = concat!(env!("CARGO_MANIFEST_DIR"), "/../../examples/week");

    #[test]
    fn the_stored_files_are_these() {
        for (name, text) in files() {
            let stored = fs::read_to_string(Path::new(FOLDER).join(name)).expect("stored");
            assert!(stored == text, "{name} is not what is written");
        }
    }

    #[test]
    fn every_mission_accepts_and_turns_down() {
        let requests = requests::requests(&mut Random::new(SEED));
        assert_eq!(requests.len(), 1_412);
        for t in missions::types() {
            let t = t.bytes();
            assert!(read_type(&t).is_ok());
            let verdicts: Vec<Result<bool, u8>> = requests
                .iter()
                .map(|request| calls::value_is_conformant(request, &t))
                .collect();
            for wanted in [Ok(true), Ok(false)] {
                assert!(
                    verdicts
                        .iter()
                        .filter(|verdict| **verdict == wanted)
                        .count()
                        > 50
                );
            }
        }
    }

    /// The numbers of the link margins in the accepted requests.
    fn margins() -> Vec<FeelNumber> {
        let name = feel_form::name(names::number("link margins"));
        let mut margins = vec![];
        for request in requests::requests(&mut Random::new(SEED)) {
            let Ok((Value::Context(request), _)) = read_value(&request) else {
                continue;
            };
            let values: Vec<&Value> = match request.get_entry(&name) {
                Some(Value::Context(entries)) => entries.values().collect(),
                Some(Value::List(items)) => items.iter().collect(),
                _ => vec![],
            };
            margins.extend(values.into_iter().filter_map(|value| match value {
                Value::Number(number) => Some(*number),
                _ => None,
            }));
        }
        margins
    }

    #[test]
    fn margins_are_decimals_of_every_sort() {
        let margins = margins();
        let count = |wanted: &dyn Fn(&FeelNumber) -> bool| {
            margins.iter().filter(|number| wanted(number)).count()
        };
        let zero = FeelNumber::whole(0);
        for exponent in [None, Some(1), Some(2)] {
            assert!(count(&|n| n.exponent() == exponent) > 100, "{exponent:?}");
            assert!(count(&|n| n.exponent() == exponent && *n < zero) > 10);
        }
        assert_eq!(count(&|n| n.exponent().is_some_and(|p| p > 2)), 0);
        // 2.5, 2.50 and -0.75; 3, 3.0 and 3.00.
        for (coefficient, exponent) in [(25, 1), (250, 2), (-75, 2), (30, 1), (300, 2)] {
            let same =
                |n: &FeelNumber| (n.coefficient(), n.exponent()) == (coefficient, Some(exponent));
            assert!(count(&same) > 0, "{coefficient} {exponent}");
        }
        assert!(count(&|n| n.coefficient() == 3 && n.exponent().is_none()) > 0);
    }

    #[test]
    fn names_ascend() {
        assert!(names::NAMES.is_sorted());
        assert!(
            feel_form::names::display(&missions::types()[0].bytes(), &names::table(), 1_000)
                .is_ok()
        );
    }
}
