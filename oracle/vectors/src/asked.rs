//! The cases as questions to the program `verdicts`, and the Rust's answers in its words. What is
//! lent is always enough there, so the lengths of a case do not count, and cases that differ in them
//! alone are one question.

use crate::list::{Answer, Call, Case, Group, hex};
use feel_form::words;
use std::collections::BTreeSet;

/// More than any answer has.
const PLENTY: usize = 1 << 30;

/// The line of the input behind which the cases stand.
const MARK: &str = "# ==== the cases of oracle/vectors, which writes all that follows; the answers are the Rust's\n";

/// What the program reads and what it must write.
pub struct Stored {
    pub input: String,
    pub output: String,
}

/// The cases behind the questions that stand in front of the mark; the last line counts all.
pub fn stored(groups: &[Group], old: &Stored) -> Stored {
    let front = match old.input.split_once(MARK) {
        Some((front, _)) => front,
        None => &old.input,
    };
    let mut input = front.to_string();
    if !input.is_empty() && !input.ends_with('\n') {
        input.push('\n');
    }
    input.push_str(MARK);
    let asked = front.lines().filter(|line| asks(line)).count();
    let mut answers: Vec<String> = old.output.lines().take(asked).map(str::to_string).collect();
    assert_eq!(answers.len(), asked, "an answer for each question");
    let mut seen = BTreeSet::new();
    for group in groups {
        let mut title = format!("# {}\n", group.title);
        for case in &group.cases {
            let question = format!("{} {}\n", word(group.call), arguments(&case.args));
            if seen.insert(question.clone()) {
                input.push_str(&std::mem::take(&mut title));
                input.push_str(&question);
                answers.push(answer(group.call, case));
            }
        }
    }
    // The last line has no end: the program answers it all the same.
    input.pop();
    let count = |front: &str| answers.iter().filter(|a| a.starts_with(front)).count();
    let (refused, unread) = (count("refused "), count("line "));
    let answered = answers.len() - refused - unread;
    let all = answers.len();
    answers.push(format!(
        "{all} questions: {answered} answered, {refused} refused, {unread} not read\n"
    ));
    let output = answers.join("\n");
    Stored { input, output }
}

/// Whether a line asks anything.
fn asks(line: &str) -> bool {
    let line = line.split('#').next().unwrap_or("");
    !line.trim_matches([' ', '\t', '\r']).is_empty()
}

/// The arguments in hexadecimal; between commas no bytes are nothing.
fn arguments(args: &[Vec<u8>]) -> String {
    match args {
        [arg] => hex(arg),
        _ => {
            let args: Vec<String> = args.iter().map(|arg| hex(arg).replace('.', "")).collect();
            args.join(", ")
        }
    }
}

/// The Rust's answer to a case, in words.
fn answer(call: Call, case: &Case) -> String {
    let case = Case {
        args: case.args.clone(),
        lent: vec![PLENTY; case.lent.len()],
    };
    said(call, &case, &call.answer(&case))
}

/// An answer in words.
fn said(call: Call, case: &Case, answer: &Answer) -> String {
    match answer {
        Answer::Refused(refusal) => format!("refused {refusal}: {}", words(*refusal)),
        Answer::Bytes(bytes) => hex(bytes),
        Answer::Number(number) => said_number(call, case, *number),
    }
}

/// A number in the words of the call.
fn said_number(call: Call, case: &Case, number: usize) -> String {
    match call {
        Call::CheckValue | Call::CheckType | Call::Len => number.to_string(),
        Call::GetEntry | Call::SearchDeep | Call::GetFirst => match number {
            0 => "none".to_string(),
            part => {
                let (place, length) = (part >> 16, part & 0xFFFF);
                hex(&case.args[0][place..place + length])
            }
        },
        Call::FromStr => match number {
            0 => "unknown".to_string(),
            command => format!("{command:02X}"),
        },
        _ => ["no", "yes"][number].to_string(),
    }
}

/// The word of a question.
fn word(call: Call) -> &'static str {
    match call {
        Call::CheckValue => "check-value",
        Call::CheckType => "check-type",
        Call::IsConformant => "type-conforms",
        Call::InstanceOf => "instance-of",
        Call::CommonSupertype => "supertype",
        Call::CommonSubtype => "subtype",
        Call::Reduced => "reduced",
        Call::IsSimpleBuiltInType => "is-simple-built-in-type",
        Call::IsNull => "type-is-null",
        Call::ValueIsConformant => "conforms",
        Call::ValueLeastType => "least",
        Call::ValueTypeOf => "type-of",
        Call::GetValueChecked => "retrieve",
        Call::GetConformantValue => "retrieve-conformant",
        Call::Coerced => "coerce",
        Call::IsInvalidCoercion => "is-invalid-coercion",
        Call::IsValidRange => "is-valid-range",
        Call::ValueIsNull => "is-null",
        Call::IsTrue => "is-true",
        Call::IsFalse => "is-false",
        Call::IsNumber => "is-number",
        Call::IsString => "is-string",
        Call::IsList => "is-list",
        Call::IsRange => "is-range",
        Call::IntervalOpened => "opened",
        Call::IntervalClosed => "closed",
        Call::IntervalUndefined => "undefined",
        Call::BifFeelType => "bif-type",
        Call::GetEntry => "get-entry",
        Call::SearchDeep => "search",
        Call::GetFirst => "get-first",
        Call::ContainsEntry => "contains-entry",
        Call::ContainsDeep => "contains",
        Call::IsContext => "is-context",
        Call::IsEmpty => "is-empty",
        Call::Len => "len",
        Call::CreateEntries => "create",
        Call::ApplyEntries => "apply",
        Call::Zip => "zip",
        Call::Overwrite => "overwrite",
        Call::MoveEntry => "move-entry",
        Call::SetEntry => "set-entry",
        Call::RemoveEntry => "remove-entry",
        Call::SetNull => "set-null",
        Call::Display => "display",
        Call::FromStr => "from-str",
        Call::IsBuiltInTypeName => "is-built-in-type-name",
        Call::NameNew => "name-new",
        Call::Trim => "trim",
        Call::StrictIsConformant => "strict-type-conforms",
        Call::StrictCommonSupertype => "strict-supertype",
        Call::StrictCommonSubtype => "strict-subtype",
        Call::StrictValueIsConformant => "strict-conforms",
        Call::StrictValueLeastType => "strict-least",
        Call::TableCheck => "table-check",
        Call::TableIsConformant => "table-type-conforms",
        Call::TableCommonSupertype => "table-supertype",
        Call::TableCommonSubtype => "table-subtype",
        Call::TableValueIsConformant => "table-conforms",
        Call::TableValueLeastType => "table-least",
    }
}
