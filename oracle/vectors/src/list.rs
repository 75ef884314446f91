//! The cases, in groups, and the Rust's answers.

use feel_form::contexts::{self, Part};
use feel_form::{calls, names, read_type, read_value};

/// A call.
#[derive(Debug, Clone, Copy, PartialEq, Eq, PartialOrd, Ord)]
pub enum Call {
    CheckValue = 1,
    CheckType,
    IsConformant,
    InstanceOf,
    CommonSupertype,
    CommonSubtype,
    Reduced,
    IsSimpleBuiltInType,
    IsNull,
    ValueIsConformant,
    ValueLeastType,
    ValueTypeOf,
    GetValueChecked,
    GetConformantValue,
    Coerced,
    IsInvalidCoercion,
    IsValidRange,
    ValueIsNull,
    IsTrue,
    IsFalse,
    IsNumber,
    IsString,
    IsList,
    IsRange,
    IntervalOpened,
    IntervalClosed,
    IntervalUndefined,
    BifFeelType,
    GetEntry,
    SearchDeep,
    GetFirst,
    ContainsEntry,
    ContainsDeep,
    IsContext,
    IsEmpty,
    Len,
    CreateEntries,
    ApplyEntries,
    Zip,
    Overwrite,
    MoveEntry,
    SetEntry,
    RemoveEntry,
    SetNull,
    Display,
    FromStr,
    IsBuiltInTypeName,
    NameNew,
    Trim,
    StrictIsConformant,
    StrictCommonSupertype,
    StrictCommonSubtype,
    StrictValueIsConformant,
    StrictValueLeastType,
    TableCheck,
    TableIsConformant,
    TableCommonSupertype,
    TableCommonSubtype,
    TableValueIsConformant,
    TableValueLeastType,
}

impl Call {
    fn name(self) -> &'static str {
        match self {
            Call::CheckValue => "check_value",
            Call::CheckType => "check_type",
            Call::IsConformant => "type_is_conformant",
            Call::InstanceOf => "type_instance_of",
            Call::CommonSupertype => "type_common_supertype",
            Call::CommonSubtype => "type_common_subtype",
            Call::Reduced => "type_reduced",
            Call::IsSimpleBuiltInType => "type_is_simple_built_in_type",
            Call::IsNull => "type_is_null",
            Call::ValueIsConformant => "value_is_conformant",
            Call::ValueLeastType => "value_least_type",
            Call::ValueTypeOf => "value_type_of",
            Call::GetValueChecked => "type_get_value_checked",
            Call::GetConformantValue => "type_get_conformant_value",
            Call::Coerced => "value_coerced",
            Call::IsInvalidCoercion => "value_is_invalid_coercion",
            Call::IsValidRange => "value_is_valid_range",
            Call::ValueIsNull => "value_is_null",
            Call::IsTrue => "value_is_true",
            Call::IsFalse => "value_is_false",
            Call::IsNumber => "value_is_number",
            Call::IsString => "value_is_string",
            Call::IsList => "value_is_list",
            Call::IsRange => "value_is_range",
            Call::IntervalOpened => "interval_opened",
            Call::IntervalClosed => "interval_closed",
            Call::IntervalUndefined => "interval_undefined",
            Call::BifFeelType => "bif_feel_type",
            Call::GetEntry => "context_get_entry",
            Call::SearchDeep => "context_search_deep",
            Call::GetFirst => "context_get_first",
            Call::ContainsEntry => "context_contains_entry",
            Call::ContainsDeep => "context_contains_deep",
            Call::IsContext => "context_is_context",
            Call::IsEmpty => "context_is_empty",
            Call::Len => "context_len",
            Call::CreateEntries => "context_create_entries",
            Call::ApplyEntries => "context_apply_entries",
            Call::Zip => "context_zip",
            Call::Overwrite => "context_overwrite",
            Call::MoveEntry => "context_move_entry",
            Call::SetEntry => "context_set_entry",
            Call::RemoveEntry => "context_remove_entry",
            Call::SetNull => "context_set_null",
            Call::Display => "names_display",
            Call::FromStr => "names_from_str",
            Call::IsBuiltInTypeName => "names_is_built_in_type_name",
            Call::NameNew => "names_name_new",
            Call::Trim => "names_trim",
            Call::StrictIsConformant => "strict_type_is_conformant",
            Call::StrictCommonSupertype => "strict_type_common_supertype",
            Call::StrictCommonSubtype => "strict_type_common_subtype",
            Call::StrictValueIsConformant => "strict_value_is_conformant",
            Call::StrictValueLeastType => "strict_value_least_type",
            Call::TableCheck => "table_check",
            Call::TableIsConformant => "table_type_is_conformant",
            Call::TableCommonSupertype => "table_type_common_supertype",
            Call::TableCommonSubtype => "table_type_common_subtype",
            Call::TableValueIsConformant => "table_value_is_conformant",
            Call::TableValueLeastType => "table_value_least_type",
        }
    }

    /// The Rust's answer to a case.
    pub fn answer(self, case: &Case) -> Answer {
        let args: Vec<&[u8]> = case.args.iter().map(|arg| &arg[..]).collect();
        match (self, &args[..], &case.lent[..]) {
            (Call::CheckValue, [v], []) => number(read_value(v).map(|(_, level)| level)),
            (Call::CheckType, [t], []) => number(read_type(t).map(|(_, level)| level)),
            (Call::IsConformant, [a, b], []) => number(calls::is_conformant(a, b)),
            (Call::InstanceOf, [a, b], []) => number(calls::instance_of(a, b)),
            (Call::CommonSupertype, [a, b], [scratch, room]) => {
                bytes_or_refusal(calls::common_supertype(a, b, *scratch, *room))
            }
            (Call::CommonSubtype, [a, b], [scratch, room]) => {
                bytes_or_refusal(calls::common_subtype(a, b, *scratch, *room))
            }
            (Call::Reduced, [t], [room]) => bytes_or_refusal(calls::reduced(t, *room)),
            (Call::IsSimpleBuiltInType, [t], []) => number(calls::is_simple_built_in_type(t)),
            (Call::IsNull, [t], []) => number(calls::is_null(t)),
            (Call::ValueIsConformant, [v, t], []) => number(calls::value_is_conformant(v, t)),
            (Call::ValueLeastType, [v], [scratch, room]) => {
                bytes_or_refusal(calls::value_least_type(v, *scratch, *room))
            }
            (Call::ValueTypeOf, [v], [scratch, room]) => {
                bytes_or_refusal(calls::value_type_of(v, *scratch, *room))
            }
            (Call::GetValueChecked, [t, v], [room]) => {
                bytes_or_refusal(calls::get_value_checked(t, v, *room))
            }
            (Call::GetConformantValue, [t, v], [room]) => {
                bytes_or_refusal(calls::get_conformant_value(t, v, *room))
            }
            (Call::Coerced, [v, t], [room]) => bytes_or_refusal(calls::coerced(v, t, *room)),
            (Call::IsInvalidCoercion, [v], []) => number(calls::value_is_invalid_coercion(v)),
            (Call::IsValidRange, [v], []) => number(calls::value_is_valid_range(v)),
            (Call::ValueIsNull, [v], []) => number(calls::value_is_null(v)),
            (Call::IsTrue, [v], []) => number(calls::value_is_true(v)),
            (Call::IsFalse, [v], []) => number(calls::value_is_false(v)),
            (Call::IsNumber, [v], []) => number(calls::value_is_number(v)),
            (Call::IsString, [v], []) => number(calls::value_is_string(v)),
            (Call::IsList, [v], []) => number(calls::value_is_list(v)),
            (Call::IsRange, [v], []) => number(calls::value_is_range(v)),
            (Call::IntervalOpened, [[i]], []) => number(calls::interval_opened(*i)),
            (Call::IntervalClosed, [[i]], []) => number(calls::interval_closed(*i)),
            (Call::IntervalUndefined, [[i]], []) => number(calls::interval_undefined(*i)),
            (Call::BifFeelType, [[b]], [room]) => bytes_or_refusal(calls::bif_feel_type(*b, *room)),
            (Call::GetEntry, [c, n], []) => part(contexts::get_entry(c, name(n))),
            (Call::SearchDeep, [c, p], []) => part(contexts::search_deep(c, &path(p))),
            (Call::GetFirst, [c], []) => part(contexts::get_first(c)),
            (Call::ContainsEntry, [c, n], []) => number(contexts::contains_entry(c, name(n))),
            (Call::ContainsDeep, [c, p], []) => number(contexts::contains_deep(c, &path(p))),
            (Call::IsContext, [c, n], []) => number(contexts::is_context(c, name(n))),
            (Call::IsEmpty, [c], []) => number(contexts::is_empty(c)),
            (Call::Len, [c], []) => number(contexts::len(c)),
            (Call::CreateEntries, [c, p, v], [room]) => {
                bytes_or_refusal(contexts::create_entries(c, &path(p), v, *room))
            }
            (Call::ApplyEntries, [c, p, v], [room]) => {
                bytes_or_refusal(contexts::apply_entries(c, &path(p), v, *room))
            }
            (Call::Zip, [c, other], [room]) => bytes_or_refusal(contexts::zip(c, other, *room)),
            (Call::Overwrite, [c, other], [room]) => {
                bytes_or_refusal(contexts::overwrite(c, other, *room))
            }
            (Call::MoveEntry, [c, n, parent], [room]) => {
                bytes_or_refusal(contexts::move_entry(c, name(n), name(parent), *room))
            }
            (Call::SetEntry, [c, n, v], [room]) => {
                bytes_or_refusal(contexts::set_entry(c, name(n), v, *room))
            }
            (Call::RemoveEntry, [c, n], [room]) => {
                bytes_or_refusal(contexts::remove_entry(c, name(n), *room))
            }
            (Call::SetNull, [c, n], [room]) => {
                bytes_or_refusal(contexts::set_null(c, name(n), *room))
            }
            (Call::Display, [t, table], [room]) => {
                bytes_or_refusal(names::display(t, table, *room))
            }
            (Call::FromStr, [s], []) => Answer::Number(names::from_str(s).map_or(0, usize::from)),
            (Call::IsBuiltInTypeName, [s], []) => number(Ok(names::is_built_in_type_name(s))),
            (Call::NameNew, [parts], [room]) => bytes_or_refusal(names::name_new(parts, *room)),
            (Call::Trim, [s], [room]) => bytes_or_refusal(names::trim(s, *room)),
            (Call::StrictIsConformant, [a, b], []) => number(calls::strict_is_conformant(a, b)),
            (Call::StrictCommonSupertype, [a, b], [scratch, room]) => {
                bytes_or_refusal(calls::strict_common_supertype(a, b, *scratch, *room))
            }
            (Call::StrictCommonSubtype, [a, b], [scratch, room]) => {
                bytes_or_refusal(calls::strict_common_subtype(a, b, *scratch, *room))
            }
            (Call::StrictValueIsConformant, [v, t], []) => {
                number(calls::strict_value_is_conformant(v, t))
            }
            (Call::StrictValueLeastType, [v], [scratch, room]) => {
                bytes_or_refusal(calls::strict_value_least_type(v, *scratch, *room))
            }
            (Call::TableCheck, [table], []) => number(calls::table_check(table)),
            (Call::TableIsConformant, [table, a, b], []) => {
                number(calls::table_is_conformant(table, a, b))
            }
            (Call::TableCommonSupertype, [table, a, b], [scratch, room]) => {
                let answer = calls::table_common_supertype(table, a, b, *scratch, *room);
                bytes_or_refusal(answer)
            }
            (Call::TableCommonSubtype, [table, a, b], [scratch, room]) => {
                let answer = calls::table_common_subtype(table, a, b, *scratch, *room);
                bytes_or_refusal(answer)
            }
            (Call::TableValueIsConformant, [table, v, t], []) => {
                number(calls::table_value_is_conformant(table, v, t))
            }
            (Call::TableValueLeastType, [table, v], [scratch, room]) => {
                bytes_or_refusal(calls::table_value_least_type(table, v, *scratch, *room))
            }
            _ => panic!("no case of {self:?}: {case:?}"),
        }
    }
}

/// What the Rust answers.
#[derive(Debug, Clone, PartialEq, Eq)]
pub enum Answer {
    /// A level, a count, or 0 no and 1 yes; of a part its place times 65,536 and its length, or 0 for
    /// none; the command of a type, or 0 for unknown.
    Number(usize),
    /// The bytes written; the answer is their length.
    Bytes(Vec<u8>),
    Refused(u8),
}

fn number(answer: Result<impl Into<usize>, u8>) -> Answer {
    answer.map_or_else(Answer::Refused, |number| Answer::Number(number.into()))
}

fn part(answer: Result<Option<Part>, u8>) -> Answer {
    number(answer.map(|part| part.map_or(0, Part::number)))
}

/// The name that two bytes spell.
fn name(arg: &[u8]) -> u16 {
    u16::from_le_bytes(arg.try_into().expect("two bytes"))
}

/// The names of a path.
fn path(arg: &[u8]) -> Vec<u16> {
    arg.chunks(2).map(name).collect()
}

fn bytes_or_refusal(answer: Result<Vec<u8>, u8>) -> Answer {
    answer.map_or_else(Answer::Refused, Answer::Bytes)
}

/// The arguments of one case, and the lengths of what is lent with them: scratch, then output, as
/// far as the call has them.
#[derive(Debug, Clone)]
pub struct Case {
    pub args: Vec<Vec<u8>>,
    pub lent: Vec<usize>,
}

/// Cases of one call under one title.
pub struct Group {
    pub call: Call,
    pub title: String,
    pub cases: Vec<Case>,
}

impl Group {
    /// The title of a group starts with the name of its call.
    pub fn new(call: Call, words: &str, cases: Vec<Case>) -> Self {
        Group {
            call,
            title: format!("{}: {words}", call.name()),
            cases,
        }
    }

    /// A group whose cases have one record each.
    pub fn of_records(call: Call, words: &str, records: Vec<Vec<u8>>) -> Self {
        let case = |record| Case {
            args: vec![record],
            lent: vec![],
        };
        Group::new(call, words, records.into_iter().map(case).collect())
    }
}

/// Upper-case digits without blanks, `.` for no bytes.
pub fn hex(bytes: &[u8]) -> String {
    if bytes.is_empty() {
        return ".".to_string();
    }
    bytes.iter().map(|byte| format!("{byte:02X}")).collect()
}

/// The bytes of hexadecimal digits, two to a byte; blanks are free between bytes.
pub fn bytes(hex: &str) -> Vec<u8> {
    hex.split_whitespace()
        .flat_map(|word| {
            assert!(word.len() % 2 == 0, "half a byte in {word}");
            (0..word.len())
                .step_by(2)
                .map(|at| u8::from_str_radix(&word[at..at + 2], 16).expect("hexadecimal digits"))
        })
        .collect()
}

/// Each of the lines as bytes.
pub fn all(lines: &[&str]) -> Vec<Vec<u8>> {
    lines.iter().map(|line| bytes(line)).collect()
}
