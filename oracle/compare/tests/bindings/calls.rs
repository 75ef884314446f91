//! The functions of the bindings, each over the arguments of a case.

use crate::Outcome;
use compare::answer::Answer;
use hedvaste::{Refusal, bifs, contexts, intervals, names, tables, types, values};

/// Asks over these arguments.
type Ask = fn(&[&[u8]]) -> Outcome;

/// Asks over these arguments, with an own output.
type AskInto = fn(&[&[u8]], &mut [u8]) -> Answer;

/// A function of the bindings, and its form with an own output.
pub struct Bound {
    pub name: &'static str,
    pub call: Ask,
    pub into: Option<AskInto>,
}

/// A function without an output.
const fn asks(name: &'static str, call: Ask) -> Bound {
    Bound {
        name,
        call,
        into: None,
    }
}

/// A function that gives bytes.
const fn writes(name: &'static str, call: Ask, into: AskInto) -> Bound {
    Bound {
        name,
        call,
        into: Some(into),
    }
}

pub const BOUND: [Bound; 60] = [
    asks("check_value", |a| level(values::check_value(a[0]))),
    asks("check_type", |a| level(types::check_type(a[0]))),
    asks("type_is_conformant", |a| {
        yes(types::is_conformant(a[0], a[1]))
    }),
    asks("type_instance_of", |a| yes(types::instance_of(a[0], a[1]))),
    writes(
        "type_common_supertype",
        |a| bytes(types::common_supertype(a[0], a[1])),
        |a, out| length(types::common_supertype_into(a[0], a[1], out)),
    ),
    writes(
        "type_common_subtype",
        |a| bytes(types::common_subtype(a[0], a[1])),
        |a, out| length(types::common_subtype_into(a[0], a[1], out)),
    ),
    writes(
        "type_reduced",
        |a| bytes(types::reduced(a[0])),
        |a, out| length(types::reduced_into(a[0], out)),
    ),
    asks("type_is_simple_built_in_type", |a| {
        yes(types::is_simple_built_in_type(a[0]))
    }),
    asks("type_is_null", |a| yes(types::is_null(a[0]))),
    asks("value_is_conformant", |a| {
        yes(values::is_conformant(a[0], a[1]))
    }),
    writes(
        "value_least_type",
        |a| bytes(values::least_type(a[0])),
        |a, out| length(values::least_type_into(a[0], out)),
    ),
    writes(
        "value_type_of",
        |a| bytes(values::type_of(a[0])),
        |a, out| length(values::type_of_into(a[0], out)),
    ),
    writes(
        "type_get_value_checked",
        |a| bytes(types::get_value_checked(a[0], a[1])),
        |a, out| length(types::get_value_checked_into(a[0], a[1], out)),
    ),
    writes(
        "type_get_conformant_value",
        |a| bytes(types::get_conformant_value(a[0], a[1])),
        |a, out| length(types::get_conformant_value_into(a[0], a[1], out)),
    ),
    writes(
        "value_coerced",
        |a| bytes(values::coerced(a[0], a[1])),
        |a, out| length(values::coerced_into(a[0], a[1], out)),
    ),
    asks("value_is_invalid_coercion", |a| {
        yes(values::is_invalid_coercion(a[0]))
    }),
    asks("value_is_valid_range", |a| {
        yes(values::is_valid_range(a[0]))
    }),
    asks("value_is_null", |a| yes(values::is_null(a[0]))),
    asks("value_is_true", |a| yes(values::is_true(a[0]))),
    asks("value_is_false", |a| yes(values::is_false(a[0]))),
    asks("value_is_number", |a| yes(values::is_number(a[0]))),
    asks("value_is_string", |a| yes(values::is_string(a[0]))),
    asks("value_is_list", |a| yes(values::is_list(a[0]))),
    asks("value_is_range", |a| yes(values::is_range(a[0]))),
    asks("interval_opened", |a| yes(intervals::opened(a[0][0]))),
    asks("interval_closed", |a| yes(intervals::closed(a[0][0]))),
    asks("interval_undefined", |a| yes(intervals::undefined(a[0][0]))),
    writes(
        "bif_feel_type",
        |a| bytes(bifs::feel_type(a[0][0])),
        |a, out| length(bifs::feel_type_into(a[0][0], out)),
    ),
    asks("context_get_entry", |a| {
        part(a[0], contexts::get_entry(a[0], name(a[1])))
    }),
    asks("context_search_deep", |a| {
        part(a[0], contexts::search_deep(a[0], &path(a[1])))
    }),
    asks("context_get_first", |a| {
        part(a[0], contexts::get_first(a[0]))
    }),
    asks("context_contains_entry", |a| {
        yes(contexts::contains_entry(a[0], name(a[1])))
    }),
    asks("context_contains_deep", |a| {
        yes(contexts::contains_deep(a[0], &path(a[1])))
    }),
    asks("context_is_context", |a| {
        yes(contexts::is_context(a[0], name(a[1])))
    }),
    asks("context_is_empty", |a| yes(contexts::is_empty(a[0]))),
    asks("context_len", |a| {
        level(contexts::len(a[0]).map(|count| count as u32))
    }),
    writes(
        "context_create_entries",
        |a| bytes(contexts::create_entries(a[0], &path(a[1]), a[2])),
        |a, out| length(contexts::create_entries_into(a[0], &path(a[1]), a[2], out)),
    ),
    writes(
        "context_apply_entries",
        |a| bytes(contexts::apply_entries(a[0], &path(a[1]), a[2])),
        |a, out| length(contexts::apply_entries_into(a[0], &path(a[1]), a[2], out)),
    ),
    writes(
        "context_zip",
        |a| bytes(contexts::zip(a[0], a[1])),
        |a, out| length(contexts::zip_into(a[0], a[1], out)),
    ),
    writes(
        "context_overwrite",
        |a| bytes(contexts::overwrite(a[0], a[1])),
        |a, out| length(contexts::overwrite_into(a[0], a[1], out)),
    ),
    writes(
        "context_move_entry",
        |a| bytes(contexts::move_entry(a[0], name(a[1]), name(a[2]))),
        |a, out| length(contexts::move_entry_into(a[0], name(a[1]), name(a[2]), out)),
    ),
    writes(
        "context_set_entry",
        |a| bytes(contexts::set_entry(a[0], name(a[1]), a[2])),
        |a, out| length(contexts::set_entry_into(a[0], name(a[1]), a[2], out)),
    ),
    writes(
        "context_remove_entry",
        |a| bytes(contexts::remove_entry(a[0], name(a[1]))),
        |a, out| length(contexts::remove_entry_into(a[0], name(a[1]), out)),
    ),
    writes(
        "context_set_null",
        |a| bytes(contexts::set_null(a[0], name(a[1]))),
        |a, out| length(contexts::set_null_into(a[0], name(a[1]), out)),
    ),
    writes(
        "names_display",
        |a| bytes(names::display(a[0], a[1]).map(String::into_bytes)),
        |a, out| length(names::display_into(a[0], a[1], out)),
    ),
    asks("names_from_str", |a| {
        let command = names::from_str(a[0]);
        let answer = command.map_or_else(Answer::none, |command| Answer::given(command.into()));
        (answer, vec![])
    }),
    asks("names_is_built_in_type_name", |a| {
        yes(Ok(names::is_built_in_type_name(a[0])))
    }),
    writes(
        "names_name_new",
        |a| bytes(names::name_new(a[0]).map(String::into_bytes)),
        |a, out| length(names::name_new_into(a[0], out)),
    ),
    writes(
        "names_trim",
        |a| bytes(names::trim(a[0])),
        |a, out| length(names::trim_into(a[0], out)),
    ),
    asks("strict_type_is_conformant", |a| {
        yes(types::strict_is_conformant(a[0], a[1]))
    }),
    writes(
        "strict_type_common_supertype",
        |a| bytes(types::strict_common_supertype(a[0], a[1])),
        |a, out| length(types::strict_common_supertype_into(a[0], a[1], out)),
    ),
    writes(
        "strict_type_common_subtype",
        |a| bytes(types::strict_common_subtype(a[0], a[1])),
        |a, out| length(types::strict_common_subtype_into(a[0], a[1], out)),
    ),
    asks("strict_value_is_conformant", |a| {
        yes(values::strict_is_conformant(a[0], a[1]))
    }),
    writes(
        "strict_value_least_type",
        |a| bytes(values::strict_least_type(a[0])),
        |a, out| length(values::strict_least_type_into(a[0], out)),
    ),
    asks("table_check", |a| yes(tables::check(a[0]).map(|()| true))),
    asks("table_type_is_conformant", |a| {
        yes(tables::type_is_conformant(a[0], a[1], a[2]))
    }),
    writes(
        "table_type_common_supertype",
        |a| bytes(tables::common_supertype(a[0], a[1], a[2])),
        |a, out| length(tables::common_supertype_into(a[0], a[1], a[2], out)),
    ),
    writes(
        "table_type_common_subtype",
        |a| bytes(tables::common_subtype(a[0], a[1], a[2])),
        |a, out| length(tables::common_subtype_into(a[0], a[1], a[2], out)),
    ),
    asks("table_value_is_conformant", |a| {
        yes(tables::value_is_conformant(a[0], a[1], a[2]))
    }),
    writes(
        "table_value_least_type",
        |a| bytes(tables::least_type(a[0], a[1])),
        |a, out| length(tables::least_type_into(a[0], a[1], out)),
    ),
];

/// The name that two bytes spell.
fn name(arg: &[u8]) -> u16 {
    u16::from_le_bytes([arg[0], arg[1]])
}

fn path(arg: &[u8]) -> Vec<u16> {
    arg.chunks_exact(2).map(name).collect()
}

fn refused(refusal: Refusal) -> Answer {
    Answer::refused(refusal.number())
}

fn level(answer: Result<u32, Refusal>) -> Outcome {
    (answer.map_or_else(refused, Answer::given), vec![])
}

fn yes(answer: Result<bool, Refusal>) -> Outcome {
    level(answer.map(u32::from))
}

fn bytes(answer: Result<Vec<u8>, Refusal>) -> Outcome {
    match answer {
        Ok(bytes) => (Answer::given(bytes.len() as u32), bytes),
        Err(refusal) => (refused(refusal), vec![]),
    }
}

fn length(answer: Result<usize, Refusal>) -> Answer {
    answer.map_or_else(refused, |length| Answer::given(length as u32))
}

/// The part as place * 65536 + length: where it stands in the context.
fn part(c: &[u8], answer: Result<Option<&[u8]>, Refusal>) -> Outcome {
    let number = |part: &[u8]| {
        let place = part.as_ptr() as usize - c.as_ptr() as usize;
        Answer::given((place * 65_536 + part.len()) as u32)
    };
    let answer = match answer {
        Ok(found) => found.map_or_else(Answer::none, number),
        Err(refusal) => refused(refusal),
    };
    (answer, vec![])
}
