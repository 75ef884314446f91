//! The calls that are compared.

use crate::answer::Answer;
use crate::call::{Call, EachCase, Gives, Options};
use crate::lent::{Buffer, Lent};
use crate::library::{
    feel_bif_feel_type, feel_check_type, feel_check_value, feel_context_apply_entries,
    feel_context_contains_deep, feel_context_contains_entry, feel_context_create_entries,
    feel_context_get_entry, feel_context_get_first, feel_context_is_context, feel_context_is_empty,
    feel_context_len, feel_context_move_entry, feel_context_overwrite, feel_context_remove_entry,
    feel_context_search_deep, feel_context_set_entry, feel_context_set_null, feel_context_zip,
    feel_interval_closed, feel_interval_opened, feel_interval_undefined, feel_names_display,
    feel_names_from_str, feel_names_is_built_in_type_name, feel_names_name_new, feel_names_trim,
    feel_strict_type_common_subtype, feel_strict_type_common_supertype,
    feel_strict_type_is_conformant, feel_strict_value_is_conformant, feel_strict_value_least_type,
    feel_table_check, feel_table_type_common_subtype, feel_table_type_common_supertype,
    feel_table_type_is_conformant, feel_table_value_is_conformant, feel_table_value_least_type,
    feel_type_common_subtype, feel_type_common_supertype, feel_type_get_conformant_value,
    feel_type_get_value_checked, feel_type_instance_of, feel_type_is_conformant, feel_type_is_null,
    feel_type_is_simple_built_in_type, feel_type_reduced, feel_value_coerced,
    feel_value_is_conformant, feel_value_is_false, feel_value_is_invalid_coercion,
    feel_value_is_list, feel_value_is_null, feel_value_is_number, feel_value_is_range,
    feel_value_is_string, feel_value_is_true, feel_value_is_valid_range, feel_value_least_type,
    feel_value_type_of,
};
use crate::{
    coercion_cases, context_answers, context_cases, context_theorems, names_answers, names_cases,
    records, table_answers, table_cases, type_answers, type_cases, value_answers, value_cases,
};
use feel_cases::{Kind, Parts};
use feel_form::{Reading, calls, read_type, read_value, write_type, write_value};

const OF_A_VALUE: &[u8] = &[1, 2, 3, 4, 5];

const OF_A_CONTEXT: &[u8] = &[1, 2, 3, 4, 5, 12];

const OF_A_TYPE: &[u8] = &[6, 7, 8, 9, 10];

const OF_A_TABLE: &[u8] = &[26, 27, 28];

pub const CALLS: [Call; 60] = [
    Call {
        name: "check_value",
        gives: Gives::Level,
        refusals: OF_A_VALUE,
        generate: |options, each| records::cases(Kind::Value, options, each),
        expected: |case| records::expected(case, read_value, write_value),
        actual: |lent| one_record(lent, feel_check_value),
    },
    Call {
        name: "check_type",
        gives: Gives::Level,
        refusals: OF_A_TYPE,
        generate: |options, each| records::cases(Kind::Type, options, each),
        expected: |case| records::expected(case, read_type, write_type),
        actual: |lent| one_record(lent, feel_check_type),
    },
    Call {
        name: "type_is_conformant",
        gives: Gives::YesOrNo,
        refusals: OF_A_TYPE,
        generate: type_cases::two_types,
        expected: |case| type_answers::is_conformant(case, Reading::Ported),
        actual: |lent| two_records(lent, feel_type_is_conformant),
    },
    Call {
        name: "type_instance_of",
        gives: Gives::YesOrNo,
        refusals: OF_A_TYPE,
        generate: type_cases::two_types,
        expected: type_answers::instance_of,
        actual: |lent| two_records(lent, feel_type_instance_of),
    },
    Call {
        name: "type_common_supertype",
        gives: Gives::Length,
        refusals: &[6, 7, 8, 9, 10, 14, 18],
        generate: supertypes,
        expected: |case| type_answers::common_supertype(case, Reading::Ported),
        actual: |lent| two_records_and_buffers(lent, feel_type_common_supertype),
    },
    Call {
        name: "type_common_subtype",
        gives: Gives::Length,
        refusals: &[6, 7, 8, 9, 10, 14, 18],
        generate: subtypes,
        expected: |case| type_answers::common_subtype(case, Reading::Ported),
        actual: |lent| two_records_and_buffers(lent, feel_type_common_subtype),
    },
    Call {
        name: "type_reduced",
        gives: Gives::Length,
        refusals: &[6, 7, 8, 9, 10, 18],
        generate: type_cases::one_type_and_output,
        expected: type_answers::reduced,
        actual: |lent| one_type_and_output(lent, feel_type_reduced),
    },
    Call {
        name: "type_is_simple_built_in_type",
        gives: Gives::YesOrNo,
        refusals: OF_A_TYPE,
        generate: type_cases::one_type,
        expected: type_answers::is_simple_built_in_type,
        actual: |lent| one_record(lent, feel_type_is_simple_built_in_type),
    },
    Call {
        name: "type_is_null",
        gives: Gives::YesOrNo,
        refusals: OF_A_TYPE,
        generate: type_cases::one_type,
        expected: type_answers::is_null,
        actual: |lent| one_record(lent, feel_type_is_null),
    },
    Call {
        name: "value_is_conformant",
        gives: Gives::YesOrNo,
        refusals: &[1, 2, 3, 4, 5, 6, 7, 8, 9, 10],
        generate: value_cases::value_and_type,
        expected: |case| value_answers::is_conformant(case, Reading::Ported),
        actual: |lent| two_records(lent, feel_value_is_conformant),
    },
    Call {
        name: "value_least_type",
        gives: Gives::Length,
        refusals: &[1, 2, 3, 4, 5, 13, 14, 18],
        generate: least_types,
        expected: |case| value_answers::least_type(case, Reading::Ported),
        actual: |lent| one_value_and_buffers(lent, feel_value_least_type),
    },
    Call {
        name: "value_type_of",
        gives: Gives::Length,
        refusals: &[1, 2, 3, 4, 5, 14, 18],
        generate: |options, each| {
            value_cases::one_value_and_buffers(Parts::All, calls::value_type_of, options, each)
        },
        expected: value_answers::type_of,
        actual: |lent| one_value_and_buffers(lent, feel_value_type_of),
    },
    Call {
        name: "type_get_value_checked",
        gives: Gives::Length,
        refusals: &[1, 2, 3, 4, 5, 6, 7, 8, 9, 10, 15, 18],
        generate: |options, each| {
            coercion_cases::type_and_value(calls::get_value_checked, options, each)
        },
        expected: value_answers::get_value_checked,
        actual: |lent| two_records_and_output(lent, feel_type_get_value_checked),
    },
    Call {
        name: "type_get_conformant_value",
        gives: Gives::Length,
        refusals: &[1, 2, 3, 4, 5, 6, 7, 8, 9, 10, 18],
        generate: |options, each| {
            coercion_cases::type_and_value(calls::get_conformant_value, options, each)
        },
        expected: value_answers::get_conformant_value,
        actual: |lent| two_records_and_output(lent, feel_type_get_conformant_value),
    },
    Call {
        name: "value_coerced",
        gives: Gives::Length,
        refusals: &[1, 2, 3, 4, 5, 6, 7, 8, 9, 10, 17, 18],
        generate: |options, each| coercion_cases::value_and_type(calls::coerced, options, each),
        expected: value_answers::coerced,
        actual: |lent| two_records_and_output(lent, feel_value_coerced),
    },
    Call {
        name: "value_is_invalid_coercion",
        gives: Gives::YesOrNo,
        refusals: OF_A_VALUE,
        generate: coercion_cases::one_value,
        expected: |case| value_answers::value_is(case, calls::value_is_invalid_coercion),
        actual: |lent| one_record(lent, feel_value_is_invalid_coercion),
    },
    Call {
        name: "value_is_valid_range",
        gives: Gives::YesOrNo,
        refusals: OF_A_VALUE,
        generate: coercion_cases::one_value,
        expected: |case| value_answers::value_is(case, calls::value_is_valid_range),
        actual: |lent| one_record(lent, feel_value_is_valid_range),
    },
    Call {
        name: "value_is_null",
        gives: Gives::YesOrNo,
        refusals: OF_A_VALUE,
        generate: coercion_cases::one_value,
        expected: |case| value_answers::value_is(case, calls::value_is_null),
        actual: |lent| one_record(lent, feel_value_is_null),
    },
    Call {
        name: "value_is_true",
        gives: Gives::YesOrNo,
        refusals: OF_A_VALUE,
        generate: coercion_cases::one_value,
        expected: |case| value_answers::value_is(case, calls::value_is_true),
        actual: |lent| one_record(lent, feel_value_is_true),
    },
    Call {
        name: "value_is_false",
        gives: Gives::YesOrNo,
        refusals: OF_A_VALUE,
        generate: coercion_cases::one_value,
        expected: |case| value_answers::value_is(case, calls::value_is_false),
        actual: |lent| one_record(lent, feel_value_is_false),
    },
    Call {
        name: "value_is_number",
        gives: Gives::YesOrNo,
        refusals: OF_A_VALUE,
        generate: coercion_cases::one_value,
        expected: |case| value_answers::value_is(case, calls::value_is_number),
        actual: |lent| one_record(lent, feel_value_is_number),
    },
    Call {
        name: "value_is_string",
        gives: Gives::YesOrNo,
        refusals: OF_A_VALUE,
        generate: coercion_cases::one_value,
        expected: |case| value_answers::value_is(case, calls::value_is_string),
        actual: |lent| one_record(lent, feel_value_is_string),
    },
    Call {
        name: "value_is_list",
        gives: Gives::YesOrNo,
        refusals: OF_A_VALUE,
        generate: coercion_cases::one_value,
        expected: |case| value_answers::value_is(case, calls::value_is_list),
        actual: |lent| one_record(lent, feel_value_is_list),
    },
    Call {
        name: "value_is_range",
        gives: Gives::YesOrNo,
        refusals: OF_A_VALUE,
        generate: coercion_cases::one_value,
        expected: |case| value_answers::value_is(case, calls::value_is_range),
        actual: |lent| one_record(lent, feel_value_is_range),
    },
    Call {
        name: "interval_opened",
        gives: Gives::YesOrNo,
        refusals: &[2],
        generate: coercion_cases::one_byte,
        expected: |case| value_answers::interval_is(case, calls::interval_opened),
        actual: |lent| one_byte(lent, feel_interval_opened),
    },
    Call {
        name: "interval_closed",
        gives: Gives::YesOrNo,
        refusals: &[2],
        generate: coercion_cases::one_byte,
        expected: |case| value_answers::interval_is(case, calls::interval_closed),
        actual: |lent| one_byte(lent, feel_interval_closed),
    },
    Call {
        name: "interval_undefined",
        gives: Gives::YesOrNo,
        refusals: &[2],
        generate: coercion_cases::one_byte,
        expected: |case| value_answers::interval_is(case, calls::interval_undefined),
        actual: |lent| one_byte(lent, feel_interval_undefined),
    },
    Call {
        name: "bif_feel_type",
        gives: Gives::Length,
        refusals: &[2, 18],
        generate: coercion_cases::one_byte_and_output,
        expected: value_answers::bif_feel_type,
        actual: |lent| one_byte_and_output(lent, feel_bif_feel_type),
    },
    Call {
        name: "context_get_entry",
        gives: Gives::Part,
        refusals: OF_A_CONTEXT,
        generate: |options, each| context_cases::asked(context_cases::with_name, options, each),
        expected: context_answers::get_entry,
        actual: |lent| record_and_name(lent, feel_context_get_entry),
    },
    Call {
        name: "context_search_deep",
        gives: Gives::Part,
        refusals: &[1, 2, 3, 4, 5, 11, 12],
        generate: |options, each| context_cases::asked(context_cases::with_path, options, each),
        expected: context_answers::search_deep,
        actual: |lent| record_and_path(lent, feel_context_search_deep),
    },
    Call {
        name: "context_get_first",
        gives: Gives::Part,
        refusals: OF_A_CONTEXT,
        generate: |options, each| context_cases::asked(context_cases::alone, options, each),
        expected: context_answers::get_first,
        actual: |lent| one_record(lent, feel_context_get_first),
    },
    Call {
        name: "context_contains_entry",
        gives: Gives::YesOrNo,
        refusals: OF_A_CONTEXT,
        generate: |options, each| context_cases::asked(context_cases::with_name, options, each),
        expected: context_answers::contains_entry,
        actual: |lent| record_and_name(lent, feel_context_contains_entry),
    },
    Call {
        name: "context_contains_deep",
        gives: Gives::YesOrNo,
        refusals: &[1, 2, 3, 4, 5, 11, 12],
        generate: |options, each| context_cases::asked(context_cases::with_path, options, each),
        expected: context_answers::contains_deep,
        actual: |lent| record_and_path(lent, feel_context_contains_deep),
    },
    Call {
        name: "context_is_context",
        gives: Gives::YesOrNo,
        refusals: OF_A_CONTEXT,
        generate: |options, each| context_cases::asked(context_cases::with_name, options, each),
        expected: context_answers::is_context,
        actual: |lent| record_and_name(lent, feel_context_is_context),
    },
    Call {
        name: "context_is_empty",
        gives: Gives::YesOrNo,
        refusals: OF_A_CONTEXT,
        generate: |options, each| context_cases::asked(context_cases::alone, options, each),
        expected: context_answers::is_empty,
        actual: |lent| one_record(lent, feel_context_is_empty),
    },
    Call {
        name: "context_len",
        gives: Gives::Count,
        refusals: OF_A_CONTEXT,
        generate: |options, each| context_cases::asked(context_cases::alone, options, each),
        expected: context_answers::len,
        actual: |lent| one_record(lent, feel_context_len),
    },
    Call {
        name: "context_create_entries",
        gives: Gives::Length,
        refusals: &[1, 2, 3, 4, 5, 11, 12, 17, 18],
        generate: |options, each| {
            let call = context_answers::create_entries;
            context_cases::built(context_cases::with_path_and_value, call, options, each)
        },
        expected: |case| {
            let theorems = context_theorems::of_create;
            context_answers::updated(case, context_answers::create_entries, theorems)
        },
        actual: |lent| path_value_and_output(lent, feel_context_create_entries),
    },
    Call {
        name: "context_apply_entries",
        gives: Gives::Length,
        refusals: &[1, 2, 3, 4, 5, 11, 12, 16, 17, 18],
        generate: |options, each| {
            let call = context_answers::apply_entries;
            context_cases::built(context_cases::with_path_and_value, call, options, each)
        },
        expected: |case| {
            let theorems = context_theorems::of_apply;
            context_answers::updated(case, context_answers::apply_entries, theorems)
        },
        actual: |lent| path_value_and_output(lent, feel_context_apply_entries),
    },
    Call {
        name: "context_zip",
        gives: Gives::Length,
        refusals: &[1, 2, 3, 4, 5, 12, 17, 18],
        generate: |options, each| {
            let call = context_answers::zip;
            context_cases::built(context_cases::with_other, call, options, each)
        },
        expected: |case| {
            let theorems = context_theorems::of_zip;
            context_answers::updated(case, context_answers::zip, theorems)
        },
        actual: |lent| two_records_and_output(lent, feel_context_zip),
    },
    Call {
        name: "context_overwrite",
        gives: Gives::Length,
        refusals: &[1, 2, 3, 4, 5, 12, 17, 18],
        generate: |options, each| {
            let call = context_answers::overwrite;
            context_cases::built(context_cases::with_other, call, options, each)
        },
        expected: |case| {
            let theorems = context_theorems::of_overwrite;
            context_answers::updated(case, context_answers::overwrite, theorems)
        },
        actual: |lent| two_records_and_output(lent, feel_context_overwrite),
    },
    Call {
        name: "context_move_entry",
        gives: Gives::Length,
        refusals: &[1, 2, 3, 4, 5, 12, 17, 18],
        generate: |options, each| {
            let call = context_answers::move_entry;
            context_cases::built(context_cases::with_two_names, call, options, each)
        },
        expected: |case| {
            let theorems = context_theorems::of_move;
            context_answers::updated(case, context_answers::move_entry, theorems)
        },
        actual: |lent| two_names_and_output(lent, feel_context_move_entry),
    },
    Call {
        name: "context_set_entry",
        gives: Gives::Length,
        refusals: &[1, 2, 3, 4, 5, 12, 17, 18],
        generate: |options, each| {
            let call = context_answers::set_entry;
            context_cases::built(context_cases::with_name_and_value, call, options, each)
        },
        expected: |case| {
            let theorems = context_theorems::of_set;
            context_answers::updated(case, context_answers::set_entry, theorems)
        },
        actual: |lent| name_value_and_output(lent, feel_context_set_entry),
    },
    Call {
        name: "context_remove_entry",
        gives: Gives::Length,
        refusals: &[1, 2, 3, 4, 5, 12, 18],
        generate: |options, each| {
            let call = context_answers::remove_entry;
            context_cases::built(context_cases::with_name, call, options, each)
        },
        expected: |case| {
            let theorems = context_theorems::of_remove;
            context_answers::updated(case, context_answers::remove_entry, theorems)
        },
        actual: |lent| name_and_output(lent, feel_context_remove_entry),
    },
    Call {
        name: "context_set_null",
        gives: Gives::Length,
        refusals: &[1, 2, 3, 4, 5, 12, 17, 18],
        generate: |options, each| {
            let call = context_answers::set_null;
            context_cases::built(context_cases::with_name, call, options, each)
        },
        expected: |case| {
            let theorems = context_theorems::of_set_null;
            context_answers::updated(case, context_answers::set_null, theorems)
        },
        actual: |lent| name_and_output(lent, feel_context_set_null),
    },
    Call {
        name: "names_display",
        gives: Gives::Length,
        refusals: &[6, 7, 8, 9, 10, 18, 19, 20],
        generate: |options, each| {
            let call = names_answers::display;
            names_cases::built(names_cases::type_and_table, call, options, each)
        },
        expected: |case| names_answers::built(case, names_answers::display),
        actual: |lent| two_records_and_output(lent, feel_names_display),
    },
    Call {
        name: "names_from_str",
        gives: Gives::Command,
        refusals: &[],
        generate: |options, each| context_cases::asked(names_cases::type_names, options, each),
        expected: names_answers::from_str,
        actual: |lent| one_record(lent, feel_names_from_str),
    },
    Call {
        name: "names_is_built_in_type_name",
        gives: Gives::YesOrNo,
        refusals: &[],
        generate: |options, each| context_cases::asked(names_cases::type_names, options, each),
        expected: names_answers::is_built_in_type_name,
        actual: |lent| one_record(lent, feel_names_is_built_in_type_name),
    },
    Call {
        name: "names_name_new",
        gives: Gives::Length,
        refusals: &[18, 19],
        generate: |options, each| {
            names_cases::built(names_cases::parts, names_answers::name_new, options, each)
        },
        expected: |case| names_answers::built(case, names_answers::name_new),
        actual: |lent| one_type_and_output(lent, feel_names_name_new),
    },
    Call {
        name: "names_trim",
        gives: Gives::Length,
        refusals: &[18, 19],
        generate: |options, each| {
            names_cases::built(names_cases::strings, names_answers::trim, options, each)
        },
        expected: names_answers::trimmed,
        actual: |lent| one_type_and_output(lent, feel_names_trim),
    },
    Call {
        name: "strict_type_is_conformant",
        gives: Gives::YesOrNo,
        refusals: OF_A_TYPE,
        generate: type_cases::two_types,
        expected: |case| type_answers::is_conformant(case, Reading::Strict),
        actual: |lent| two_records(lent, feel_strict_type_is_conformant),
    },
    Call {
        name: "strict_type_common_supertype",
        gives: Gives::Length,
        refusals: &[6, 7, 8, 9, 10, 14, 18],
        generate: |options, each| {
            type_cases::two_types_and_buffers(calls::strict_common_supertype, options, each)
        },
        expected: |case| type_answers::common_supertype(case, Reading::Strict),
        actual: |lent| two_records_and_buffers(lent, feel_strict_type_common_supertype),
    },
    Call {
        name: "strict_type_common_subtype",
        gives: Gives::Length,
        refusals: &[6, 7, 8, 9, 10, 14, 18],
        generate: |options, each| {
            type_cases::two_types_and_buffers(calls::strict_common_subtype, options, each)
        },
        expected: |case| type_answers::common_subtype(case, Reading::Strict),
        actual: |lent| two_records_and_buffers(lent, feel_strict_type_common_subtype),
    },
    Call {
        name: "strict_value_is_conformant",
        gives: Gives::YesOrNo,
        refusals: &[1, 2, 3, 4, 5, 6, 7, 8, 9, 10],
        generate: value_cases::value_and_type,
        expected: |case| value_answers::is_conformant(case, Reading::Strict),
        actual: |lent| two_records(lent, feel_strict_value_is_conformant),
    },
    Call {
        name: "strict_value_least_type",
        gives: Gives::Length,
        refusals: &[1, 2, 3, 4, 5, 13, 14, 18],
        generate: |options, each| {
            let call = calls::strict_value_least_type;
            value_cases::one_value_and_buffers(Parts::Definitions, call, options, each)
        },
        expected: |case| value_answers::least_type(case, Reading::Strict),
        actual: |lent| one_value_and_buffers(lent, feel_strict_value_least_type),
    },
    Call {
        name: "table_check",
        gives: Gives::YesOrNo,
        refusals: OF_A_TABLE,
        generate: table_cases::one_table,
        expected: table_answers::check,
        actual: |lent| one_record(lent, feel_table_check),
    },
    Call {
        name: "table_type_is_conformant",
        gives: Gives::YesOrNo,
        refusals: &[6, 7, 8, 9, 10, 26, 27, 28],
        generate: |options, each| table_cases::behind_tables(type_cases::two_types, options, each),
        expected: table_answers::is_conformant,
        actual: |lent| three_records(lent, feel_table_type_is_conformant),
    },
    Call {
        name: "table_type_common_supertype",
        gives: Gives::Length,
        refusals: &[6, 7, 8, 9, 10, 14, 18, 26, 27, 28],
        generate: |options, each| table_cases::behind_tables(supertypes, options, each),
        expected: table_answers::common_supertype,
        actual: |lent| three_records_and_buffers(lent, feel_table_type_common_supertype),
    },
    Call {
        name: "table_type_common_subtype",
        gives: Gives::Length,
        refusals: &[6, 7, 8, 9, 10, 14, 18, 26, 27, 28],
        generate: |options, each| table_cases::behind_tables(subtypes, options, each),
        expected: table_answers::common_subtype,
        actual: |lent| three_records_and_buffers(lent, feel_table_type_common_subtype),
    },
    Call {
        name: "table_value_is_conformant",
        gives: Gives::YesOrNo,
        refusals: &[1, 2, 3, 4, 5, 6, 7, 8, 9, 10, 26, 27, 28],
        generate: |options, each| {
            table_cases::behind_tables(value_cases::value_and_type, options, each)
        },
        expected: table_answers::value_is_conformant,
        actual: |lent| three_records(lent, feel_table_value_is_conformant),
    },
    Call {
        name: "table_value_least_type",
        gives: Gives::Length,
        refusals: &[1, 2, 3, 4, 5, 13, 14, 18, 26, 27, 28],
        generate: |options, each| table_cases::behind_tables(least_types, options, each),
        expected: table_answers::value_least_type,
        actual: |lent| two_records_and_buffers(lent, feel_table_value_least_type),
    },
];

fn supertypes(options: &Options, each: &mut EachCase) {
    type_cases::two_types_and_buffers(calls::common_supertype, options, each)
}

fn subtypes(options: &Options, each: &mut EachCase) {
    type_cases::two_types_and_buffers(calls::common_subtype, options, each)
}

fn least_types(options: &Options, each: &mut EachCase) {
    value_cases::one_value_and_buffers(Parts::Data, calls::value_least_type, options, each)
}

/// A C function over one record.
type OneRecord = unsafe extern "C" fn(*const u8, usize) -> u64;

/// A C function over two types, or over a value and a type.
type TwoRecords = unsafe extern "C" fn(*const u8, usize, *const u8, usize) -> u64;

/// A C function over two types, or over a table and a value, with scratch and an output.
type TwoRecordsAndBuffers =
    unsafe extern "C" fn(*const u8, usize, *const u8, usize, *mut u8, usize, *mut u8, usize) -> u64;

/// A C function over a table and two records.
type ThreeRecords =
    unsafe extern "C" fn(*const u8, usize, *const u8, usize, *const u8, usize) -> u64;

/// A C function over a table and two types, with scratch and an output.
type ThreeRecordsAndBuffers = unsafe extern "C" fn(
    *const u8,
    usize,
    *const u8,
    usize,
    *const u8,
    usize,
    *mut u8,
    usize,
    *mut u8,
    usize,
) -> u64;

/// A C function over one type or one string, with an output.
type OneTypeAndOutput = unsafe extern "C" fn(*const u8, usize, *mut u8, usize) -> u64;

/// A C function over one value, with scratch and an output.
type OneValueAndBuffers =
    unsafe extern "C" fn(*const u8, usize, *mut u8, usize, *mut u8, usize) -> u64;

/// A C function over a type and a value, with an output.
type TwoRecordsAndOutput =
    unsafe extern "C" fn(*const u8, usize, *const u8, usize, *mut u8, usize) -> u64;

/// A C function over one byte.
type OneByte = unsafe extern "C" fn(u8) -> u64;

/// A C function over one byte, with an output.
type OneByteAndOutput = unsafe extern "C" fn(u8, *mut u8, usize) -> u64;

/// A C function over a context and a name.
type RecordAndName = unsafe extern "C" fn(*const u8, usize, u16) -> u64;

/// A C function over a context and a path.
type RecordAndPath = unsafe extern "C" fn(*const u8, usize, *const u16, usize) -> u64;

/// A C function over a context, a path and a value, with an output.
type PathValueAndOutput = unsafe extern "C" fn(
    *const u8,
    usize,
    *const u16,
    usize,
    *const u8,
    usize,
    *mut u8,
    usize,
) -> u64;

/// A C function over a context and two names, with an output.
type TwoNamesAndOutput = unsafe extern "C" fn(*const u8, usize, u16, u16, *mut u8, usize) -> u64;

/// A C function over a context, a name and a value, with an output.
type NameValueAndOutput =
    unsafe extern "C" fn(*const u8, usize, u16, *const u8, usize, *mut u8, usize) -> u64;

/// A C function over a context and a name, with an output.
type NameAndOutput = unsafe extern "C" fn(*const u8, usize, u16, *mut u8, usize) -> u64;

// In each of the following the pointer and the length of an argument are those of one buffer, which
// lives through the call.

fn one_record(lent: &mut Lent, function: OneRecord) -> Answer {
    let record = &lent.args[0];
    // SAFETY: as said above.
    Answer(unsafe { function(record.as_ptr(), record.len()) })
}

fn two_records(lent: &mut Lent, function: TwoRecords) -> Answer {
    let [a, b] = [&lent.args[0], &lent.args[1]];
    // SAFETY: as said above.
    Answer(unsafe { function(a.as_ptr(), a.len(), b.as_ptr(), b.len()) })
}

fn two_records_and_buffers(lent: &mut Lent, function: TwoRecordsAndBuffers) -> Answer {
    let [a, b] = [&lent.args[0], &lent.args[1]];
    let (scratch, output) = (&mut lent.scratch, &mut lent.output);
    // SAFETY: as said above; scratch and output are buffers of their own.
    Answer(unsafe {
        function(
            a.as_ptr(),
            a.len(),
            b.as_ptr(),
            b.len(),
            scratch.as_mut_ptr(),
            scratch.len(),
            output.as_mut_ptr(),
            output.len(),
        )
    })
}

fn three_records(lent: &mut Lent, function: ThreeRecords) -> Answer {
    let [table, a, b] = [&lent.args[0], &lent.args[1], &lent.args[2]];
    // SAFETY: as said above.
    Answer(unsafe {
        function(
            table.as_ptr(),
            table.len(),
            a.as_ptr(),
            a.len(),
            b.as_ptr(),
            b.len(),
        )
    })
}

fn three_records_and_buffers(lent: &mut Lent, function: ThreeRecordsAndBuffers) -> Answer {
    let [table, a, b] = [&lent.args[0], &lent.args[1], &lent.args[2]];
    let (scratch, output) = (&mut lent.scratch, &mut lent.output);
    // SAFETY: as said above; scratch and output are buffers of their own.
    Answer(unsafe {
        function(
            table.as_ptr(),
            table.len(),
            a.as_ptr(),
            a.len(),
            b.as_ptr(),
            b.len(),
            scratch.as_mut_ptr(),
            scratch.len(),
            output.as_mut_ptr(),
            output.len(),
        )
    })
}

fn one_type_and_output(lent: &mut Lent, function: OneTypeAndOutput) -> Answer {
    let t = &lent.args[0];
    let output = &mut lent.output;
    // SAFETY: as said above; the output is a buffer of its own.
    Answer(unsafe { function(t.as_ptr(), t.len(), output.as_mut_ptr(), output.len()) })
}

fn one_value_and_buffers(lent: &mut Lent, function: OneValueAndBuffers) -> Answer {
    let v = &lent.args[0];
    let (scratch, output) = (&mut lent.scratch, &mut lent.output);
    // SAFETY: as said above; scratch and output are buffers of their own.
    Answer(unsafe {
        function(
            v.as_ptr(),
            v.len(),
            scratch.as_mut_ptr(),
            scratch.len(),
            output.as_mut_ptr(),
            output.len(),
        )
    })
}

fn two_records_and_output(lent: &mut Lent, function: TwoRecordsAndOutput) -> Answer {
    let [a, b] = [&lent.args[0], &lent.args[1]];
    let output = &mut lent.output;
    // SAFETY: as said above; the output is a buffer of its own.
    Answer(unsafe {
        function(
            a.as_ptr(),
            a.len(),
            b.as_ptr(),
            b.len(),
            output.as_mut_ptr(),
            output.len(),
        )
    })
}

fn one_byte(lent: &mut Lent, function: OneByte) -> Answer {
    let byte = lent.args[0].contents()[0];
    // SAFETY: nothing is lent.
    Answer(unsafe { function(byte) })
}

fn one_byte_and_output(lent: &mut Lent, function: OneByteAndOutput) -> Answer {
    let byte = lent.args[0].contents()[0];
    let output = &mut lent.output;
    // SAFETY: as said above.
    Answer(unsafe { function(byte, output.as_mut_ptr(), output.len()) })
}

/// The name that an argument spells.
fn name(arg: &Buffer) -> u16 {
    context_answers::name(arg.contents())
}

fn record_and_name(lent: &mut Lent, function: RecordAndName) -> Answer {
    let [c, n] = [&lent.args[0], &lent.args[1]];
    // SAFETY: as said above.
    Answer(unsafe { function(c.as_ptr(), c.len(), name(n)) })
}

fn record_and_path(lent: &mut Lent, function: RecordAndPath) -> Answer {
    let (c, rest) = lent.args.split_at_mut(1);
    // SAFETY: as said above; the names of the path are lent for the call.
    rest[0].lend_words(|path, path_len| {
        Answer(unsafe { function(c[0].as_ptr(), c[0].len(), path, path_len) })
    })
}

fn path_value_and_output(lent: &mut Lent, function: PathValueAndOutput) -> Answer {
    let (c, rest) = lent.args.split_at_mut(1);
    let (path, v) = rest.split_at_mut(1);
    let output = &mut lent.output;
    // SAFETY: as said above; the names of the path are lent for the call, and the output is a buffer
    // of its own.
    path[0].lend_words(|path, path_len| {
        Answer(unsafe {
            function(
                c[0].as_ptr(),
                c[0].len(),
                path,
                path_len,
                v[0].as_ptr(),
                v[0].len(),
                output.as_mut_ptr(),
                output.len(),
            )
        })
    })
}

fn two_names_and_output(lent: &mut Lent, function: TwoNamesAndOutput) -> Answer {
    let [c, n, parent] = [&lent.args[0], &lent.args[1], &lent.args[2]];
    let output = &mut lent.output;
    // SAFETY: as said above; the output is a buffer of its own.
    Answer(unsafe {
        function(
            c.as_ptr(),
            c.len(),
            name(n),
            name(parent),
            output.as_mut_ptr(),
            output.len(),
        )
    })
}

fn name_value_and_output(lent: &mut Lent, function: NameValueAndOutput) -> Answer {
    let [c, n, v] = [&lent.args[0], &lent.args[1], &lent.args[2]];
    let output = &mut lent.output;
    // SAFETY: as said above; the output is a buffer of its own.
    Answer(unsafe {
        function(
            c.as_ptr(),
            c.len(),
            name(n),
            v.as_ptr(),
            v.len(),
            output.as_mut_ptr(),
            output.len(),
        )
    })
}

fn name_and_output(lent: &mut Lent, function: NameAndOutput) -> Answer {
    let [c, n] = [&lent.args[0], &lent.args[1]];
    let output = &mut lent.output;
    // SAFETY: as said above; the output is a buffer of its own.
    Answer(unsafe {
        function(
            c.as_ptr(),
            c.len(),
            name(n),
            output.as_mut_ptr(),
            output.len(),
        )
    })
}
