//! The C functions under comparison.

#[cfg(feature = "self-check")]
pub use crate::twin::{
    feel_bif_feel_type, feel_check_type, feel_check_value, feel_context_apply_entries,
    feel_context_contains_deep, feel_context_contains_entry, feel_context_create_entries,
    feel_context_get_entry, feel_context_get_first, feel_context_is_context, feel_context_is_empty,
    feel_context_len, feel_context_move_entry, feel_context_overwrite, feel_context_remove_entry,
    feel_context_search_deep, feel_context_set_entry, feel_context_set_null, feel_context_zip,
    feel_interval_closed, feel_interval_opened, feel_interval_undefined, feel_names_display,
    feel_names_from_str, feel_names_is_built_in_type_name, feel_names_name_new, feel_names_trim,
    feel_strict_type_common_subtype, feel_strict_type_common_supertype,
    feel_strict_type_is_conformant, feel_strict_value_is_conformant, feel_strict_value_least_type,
    feel_table_check, feel_table_type_common_subtype, feel_table_type_common_supertype,
    feel_table_type_is_conformant, feel_table_value_is_conformant, feel_table_value_least_type,
    feel_type_common_subtype, feel_type_common_supertype, feel_type_get_conformant_value,
    feel_type_get_value_checked, feel_type_instance_of, feel_type_is_conformant, feel_type_is_null,
    feel_type_is_simple_built_in_type, feel_type_reduced, feel_value_coerced,
    feel_value_is_conformant, feel_value_is_false, feel_value_is_invalid_coercion,
    feel_value_is_list, feel_value_is_null, feel_value_is_number, feel_value_is_range,
    feel_value_is_string, feel_value_is_true, feel_value_is_valid_range, feel_value_least_type,
    feel_value_type_of,
};

/// What the answers are compared with, for the first printed line.
pub const COMPARED: &str = if cfg!(feature = "self-check") {
    "the second Rust (self-check)"
} else {
    "libfeel.a"
};

/// Declares the functions, and those of an earlier library where one is linked too (`build.rs`).
#[cfg(not(feature = "self-check"))]
macro_rules! functions {
    ($(pub fn $name:ident($($arg:ident: $t:ty),* $(,)?) -> u64;)*) => {
        unsafe extern "C" {
            $(pub fn $name($($arg: $t),*) -> u64;)*
        }

        /// The functions of the earlier library.
        #[cfg(feel_before)]
        pub mod before {
            unsafe extern "C" {
                $(
                    #[link_name = concat!("before_", stringify!($name))]
                    pub fn $name($($arg: $t),*) -> u64;
                )*
            }
        }
    };
}

#[cfg(not(feature = "self-check"))]
functions! {
    pub fn feel_check_value(v: *const u8, len: usize) -> u64;
    pub fn feel_check_type(t: *const u8, len: usize) -> u64;
    pub fn feel_type_is_conformant(a: *const u8, a_len: usize, b: *const u8, b_len: usize) -> u64;
    pub fn feel_type_instance_of(a: *const u8, a_len: usize, b: *const u8, b_len: usize) -> u64;
    pub fn feel_type_common_supertype(
        a: *const u8,
        a_len: usize,
        b: *const u8,
        b_len: usize,
        scratch: *mut u8,
        scratch_len: usize,
        out: *mut u8,
        out_len: usize,
    ) -> u64;
    pub fn feel_type_common_subtype(
        a: *const u8,
        a_len: usize,
        b: *const u8,
        b_len: usize,
        scratch: *mut u8,
        scratch_len: usize,
        out: *mut u8,
        out_len: usize,
    ) -> u64;
    pub fn feel_type_reduced(t: *const u8, t_len: usize, out: *mut u8, out_len: usize) -> u64;
    pub fn feel_type_is_simple_built_in_type(t: *const u8, t_len: usize) -> u64;
    pub fn feel_type_is_null(t: *const u8, t_len: usize) -> u64;
    pub fn feel_value_is_conformant(v: *const u8, v_len: usize, t: *const u8, t_len: usize) -> u64;
    pub fn feel_value_least_type(
        v: *const u8,
        v_len: usize,
        scratch: *mut u8,
        scratch_len: usize,
        out: *mut u8,
        out_len: usize,
    ) -> u64;
    pub fn feel_value_type_of(
        v: *const u8,
        v_len: usize,
        scratch: *mut u8,
        scratch_len: usize,
        out: *mut u8,
        out_len: usize,
    ) -> u64;
    pub fn feel_type_get_value_checked(
        t: *const u8,
        t_len: usize,
        v: *const u8,
        v_len: usize,
        out: *mut u8,
        out_len: usize,
    ) -> u64;
    pub fn feel_type_get_conformant_value(
        t: *const u8,
        t_len: usize,
        v: *const u8,
        v_len: usize,
        out: *mut u8,
        out_len: usize,
    ) -> u64;
    pub fn feel_value_coerced(
        v: *const u8,
        v_len: usize,
        t: *const u8,
        t_len: usize,
        out: *mut u8,
        out_len: usize,
    ) -> u64;
    pub fn feel_value_is_invalid_coercion(v: *const u8, v_len: usize) -> u64;
    pub fn feel_value_is_valid_range(v: *const u8, v_len: usize) -> u64;
    pub fn feel_value_is_null(v: *const u8, v_len: usize) -> u64;
    pub fn feel_value_is_true(v: *const u8, v_len: usize) -> u64;
    pub fn feel_value_is_false(v: *const u8, v_len: usize) -> u64;
    pub fn feel_value_is_number(v: *const u8, v_len: usize) -> u64;
    pub fn feel_value_is_string(v: *const u8, v_len: usize) -> u64;
    pub fn feel_value_is_list(v: *const u8, v_len: usize) -> u64;
    pub fn feel_value_is_range(v: *const u8, v_len: usize) -> u64;
    pub fn feel_interval_opened(i: u8) -> u64;
    pub fn feel_interval_closed(i: u8) -> u64;
    pub fn feel_interval_undefined(i: u8) -> u64;
    pub fn feel_bif_feel_type(b: u8, out: *mut u8, out_len: usize) -> u64;
    pub fn feel_context_get_entry(c: *const u8, c_len: usize, name: u16) -> u64;
    pub fn feel_context_search_deep(
        c: *const u8,
        c_len: usize,
        path: *const u16,
        path_len: usize,
    ) -> u64;
    pub fn feel_context_get_first(c: *const u8, c_len: usize) -> u64;
    pub fn feel_context_contains_entry(c: *const u8, c_len: usize, name: u16) -> u64;
    pub fn feel_context_contains_deep(
        c: *const u8,
        c_len: usize,
        path: *const u16,
        path_len: usize,
    ) -> u64;
    pub fn feel_context_is_context(c: *const u8, c_len: usize, name: u16) -> u64;
    pub fn feel_context_is_empty(c: *const u8, c_len: usize) -> u64;
    pub fn feel_context_len(c: *const u8, c_len: usize) -> u64;
    pub fn feel_context_create_entries(
        c: *const u8,
        c_len: usize,
        path: *const u16,
        path_len: usize,
        v: *const u8,
        v_len: usize,
        out: *mut u8,
        out_len: usize,
    ) -> u64;
    pub fn feel_context_apply_entries(
        c: *const u8,
        c_len: usize,
        path: *const u16,
        path_len: usize,
        v: *const u8,
        v_len: usize,
        out: *mut u8,
        out_len: usize,
    ) -> u64;
    pub fn feel_context_zip(
        c: *const u8,
        c_len: usize,
        other: *const u8,
        other_len: usize,
        out: *mut u8,
        out_len: usize,
    ) -> u64;
    pub fn feel_context_overwrite(
        c: *const u8,
        c_len: usize,
        other: *const u8,
        other_len: usize,
        out: *mut u8,
        out_len: usize,
    ) -> u64;
    pub fn feel_context_move_entry(
        c: *const u8,
        c_len: usize,
        name: u16,
        parent: u16,
        out: *mut u8,
        out_len: usize,
    ) -> u64;
    pub fn feel_context_set_entry(
        c: *const u8,
        c_len: usize,
        name: u16,
        v: *const u8,
        v_len: usize,
        out: *mut u8,
        out_len: usize,
    ) -> u64;
    pub fn feel_context_remove_entry(
        c: *const u8,
        c_len: usize,
        name: u16,
        out: *mut u8,
        out_len: usize,
    ) -> u64;
    pub fn feel_context_set_null(
        c: *const u8,
        c_len: usize,
        name: u16,
        out: *mut u8,
        out_len: usize,
    ) -> u64;
    pub fn feel_names_display(
        t: *const u8,
        t_len: usize,
        table: *const u8,
        table_len: usize,
        out: *mut u8,
        out_len: usize,
    ) -> u64;
    pub fn feel_names_from_str(s: *const u8, s_len: usize) -> u64;
    pub fn feel_names_is_built_in_type_name(s: *const u8, s_len: usize) -> u64;
    pub fn feel_names_name_new(
        parts: *const u8,
        parts_len: usize,
        out: *mut u8,
        out_len: usize,
    ) -> u64;
    pub fn feel_names_trim(s: *const u8, s_len: usize, out: *mut u8, out_len: usize) -> u64;
    pub fn feel_strict_type_is_conformant(
        a: *const u8,
        a_len: usize,
        b: *const u8,
        b_len: usize,
    ) -> u64;
    pub fn feel_strict_type_common_supertype(
        a: *const u8,
        a_len: usize,
        b: *const u8,
        b_len: usize,
        scratch: *mut u8,
        scratch_len: usize,
        out: *mut u8,
        out_len: usize,
    ) -> u64;
    pub fn feel_strict_type_common_subtype(
        a: *const u8,
        a_len: usize,
        b: *const u8,
        b_len: usize,
        scratch: *mut u8,
        scratch_len: usize,
        out: *mut u8,
        out_len: usize,
    ) -> u64;
    pub fn feel_strict_value_is_conformant(
        v: *const u8,
        v_len: usize,
        t: *const u8,
        t_len: usize,
    ) -> u64;
    pub fn feel_strict_value_least_type(
        v: *const u8,
        v_len: usize,
        scratch: *mut u8,
        scratch_len: usize,
        out: *mut u8,
        out_len: usize,
    ) -> u64;
    pub fn feel_table_check(table: *const u8, table_len: usize) -> u64;
    pub fn feel_table_type_is_conformant(
        table: *const u8,
        table_len: usize,
        a: *const u8,
        a_len: usize,
        b: *const u8,
        b_len: usize,
    ) -> u64;
    pub fn feel_table_type_common_supertype(
        table: *const u8,
        table_len: usize,
        a: *const u8,
        a_len: usize,
        b: *const u8,
        b_len: usize,
        scratch: *mut u8,
        scratch_len: usize,
        out: *mut u8,
        out_len: usize,
    ) -> u64;
    pub fn feel_table_type_common_subtype(
        table: *const u8,
        table_len: usize,
        a: *const u8,
        a_len: usize,
        b: *const u8,
        b_len: usize,
        scratch: *mut u8,
        scratch_len: usize,
        out: *mut u8,
        out_len: usize,
    ) -> u64;
    pub fn feel_table_value_is_conformant(
        table: *const u8,
        table_len: usize,
        v: *const u8,
        v_len: usize,
        t: *const u8,
        t_len: usize,
    ) -> u64;
    pub fn feel_table_value_least_type(
        table: *const u8,
        table_len: usize,
        v: *const u8,
        v_len: usize,
        scratch: *mut u8,
        scratch_len: usize,
        out: *mut u8,
        out_len: usize,
    ) -> u64;
}
