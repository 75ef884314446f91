//! The functions of `include/feel.h`.

unsafe extern "C" {
    pub fn feel_check_value(v: *const u8, v_len: usize) -> u64;
    pub fn feel_check_type(t: *const u8, t_len: usize) -> u64;
    pub fn feel_type_is_conformant(a: *const u8, a_len: usize, b: *const u8, b_len: usize) -> u64;
    pub fn feel_type_instance_of(a: *const u8, a_len: usize, b: *const u8, b_len: usize) -> u64;
    pub fn feel_type_common_supertype(
        a: *const u8,
        a_len: usize,
        b: *const u8,
        b_len: usize,
        scratch: *mut u8,
        scratch_len: usize,
        out: *mut u8,
        out_len: usize,
    ) -> u64;
    pub fn feel_type_common_subtype(
        a: *const u8,
        a_len: usize,
        b: *const u8,
        b_len: usize,
        scratch: *mut u8,
        scratch_len: usize,
        out: *mut u8,
        out_len: usize,
    ) -> u64;
    pub fn feel_type_reduced(t: *const u8, t_len: usize, out: *mut u8, out_len: usize) -> u64;
    pub fn feel_type_is_simple_built_in_type(t: *const u8, t_len: usize) -> u64;
    pub fn feel_type_is_null(t: *const u8, t_len: usize) -> u64;
    pub fn feel_value_is_conformant(v: *const u8, v_len: usize, t: *const u8, t_len: usize) -> u64;
    pub fn feel_value_least_type(
        v: *const u8,
        v_len: usize,
        scratch: *mut u8,
        scratch_len: usize,
        out: *mut u8,
        out_len: usize,
    ) -> u64;
    pub fn feel_value_type_of(
        v: *const u8,
        v_len: usize,
        scratch: *mut u8,
        scratch_len: usize,
        out: *mut u8,
        out_len: usize,
    ) -> u64;
    pub fn feel_type_get_value_checked(
        t: *const u8,
        t_len: usize,
        v: *const u8,
        v_len: usize,
        out: *mut u8,
        out_len: usize,
    ) -> u64;
    pub fn feel_type_get_conformant_value(
        t: *const u8,
        t_len: usize,
        v: *const u8,
        v_len: usize,
        out: *mut u8,
        out_len: usize,
    ) -> u64;
    pub fn feel_value_coerced(
        v: *const u8,
        v_len: usize,
        t: *const u8,
        t_len: usize,
        out: *mut u8,
        out_len: usize,
    ) -> u64;
    pub fn feel_value_is_invalid_coercion(v: *const u8, v_len: usize) -> u64;
    pub fn feel_value_is_valid_range(v: *const u8, v_len: usize) -> u64;
    pub fn feel_value_is_null(v: *const u8, v_len: usize) -> u64;
    pub fn feel_value_is_true(v: *const u8, v_len: usize) -> u64;
    pub fn feel_value_is_false(v: *const u8, v_len: usize) -> u64;
    pub fn feel_value_is_number(v: *const u8, v_len: usize) -> u64;
    pub fn feel_value_is_string(v: *const u8, v_len: usize) -> u64;
    pub fn feel_value_is_list(v: *const u8, v_len: usize) -> u64;
    pub fn feel_value_is_range(v: *const u8, v_len: usize) -> u64;
    pub fn feel_interval_opened(i: u8) -> u64;
    pub fn feel_interval_closed(i: u8) -> u64;
    pub fn feel_interval_undefined(i: u8) -> u64;
    pub fn feel_bif_feel_type(b: u8, out: *mut u8, out_len: usize) -> u64;
    pub fn feel_context_get_entry(c: *const u8, c_len: usize, name: u16) -> u64;
    pub fn feel_context_search_deep(
        c: *const u8,
        c_len: usize,
        path: *const u16,
        path_len: usize,
    ) -> u64;
    pub fn feel_context_get_first(c: *const u8, c_len: usize) -> u64;
    pub fn feel_context_contains_entry(c: *const u8, c_len: usize, name: u16) -> u64;
    pub fn feel_context_contains_deep(
        c: *const u8,
        c_len: usize,
        path: *const u16,
        path_len: usize,
    ) -> u64;
    pub fn feel_context_is_context(c: *const u8, c_len: usize, name: u16) -> u64;
    pub fn feel_context_is_empty(c: *const u8, c_len: usize) -> u64;
    pub fn feel_context_len(c: *const u8, c_len: usize) -> u64;
    pub fn feel_context_create_entries(
        c: *const u8,
        c_len: usize,
        path: *const u16,
        path_len: usize,
        v: *const u8,
        v_len: usize,
        out: *mut u8,
        out_len: usize,
    ) -> u64;
    pub fn feel_context_apply_entries(
        c: *const u8,
        c_len: usize,
        path: *const u16,
        path_len: usize,
        v: *const u8,
        v_len: usize,
        out: *mut u8,
        out_len: usize,
    ) -> u64;
    pub fn feel_context_zip(
        c: *const u8,
        c_len: usize,
        other: *const u8,
        other_len: usize,
        out: *mut u8,
        out_len: usize,
    ) -> u64;
    pub fn feel_context_overwrite(
        c: *const u8,
        c_len: usize,
        other: *const u8,
        other_len: usize,
        out: *mut u8,
        out_len: usize,
    ) -> u64;
    pub fn feel_context_move_entry(
        c: *const u8,
        c_len: usize,
        name: u16,
        parent: u16,
        out: *mut u8,
        out_len: usize,
    ) -> u64;
    pub fn feel_context_set_entry(
        c: *const u8,
        c_len: usize,
        name: u16,
        v: *const u8,
        v_len: usize,
        out: *mut u8,
        out_len: usize,
    ) -> u64;
    pub fn feel_context_remove_entry(
        c: *const u8,
        c_len: usize,
        name: u16,
        out: *mut u8,
        out_len: usize,
    ) -> u64;
    pub fn feel_context_set_null(
        c: *const u8,
        c_len: usize,
        name: u16,
        out: *mut u8,
        out_len: usize,
    ) -> u64;
    pub fn feel_names_display(
        t: *const u8,
        t_len: usize,
        table: *const u8,
        table_len: usize,
        out: *mut u8,
        out_len: usize,
    ) -> u64;
    pub fn feel_names_from_str(s: *const u8, s_len: usize) -> u64;
    pub fn feel_names_is_built_in_type_name(s: *const u8, s_len: usize) -> u64;
    pub fn feel_names_name_new(
        parts: *const u8,
        parts_len: usize,
        out: *mut u8,
        out_len: usize,
    ) -> u64;
    pub fn feel_names_trim(s: *const u8, s_len: usize, out: *mut u8, out_len: usize) -> u64;
    pub fn feel_strict_type_is_conformant(
        a: *const u8,
        a_len: usize,
        b: *const u8,
        b_len: usize,
    ) -> u64;
    pub fn feel_strict_type_common_supertype(
        a: *const u8,
        a_len: usize,
        b: *const u8,
        b_len: usize,
        scratch: *mut u8,
        scratch_len: usize,
        out: *mut u8,
        out_len: usize,
    ) -> u64;
    pub fn feel_strict_type_common_subtype(
        a: *const u8,
        a_len: usize,
        b: *const u8,
        b_len: usize,
        scratch: *mut u8,
        scratch_len: usize,
        out: *mut u8,
        out_len: usize,
    ) -> u64;
    pub fn feel_strict_value_is_conformant(
        v: *const u8,
        v_len: usize,
        t: *const u8,
        t_len: usize,
    ) -> u64;
    pub fn feel_strict_value_least_type(
        v: *const u8,
        v_len: usize,
        scratch: *mut u8,
        scratch_len: usize,
        out: *mut u8,
        out_len: usize,
    ) -> u64;
    pub fn feel_table_check(table: *const u8, table_len: usize) -> u64;
    pub fn feel_table_type_is_conformant(
        table: *const u8,
        table_len: usize,
        a: *const u8,
        a_len: usize,
        b: *const u8,
        b_len: usize,
    ) -> u64;
    pub fn feel_table_type_common_supertype(
        table: *const u8,
        table_len: usize,
        a: *const u8,
        a_len: usize,
        b: *const u8,
        b_len: usize,
        scratch: *mut u8,
        scratch_len: usize,
        out: *mut u8,
        out_len: usize,
    ) -> u64;
    pub fn feel_table_type_common_subtype(
        table: *const u8,
        table_len: usize,
        a: *const u8,
        a_len: usize,
        b: *const u8,
        b_len: usize,
        scratch: *mut u8,
        scratch_len: usize,
        out: *mut u8,
        out_len: usize,
    ) -> u64;
    pub fn feel_table_value_is_conformant(
        table: *const u8,
        table_len: usize,
        v: *const u8,
        v_len: usize,
        t: *const u8,
        t_len: usize,
    ) -> u64;
    pub fn feel_table_value_least_type(
        table: *const u8,
        table_len: usize,
        v: *const u8,
        v_len: usize,
        scratch: *mut u8,
        scratch_len: usize,
        out: *mut u8,
        out_len: usize,
    ) -> u64;
}
