//! The functions of the second Rust over a table of simple types.

use super::bounds::{Bound, Side};
use super::rules::Rules;
use super::{Judged, answer, bound, conformance, judge_value, of_two_types, type_of_value, values};
use std::slice::{from_raw_parts, from_raw_parts_mut};

/// The answer of a question over the rules of a table, or the table's refusal.
fn asked(table: &[u8], ask: impl FnOnce(Rules) -> u64) -> u64 {
    match Rules::over(table) {
        Ok(rules) => ask(rules),
        Err(refusal) => answer(Err(refusal)),
    }
}

/// # Safety
/// `table` points to `table_len` readable bytes.
pub unsafe extern "C" fn feel_table_check(table: *const u8, table_len: usize) -> u64 {
    asked(unsafe { from_raw_parts(table, table_len) }, |_| 1)
}

/// # Safety
/// `table`, `a` and `b` point to as many readable bytes as their lengths say.
pub unsafe extern "C" fn feel_table_type_is_conformant(
    table: *const u8,
    table_len: usize,
    a: *const u8,
    a_len: usize,
    b: *const u8,
    b_len: usize,
) -> u64 {
    let (a, b) = unsafe { (from_raw_parts(a, a_len), from_raw_parts(b, b_len)) };
    asked(unsafe { from_raw_parts(table, table_len) }, |rules| {
        of_two_types(a, b, |a, b| conformance::conforms(a, b, rules))
    })
}

/// The bound on a side over a table.
fn over(table: &[u8], two: [&[u8]; 2], side: Side, buffers: [&mut [u8]; 2]) -> Judged {
    let rules = Rules::over(table)?;
    let [scratch, out] = buffers;
    bound(two[0], two[1], Bound { side, rules }, scratch, out)
}

/// # Safety
/// `table`, `a` and `b` point to as many readable bytes as their lengths say, `scratch` and `out` to as
/// many writable ones; none of the five overlap where one is written.
pub unsafe extern "C" fn feel_table_type_common_supertype(
    table: *const u8,
    table_len: usize,
    a: *const u8,
    a_len: usize,
    b: *const u8,
    b_len: usize,
    scratch: *mut u8,
    scratch_len: usize,
    out: *mut u8,
    out_len: usize,
) -> u64 {
    let table = unsafe { from_raw_parts(table, table_len) };
    let two = unsafe { [from_raw_parts(a, a_len), from_raw_parts(b, b_len)] };
    let scratch = unsafe { from_raw_parts_mut(scratch, scratch_len) };
    let out = unsafe { from_raw_parts_mut(out, out_len) };
    answer(over(table, two, Side::Above, [scratch, out]))
}

/// # Safety
/// As for [feel_table_type_common_supertype].
pub unsafe extern "C" fn feel_table_type_common_subtype(
    table: *const u8,
    table_len: usize,
    a: *const u8,
    a_len: usize,
    b: *const u8,
    b_len: usize,
    scratch: *mut u8,
    scratch_len: usize,
    out: *mut u8,
    out_len: usize,
) -> u64 {
    let table = unsafe { from_raw_parts(table, table_len) };
    let two = unsafe { [from_raw_parts(a, a_len), from_raw_parts(b, b_len)] };
    let scratch = unsafe { from_raw_parts_mut(scratch, scratch_len) };
    let out = unsafe { from_raw_parts_mut(out, out_len) };
    answer(over(table, two, Side::Below, [scratch, out]))
}

/// # Safety
/// `table`, `v` and `t` point to as many readable bytes as their lengths say.
pub unsafe extern "C" fn feel_table_value_is_conformant(
    table: *const u8,
    table_len: usize,
    v: *const u8,
    v_len: usize,
    t: *const u8,
    t_len: usize,
) -> u64 {
    let (v, t) = unsafe { (from_raw_parts(v, v_len), from_raw_parts(t, t_len)) };
    asked(unsafe { from_raw_parts(table, table_len) }, |rules| {
        judge_value(v, t, rules)
    })
}

/// # Safety
/// `table` and `v` point to as many readable bytes as their lengths say, `scratch` and `out` to as many
/// writable ones; none of the four overlap where one is written.
pub unsafe extern "C" fn feel_table_value_least_type(
    table: *const u8,
    table_len: usize,
    v: *const u8,
    v_len: usize,
    scratch: *mut u8,
    scratch_len: usize,
    out: *mut u8,
    out_len: usize,
) -> u64 {
    let v = unsafe { from_raw_parts(v, v_len) };
    let scratch = unsafe { from_raw_parts(scratch, scratch_len) };
    let out = unsafe { from_raw_parts_mut(out, out_len) };
    asked(unsafe { from_raw_parts(table, table_len) }, |rules| {
        let of = |v: &[u8]| values::least(v, rules);
        answer(type_of_value(v, of, scratch, out))
    })
}
