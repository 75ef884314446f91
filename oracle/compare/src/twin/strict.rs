//! The strict functions of the second Rust.

use super::bounds::{Bound, Side};
use super::rules::STRICT;
use super::{answer, bound, conformance, judge_value, of_two_types, type_of_value, values};
use std::slice::{from_raw_parts, from_raw_parts_mut};

/// # Safety
/// `a` and `b` point to as many readable bytes as their lengths say.
pub unsafe extern "C" fn feel_strict_type_is_conformant(
    a: *const u8,
    a_len: usize,
    b: *const u8,
    b_len: usize,
) -> u64 {
    let (a, b) = unsafe { (from_raw_parts(a, a_len), from_raw_parts(b, b_len)) };
    of_two_types(a, b, |a, b| conformance::conforms(a, b, STRICT))
}

/// The strict bound on a side.
fn strict(side: Side) -> Bound {
    Bound {
        side,
        rules: STRICT,
    }
}

/// # Safety
/// `a` and `b` point to as many readable bytes as their lengths say, `scratch` and `out` to as many
/// writable ones; none of the four overlap where one is written.
pub unsafe extern "C" fn feel_strict_type_common_supertype(
    a: *const u8,
    a_len: usize,
    b: *const u8,
    b_len: usize,
    scratch: *mut u8,
    scratch_len: usize,
    out: *mut u8,
    out_len: usize,
) -> u64 {
    let (a, b) = unsafe { (from_raw_parts(a, a_len), from_raw_parts(b, b_len)) };
    let scratch = unsafe { from_raw_parts_mut(scratch, scratch_len) };
    let out = unsafe { from_raw_parts_mut(out, out_len) };
    answer(bound(a, b, strict(Side::Above), scratch, out))
}

/// # Safety
/// As for [feel_strict_type_common_supertype].
pub unsafe extern "C" fn feel_strict_type_common_subtype(
    a: *const u8,
    a_len: usize,
    b: *const u8,
    b_len: usize,
    scratch: *mut u8,
    scratch_len: usize,
    out: *mut u8,
    out_len: usize,
) -> u64 {
    let (a, b) = unsafe { (from_raw_parts(a, a_len), from_raw_parts(b, b_len)) };
    let scratch = unsafe { from_raw_parts_mut(scratch, scratch_len) };
    let out = unsafe { from_raw_parts_mut(out, out_len) };
    answer(bound(a, b, strict(Side::Below), scratch, out))
}

/// # Safety
/// `v` and `t` point to as many readable bytes as their lengths say.
pub unsafe extern "C" fn feel_strict_value_is_conformant(
    v: *const u8,
    v_len: usize,
    t: *const u8,
    t_len: usize,
) -> u64 {
    let (v, t) = unsafe { (from_raw_parts(v, v_len), from_raw_parts(t, t_len)) };
    judge_value(v, t, STRICT)
}

/// # Safety
/// `v` points to `v_len` readable bytes, `scratch` and `out` to as many writable ones as their
/// lengths say; none of the three overlap where one is written.
pub unsafe extern "C" fn feel_strict_value_least_type(
    v: *const u8,
    v_len: usize,
    scratch: *mut u8,
    scratch_len: usize,
    out: *mut u8,
    out_len: usize,
) -> u64 {
    let v = unsafe { from_raw_parts(v, v_len) };
    let scratch = unsafe { from_raw_parts(scratch, scratch_len) };
    let out = unsafe { from_raw_parts_mut(out, out_len) };
    let of = |v: &[u8]| values::least(v, STRICT);
    answer(type_of_value(v, of, scratch, out))
}
