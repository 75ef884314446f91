//! The second Rust, which takes the place of `libfeel.a` under the feature `self-check`. It works on
//! the bytes and builds no tree, and shares no code with the first.

mod bounds;
mod conformance;
mod contexts;
mod names;
mod parts;
mod read;
mod retrieval;
mod rules;
mod strict;
mod table;
mod values;

use bounds::{Bound, Side};
use retrieval::Coerced;
use rules::{PORTED, Rules};
use std::slice::{from_raw_parts, from_raw_parts_mut};
pub use strict::{
    feel_strict_type_common_subtype, feel_strict_type_common_supertype,
    feel_strict_type_is_conformant, feel_strict_value_is_conformant, feel_strict_value_least_type,
};
pub use table::{
    feel_table_check, feel_table_type_common_subtype, feel_table_type_common_supertype,
    feel_table_type_is_conformant, feel_table_value_is_conformant, feel_table_value_least_type,
};

/// The answer, or the refusal.
type Judged = Result<u64, u64>;

fn answer(judged: Judged) -> u64 {
    match judged {
        Ok(low) => low,
        Err(refusal) => (1 << 32) | refusal,
    }
}

fn read_value(bytes: &[u8]) -> Judged {
    read::judge(bytes, false, 31, 1).map(u64::from)
}

fn read_type(bytes: &[u8]) -> Judged {
    read::judge(bytes, true, 32, 6).map(u64::from)
}

fn of_one_type(t: &[u8], decide: fn(&[u8]) -> bool) -> u64 {
    answer(read_type(t).map(|_| u64::from(decide(t))))
}

fn of_two_types(a: &[u8], b: &[u8], decide: impl FnOnce(&[u8], &[u8]) -> bool) -> u64 {
    let judged = read_type(a).and_then(|_| read_type(b));
    answer(judged.map(|_| u64::from(decide(a, b))))
}

/// Whether a value conforms to a type.
fn judge_value(v: &[u8], t: &[u8], rules: Rules) -> u64 {
    let judged = read_value(v).and_then(|_| read_type(t));
    answer(judged.map(|_| u64::from(values::value_conforms(v, t, rules))))
}

/// Copies the written bytes to the front of the output.
fn deliver(written: &[u8], out: &mut [u8]) -> Judged {
    let front = out.get_mut(..written.len()).ok_or(18u64)?;
    front.copy_from_slice(written);
    Ok(written.len() as u64)
}

/// Document 01's bound on a side.
fn ported(side: Side) -> Bound {
    Bound {
        side,
        rules: PORTED,
    }
}

/// The bound of two types, built in the scratch.
fn bound(a: &[u8], b: &[u8], bound: Bound, scratch: &mut [u8], out: &mut [u8]) -> Judged {
    read_type(a)?;
    read_type(b)?;
    if scratch.len() < a.len() + b.len() {
        return Err(14);
    }
    let end = bounds::put_bound(a, b, bound, scratch, 0);
    deliver(&scratch[..end], out)
}

/// The type of a value, which needs four times its length of scratch; `None` where it has none.
fn type_of_value(
    v: &[u8],
    of: impl FnOnce(&[u8]) -> Option<Vec<u8>>,
    scratch: &[u8],
    out: &mut [u8],
) -> Judged {
    read_value(v)?;
    let written = of(v).ok_or(13u64)?;
    if scratch.len() / 4 < v.len() {
        return Err(14);
    }
    deliver(&written, out)
}

fn of_one_value(v: &[u8], decide: fn(&[u8]) -> bool) -> u64 {
    answer(read_value(v).map(|_| u64::from(decide(v))))
}

fn of_interval(i: u8, decide: fn(u8) -> bool) -> u64 {
    answer(if i < 4 {
        Ok(u64::from(decide(i)))
    } else {
        Err(2)
    })
}

/// The value retrieved with the type; `None` where it cannot be.
fn retrieve(
    t: &[u8],
    v: &[u8],
    how: fn(&[u8], &[u8]) -> Option<Vec<u8>>,
    out: &mut [u8],
) -> Judged {
    read_type(t)?;
    read_value(v)?;
    let written = how(v, t).ok_or(15u64)?;
    if written.len() > 16_384 {
        return Err(17);
    }
    deliver(&written, out)
}

/// The coerced value. A list around it has three bytes and one level more.
fn coerce(v: &[u8], t: &[u8], out: &mut [u8]) -> Judged {
    let level = read_value(v)?;
    read_type(t)?;
    match retrieval::coerced(v, t) {
        Coerced::Kept(kept) => deliver(kept, out),
        Coerced::InList if v.len() > 16_381 || level > 30 => Err(17),
        Coerced::InList => deliver(&[&[0x0A, 1, 0], v].concat(), out),
        Coerced::Failed => deliver(&[0x00, 1], out),
    }
}

/// Refuses a value that is no context.
fn want_context(v: &[u8]) -> Judged {
    if v[0] == 0x0B { Ok(0) } else { Err(12) }
}

fn of_context(c: &[u8], decide: impl FnOnce() -> u64) -> u64 {
    answer(
        read_value(c)
            .and_then(|_| want_context(c))
            .map(|_| decide()),
    )
}

/// Refuses a path that is too long.
fn count_names(path: &[u16]) -> Judged {
    if path.len() < 32 { Ok(0) } else { Err(11) }
}

fn of_context_and_path(c: &[u8], path: &[u16], decide: impl FnOnce() -> u64) -> u64 {
    let judged = read_value(c).and_then(|_| count_names(path));
    answer(judged.and_then(|_| want_context(c)).map(|_| decide()))
}

/// The number of a part, or none.
fn part(found: Option<(usize, usize)>) -> u64 {
    match found {
        Some((start, length)) => (start as u64) << 16 | length as u64,
        None => 2 << 32,
    }
}

/// A written value must be one that can be read.
fn deliver_value(written: &[u8], out: &mut [u8]) -> Judged {
    read_value(written).map_err(|_| 17u64)?;
    deliver(written, out)
}

/// The context with the value at the path.
fn put_at_path(c: &[u8], path: &[u16], v: &[u8], force: bool, out: &mut [u8]) -> Judged {
    read_value(c)?;
    count_names(path)?;
    read_value(v)?;
    want_context(c)?;
    let written = contexts::put(c, path, v, force).ok_or(16u64)?;
    deliver_value(&written, out)
}

/// The two contexts as one.
fn merge(c: &[u8], other: &[u8], all: bool, out: &mut [u8]) -> Judged {
    read_value(c)?;
    read_value(other)?;
    want_context(c)?;
    want_context(other)?;
    deliver_value(&contexts::merge(c, other, all), out)
}

/// The context after an update that needs nothing more to be read.
fn update(c: &[u8], updated: impl FnOnce() -> Vec<u8>, out: &mut [u8]) -> Judged {
    read_value(c)?;
    want_context(c)?;
    deliver_value(&updated(), out)
}

/// The text of a type over a table.
fn show(t: &[u8], table: &[u8], out: &mut [u8]) -> Judged {
    read_type(t)?;
    let texts = names::table(table).ok_or(19u64)?;
    let text = names::shown(t, &texts).ok_or(20u64)?;
    deliver(&text, out)
}

/// # Safety
/// `v` points to `len` readable bytes.
pub unsafe extern "C" fn feel_check_value(v: *const u8, len: usize) -> u64 {
    answer(read_value(unsafe { from_raw_parts(v, len) }))
}

/// # Safety
/// `t` points to `len` readable bytes.
pub unsafe extern "C" fn feel_check_type(t: *const u8, len: usize) -> u64 {
    answer(read_type(unsafe { from_raw_parts(t, len) }))
}

/// # Safety
/// `a` and `b` point to as many readable bytes as their lengths say.
pub unsafe extern "C" fn feel_type_is_conformant(
    a: *const u8,
    a_len: usize,
    b: *const u8,
    b_len: usize,
) -> u64 {
    let (a, b) = unsafe { (from_raw_parts(a, a_len), from_raw_parts(b, b_len)) };
    of_two_types(a, b, |a, b| conformance::conforms(a, b, PORTED))
}

/// # Safety
/// `a` and `b` point to as many readable bytes as their lengths say.
pub unsafe extern "C" fn feel_type_instance_of(
    a: *const u8,
    a_len: usize,
    b: *const u8,
    b_len: usize,
) -> u64 {
    let (a, b) = unsafe { (from_raw_parts(a, a_len), from_raw_parts(b, b_len)) };
    of_two_types(a, b, conformance::is_instance)
}

/// # Safety
/// `a` and `b` point to as many readable bytes as their lengths say, `scratch` and `out` to as many
/// writable ones; none of the four overlap where one is written.
pub unsafe extern "C" fn feel_type_common_supertype(
    a: *const u8,
    a_len: usize,
    b: *const u8,
    b_len: usize,
    scratch: *mut u8,
    scratch_len: usize,
    out: *mut u8,
    out_len: usize,
) -> u64 {
    let (a, b) = unsafe { (from_raw_parts(a, a_len), from_raw_parts(b, b_len)) };
    let scratch = unsafe { from_raw_parts_mut(scratch, scratch_len) };
    let out = unsafe { from_raw_parts_mut(out, out_len) };
    answer(bound(a, b, ported(Side::Above), scratch, out))
}

/// # Safety
/// As for [feel_type_common_supertype].
pub unsafe extern "C" fn feel_type_common_subtype(
    a: *const u8,
    a_len: usize,
    b: *const u8,
    b_len: usize,
    scratch: *mut u8,
    scratch_len: usize,
    out: *mut u8,
    out_len: usize,
) -> u64 {
    let (a, b) = unsafe { (from_raw_parts(a, a_len), from_raw_parts(b, b_len)) };
    let scratch = unsafe { from_raw_parts_mut(scratch, scratch_len) };
    let out = unsafe { from_raw_parts_mut(out, out_len) };
    answer(bound(a, b, ported(Side::Below), scratch, out))
}

/// # Safety
/// `t` points to `t_len` readable bytes, `out` to `out_len` writable ones, and they do not overlap.
pub unsafe extern "C" fn feel_type_reduced(
    t: *const u8,
    t_len: usize,
    out: *mut u8,
    out_len: usize,
) -> u64 {
    let t = unsafe { from_raw_parts(t, t_len) };
    let out = unsafe { from_raw_parts_mut(out, out_len) };
    let judged = read_type(t).and_then(|_| {
        let mut written = vec![0; t.len()];
        let end = bounds::put_reduced(t, &mut written, 0);
        deliver(&written[..end], out)
    });
    answer(judged)
}

/// # Safety
/// `t` points to `t_len` readable bytes.
pub unsafe extern "C" fn feel_type_is_simple_built_in_type(t: *const u8, t_len: usize) -> u64 {
    of_one_type(unsafe { from_raw_parts(t, t_len) }, |t| t[0] < 0x2A)
}

/// # Safety
/// `t` points to `t_len` readable bytes.
pub unsafe extern "C" fn feel_type_is_null(t: *const u8, t_len: usize) -> u64 {
    of_one_type(unsafe { from_raw_parts(t, t_len) }, |t| t == [0x29])
}

/// # Safety
/// `v` and `t` point to as many readable bytes as their lengths say.
pub unsafe extern "C" fn feel_value_is_conformant(
    v: *const u8,
    v_len: usize,
    t: *const u8,
    t_len: usize,
) -> u64 {
    let (v, t) = unsafe { (from_raw_parts(v, v_len), from_raw_parts(t, t_len)) };
    judge_value(v, t, PORTED)
}

/// # Safety
/// `v` points to `v_len` readable bytes, `scratch` and `out` to as many writable ones as their
/// lengths say; none of the three overlap where one is written.
pub unsafe extern "C" fn feel_value_least_type(
    v: *const u8,
    v_len: usize,
    scratch: *mut u8,
    scratch_len: usize,
    out: *mut u8,
    out_len: usize,
) -> u64 {
    let v = unsafe { from_raw_parts(v, v_len) };
    let scratch = unsafe { from_raw_parts(scratch, scratch_len) };
    let out = unsafe { from_raw_parts_mut(out, out_len) };
    let of = |v: &[u8]| values::least(v, PORTED);
    answer(type_of_value(v, of, scratch, out))
}

/// # Safety
/// As for [feel_value_least_type].
pub unsafe extern "C" fn feel_value_type_of(
    v: *const u8,
    v_len: usize,
    scratch: *mut u8,
    scratch_len: usize,
    out: *mut u8,
    out_len: usize,
) -> u64 {
    let v = unsafe { from_raw_parts(v, v_len) };
    let scratch = unsafe { from_raw_parts(scratch, scratch_len) };
    let out = unsafe { from_raw_parts_mut(out, out_len) };
    let of = |v: &[u8]| Some(values::inferred(v));
    answer(type_of_value(v, of, scratch, out))
}

/// # Safety
/// `t` and `v` point to as many readable bytes as their lengths say, `out` to as many writable
/// ones; `out` overlaps with neither.
pub unsafe extern "C" fn feel_type_get_value_checked(
    t: *const u8,
    t_len: usize,
    v: *const u8,
    v_len: usize,
    out: *mut u8,
    out_len: usize,
) -> u64 {
    let (t, v) = unsafe { (from_raw_parts(t, t_len), from_raw_parts(v, v_len)) };
    let out = unsafe { from_raw_parts_mut(out, out_len) };
    answer(retrieve(t, v, retrieval::retrieved, out))
}

/// # Safety
/// As for [feel_type_get_value_checked].
pub unsafe extern "C" fn feel_type_get_conformant_value(
    t: *const u8,
    t_len: usize,
    v: *const u8,
    v_len: usize,
    out: *mut u8,
    out_len: usize,
) -> u64 {
    let (t, v) = unsafe { (from_raw_parts(t, t_len), from_raw_parts(v, v_len)) };
    let out = unsafe { from_raw_parts_mut(out, out_len) };
    answer(retrieve(t, v, retrieval::conformant, out))
}

/// # Safety
/// As for [feel_type_get_value_checked].
pub unsafe extern "C" fn feel_value_coerced(
    v: *const u8,
    v_len: usize,
    t: *const u8,
    t_len: usize,
    out: *mut u8,
    out_len: usize,
) -> u64 {
    let (v, t) = unsafe { (from_raw_parts(v, v_len), from_raw_parts(t, t_len)) };
    let out = unsafe { from_raw_parts_mut(out, out_len) };
    answer(coerce(v, t, out))
}

/// # Safety
/// `v` points to `v_len` readable bytes.
pub unsafe extern "C" fn feel_value_is_invalid_coercion(v: *const u8, v_len: usize) -> u64 {
    of_one_value(unsafe { from_raw_parts(v, v_len) }, |v| v == [0x00, 1])
}

/// # Safety
/// `v` points to `v_len` readable bytes.
pub unsafe extern "C" fn feel_value_is_valid_range(v: *const u8, v_len: usize) -> u64 {
    of_one_value(
        unsafe { from_raw_parts(v, v_len) },
        retrieval::is_valid_range,
    )
}

/// # Safety
/// `v` points to `v_len` readable bytes.
pub unsafe extern "C" fn feel_value_is_null(v: *const u8, v_len: usize) -> u64 {
    of_one_value(unsafe { from_raw_parts(v, v_len) }, |v| v[0] == 0x00)
}

/// # Safety
/// `v` points to `v_len` readable bytes.
pub unsafe extern "C" fn feel_value_is_true(v: *const u8, v_len: usize) -> u64 {
    of_one_value(unsafe { from_raw_parts(v, v_len) }, |v| v == [0x01, 1])
}

/// # Safety
/// `v` points to `v_len` readable bytes.
pub unsafe extern "C" fn feel_value_is_false(v: *const u8, v_len: usize) -> u64 {
    of_one_value(unsafe { from_raw_parts(v, v_len) }, |v| v == [0x01, 0])
}

/// # Safety
/// `v` points to `v_len` readable bytes.
pub unsafe extern "C" fn feel_value_is_number(v: *const u8, v_len: usize) -> u64 {
    of_one_value(unsafe { from_raw_parts(v, v_len) }, |v| {
        v[0] == 0x02 || v[0] == 0x10
    })
}

/// # Safety
/// `v` points to `v_len` readable bytes.
pub unsafe extern "C" fn feel_value_is_string(v: *const u8, v_len: usize) -> u64 {
    of_one_value(unsafe { from_raw_parts(v, v_len) }, |v| v[0] == 0x03)
}

/// # Safety
/// `v` points to `v_len` readable bytes.
pub unsafe extern "C" fn feel_value_is_list(v: *const u8, v_len: usize) -> u64 {
    of_one_value(unsafe { from_raw_parts(v, v_len) }, |v| v[0] == 0x0A)
}

/// # Safety
/// `v` points to `v_len` readable bytes.
pub unsafe extern "C" fn feel_value_is_range(v: *const u8, v_len: usize) -> u64 {
    of_one_value(unsafe { from_raw_parts(v, v_len) }, |v| v[0] == 0x09)
}

/// # Safety
/// There is nothing to keep.
pub unsafe extern "C" fn feel_interval_opened(i: u8) -> u64 {
    of_interval(i, |i| i < 2)
}

/// # Safety
/// There is nothing to keep.
pub unsafe extern "C" fn feel_interval_closed(i: u8) -> u64 {
    of_interval(i, |i| i >= 2)
}

/// # Safety
/// There is nothing to keep.
pub unsafe extern "C" fn feel_interval_undefined(i: u8) -> u64 {
    of_interval(i, |i| i % 2 == 1)
}

/// # Safety
/// `out` points to `out_len` writable bytes.
pub unsafe extern "C" fn feel_bif_feel_type(b: u8, out: *mut u8, out_len: usize) -> u64 {
    let out = unsafe { from_raw_parts_mut(out, out_len) };
    answer(if b < 86 {
        deliver(retrieval::bif_type(b), out)
    } else {
        Err(2)
    })
}

/// # Safety
/// `c` points to `c_len` readable bytes.
pub unsafe extern "C" fn feel_context_get_entry(c: *const u8, c_len: usize, name: u16) -> u64 {
    let c = unsafe { from_raw_parts(c, c_len) };
    of_context(c, || part(contexts::search(c, &[name])))
}

/// # Safety
/// `c` points to `c_len` readable bytes, `path` to `path_len` readable names.
pub unsafe extern "C" fn feel_context_search_deep(
    c: *const u8,
    c_len: usize,
    path: *const u16,
    path_len: usize,
) -> u64 {
    let c = unsafe { from_raw_parts(c, c_len) };
    let path = unsafe { from_raw_parts(path, path_len) };
    of_context_and_path(c, path, || part(contexts::search(c, path)))
}

/// # Safety
/// `c` points to `c_len` readable bytes.
pub unsafe extern "C" fn feel_context_get_first(c: *const u8, c_len: usize) -> u64 {
    let c = unsafe { from_raw_parts(c, c_len) };
    of_context(c, || part(contexts::first(c)))
}

/// # Safety
/// `c` points to `c_len` readable bytes.
pub unsafe extern "C" fn feel_context_contains_entry(c: *const u8, c_len: usize, name: u16) -> u64 {
    let c = unsafe { from_raw_parts(c, c_len) };
    of_context(c, || contexts::search(c, &[name]).is_some().into())
}

/// # Safety
/// `c` points to `c_len` readable bytes, `path` to `path_len` readable names.
pub unsafe extern "C" fn feel_context_contains_deep(
    c: *const u8,
    c_len: usize,
    path: *const u16,
    path_len: usize,
) -> u64 {
    let c = unsafe { from_raw_parts(c, c_len) };
    let path = unsafe { from_raw_parts(path, path_len) };
    of_context_and_path(c, path, || contexts::search(c, path).is_some().into())
}

/// # Safety
/// `c` points to `c_len` readable bytes.
pub unsafe extern "C" fn feel_context_is_context(c: *const u8, c_len: usize, name: u16) -> u64 {
    let c = unsafe { from_raw_parts(c, c_len) };
    of_context(c, || {
        let found = contexts::search(c, &[name]);
        found.is_some_and(|(start, _)| c[start] == 0x0B).into()
    })
}

/// # Safety
/// `c` points to `c_len` readable bytes.
pub unsafe extern "C" fn feel_context_is_empty(c: *const u8, c_len: usize) -> u64 {
    let c = unsafe { from_raw_parts(c, c_len) };
    of_context(c, || u64::from(c == [0x0B, 0, 0]))
}

/// # Safety
/// `c` points to `c_len` readable bytes.
pub unsafe extern "C" fn feel_context_len(c: *const u8, c_len: usize) -> u64 {
    let c = unsafe { from_raw_parts(c, c_len) };
    of_context(c, || contexts::count(c))
}

/// # Safety
/// `c` and `v` point to as many readable bytes as their lengths say, `path` to `path_len` readable
/// names, `out` to `out_len` writable bytes; `out` overlaps with none of them.
pub unsafe extern "C" fn feel_context_create_entries(
    c: *const u8,
    c_len: usize,
    path: *const u16,
    path_len: usize,
    v: *const u8,
    v_len: usize,
    out: *mut u8,
    out_len: usize,
) -> u64 {
    let c = unsafe { from_raw_parts(c, c_len) };
    let path = unsafe { from_raw_parts(path, path_len) };
    let v = unsafe { from_raw_parts(v, v_len) };
    let out = unsafe { from_raw_parts_mut(out, out_len) };
    answer(put_at_path(c, path, v, true, out))
}

/// # Safety
/// As for [feel_context_create_entries].
pub unsafe extern "C" fn feel_context_apply_entries(
    c: *const u8,
    c_len: usize,
    path: *const u16,
    path_len: usize,
    v: *const u8,
    v_len: usize,
    out: *mut u8,
    out_len: usize,
) -> u64 {
    let c = unsafe { from_raw_parts(c, c_len) };
    let path = unsafe { from_raw_parts(path, path_len) };
    let v = unsafe { from_raw_parts(v, v_len) };
    let out = unsafe { from_raw_parts_mut(out, out_len) };
    answer(put_at_path(c, path, v, false, out))
}

/// # Safety
/// `c` and `other` point to as many readable bytes as their lengths say, `out` to as many writable
/// ones; `out` overlaps with neither.
pub unsafe extern "C" fn feel_context_zip(
    c: *const u8,
    c_len: usize,
    other: *const u8,
    other_len: usize,
    out: *mut u8,
    out_len: usize,
) -> u64 {
    let c = unsafe { from_raw_parts(c, c_len) };
    let other = unsafe { from_raw_parts(other, other_len) };
    let out = unsafe { from_raw_parts_mut(out, out_len) };
    answer(merge(c, other, true, out))
}

/// # Safety
/// As for [feel_context_zip].
pub unsafe extern "C" fn feel_context_overwrite(
    c: *const u8,
    c_len: usize,
    other: *const u8,
    other_len: usize,
    out: *mut u8,
    out_len: usize,
) -> u64 {
    let c = unsafe { from_raw_parts(c, c_len) };
    let other = unsafe { from_raw_parts(other, other_len) };
    let out = unsafe { from_raw_parts_mut(out, out_len) };
    answer(merge(c, other, false, out))
}

/// # Safety
/// `c` points to `c_len` readable bytes, `out` to `out_len` writable ones, and they do not overlap.
pub unsafe extern "C" fn feel_context_move_entry(
    c: *const u8,
    c_len: usize,
    name: u16,
    parent: u16,
    out: *mut u8,
    out_len: usize,
) -> u64 {
    let c = unsafe { from_raw_parts(c, c_len) };
    let out = unsafe { from_raw_parts_mut(out, out_len) };
    answer(update(c, || contexts::moved(c, name, parent), out))
}

/// # Safety
/// `c` and `v` point to as many readable bytes as their lengths say, `out` to as many writable ones;
/// `out` overlaps with neither.
pub unsafe extern "C" fn feel_context_set_entry(
    c: *const u8,
    c_len: usize,
    name: u16,
    v: *const u8,
    v_len: usize,
    out: *mut u8,
    out_len: usize,
) -> u64 {
    let c = unsafe { from_raw_parts(c, c_len) };
    let v = unsafe { from_raw_parts(v, v_len) };
    let out = unsafe { from_raw_parts_mut(out, out_len) };
    answer(put_at_path(c, &[name], v, true, out))
}

/// # Safety
/// `c` points to `c_len` readable bytes, `out` to `out_len` writable ones, and they do not overlap.
pub unsafe extern "C" fn feel_context_remove_entry(
    c: *const u8,
    c_len: usize,
    name: u16,
    out: *mut u8,
    out_len: usize,
) -> u64 {
    let c = unsafe { from_raw_parts(c, c_len) };
    let out = unsafe { from_raw_parts_mut(out, out_len) };
    answer(update(c, || contexts::without(c, name), out))
}

/// # Safety
/// `c` points to `c_len` readable bytes, `out` to `out_len` writable ones, and they do not overlap.
pub unsafe extern "C" fn feel_context_set_null(
    c: *const u8,
    c_len: usize,
    name: u16,
    out: *mut u8,
    out_len: usize,
) -> u64 {
    let c = unsafe { from_raw_parts(c, c_len) };
    let out = unsafe { from_raw_parts_mut(out, out_len) };
    answer(put_at_path(c, &[name], &[0x00, 0], true, out))
}

/// # Safety
/// `t` and `table` point to as many readable bytes as their lengths say, `out` to as many writable
/// ones; `out` overlaps with neither.
pub unsafe extern "C" fn feel_names_display(
    t: *const u8,
    t_len: usize,
    table: *const u8,
    table_len: usize,
    out: *mut u8,
    out_len: usize,
) -> u64 {
    let t = unsafe { from_raw_parts(t, t_len) };
    let table = unsafe { from_raw_parts(table, table_len) };
    let out = unsafe { from_raw_parts_mut(out, out_len) };
    answer(show(t, table, out))
}

/// # Safety
/// `s` points to `s_len` readable bytes.
pub unsafe extern "C" fn feel_names_from_str(s: *const u8, s_len: usize) -> u64 {
    let command = names::command(unsafe { from_raw_parts(s, s_len) });
    command.map_or(2 << 32, u64::from)
}

/// # Safety
/// `s` points to `s_len` readable bytes.
pub unsafe extern "C" fn feel_names_is_built_in_type_name(s: *const u8, s_len: usize) -> u64 {
    let command = names::command(unsafe { from_raw_parts(s, s_len) });
    u64::from(command.is_some())
}

/// # Safety
/// `parts` points to `parts_len` readable bytes, `out` to `out_len` writable ones, and they do not
/// overlap.
pub unsafe extern "C" fn feel_names_name_new(
    parts: *const u8,
    parts_len: usize,
    out: *mut u8,
    out_len: usize,
) -> u64 {
    let parts = unsafe { from_raw_parts(parts, parts_len) };
    let out = unsafe { from_raw_parts_mut(out, out_len) };
    let name = names::joined(parts).ok_or(19u64);
    answer(name.and_then(|name| deliver(&name, out)))
}

/// # Safety
/// `s` points to `s_len` readable bytes, `out` to `out_len` writable ones, and they do not overlap.
pub unsafe extern "C" fn feel_names_trim(
    s: *const u8,
    s_len: usize,
    out: *mut u8,
    out_len: usize,
) -> u64 {
    let s = unsafe { from_raw_parts(s, s_len) };
    let out = unsafe { from_raw_parts_mut(out, out_len) };
    if s.len() > 16_384 {
        return answer(Err(19));
    }
    answer(deliver(names::trimmed(s), out))
}
