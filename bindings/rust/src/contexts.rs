//! The calls over contexts. A path is a slice of names, the outermost first, at most 31. What is
//! found is a part of the context's own bytes. An update gives new bytes. What is no context is
//! refused 12.

use crate::Refusal;
use crate::answer::{given, length, part, written_value, yes};
use crate::ffi;

/// `FeelContext::get_entry`: the value of the entry with this name.
///
/// ```
/// // {5: true}
/// let c = [0x0B, 1, 0, 5, 0, 0x01, 1];
/// assert_eq!(hedvaste::contexts::get_entry(&c, 5), Ok(Some(&[0x01, 1][..])));
/// assert_eq!(hedvaste::contexts::get_entry(&c, 6), Ok(None));
/// ```
pub fn get_entry(c: &[u8], name: u16) -> Result<Option<&[u8]>, Refusal> {
    // SAFETY: pointer and length are those of a slice, here and in every call of this module.
    part(c, unsafe {
        ffi::feel_context_get_entry(c.as_ptr(), c.len(), name)
    })
}

/// `FeelContext::search_deep`: the value at the path; none for an empty path.
///
/// ```
/// // {5: {7: true}}
/// let c = [0x0B, 1, 0, 5, 0, 0x0B, 1, 0, 7, 0, 0x01, 1];
/// assert_eq!(hedvaste::contexts::search_deep(&c, &[5, 7]), Ok(Some(&c[10..])));
/// assert_eq!(hedvaste::contexts::search_deep(&c, &[7]), Ok(None));
/// ```
pub fn search_deep<'a>(c: &'a [u8], path: &[u16]) -> Result<Option<&'a [u8]>, Refusal> {
    // SAFETY: as above.
    part(c, unsafe {
        ffi::feel_context_search_deep(c.as_ptr(), c.len(), path.as_ptr(), path.len())
    })
}

/// `FeelContext::get_first`: the value of the first entry.
///
/// ```
/// assert_eq!(hedvaste::contexts::get_first(&[0x0B, 1, 0, 5, 0, 0x0F]), Ok(Some(&[0x0F][..])));
/// assert_eq!(hedvaste::contexts::get_first(&[0x0B, 0, 0]), Ok(None));
/// ```
pub fn get_first(c: &[u8]) -> Result<Option<&[u8]>, Refusal> {
    // SAFETY: as above.
    part(c, unsafe {
        ffi::feel_context_get_first(c.as_ptr(), c.len())
    })
}

/// `FeelContext::contains_entry`: is there an entry with this name?
///
/// ```
/// assert_eq!(hedvaste::contexts::contains_entry(&[0x0B, 1, 0, 5, 0, 0x0F], 5), Ok(true));
/// ```
pub fn contains_entry(c: &[u8], name: u16) -> Result<bool, Refusal> {
    // SAFETY: as above.
    yes(unsafe { ffi::feel_context_contains_entry(c.as_ptr(), c.len(), name) })
}

/// `FeelContext::contains_deep`: is there a value at the path? No for an empty path.
///
/// ```
/// let c = [0x0B, 1, 0, 5, 0, 0x0F];
/// assert_eq!(hedvaste::contexts::contains_deep(&c, &[5]), Ok(true));
/// assert_eq!(hedvaste::contexts::contains_deep(&c, &[]), Ok(false));
/// assert_eq!(hedvaste::contexts::contains_deep(&c, &[5; 32]).unwrap_err().number(), 11);
/// ```
pub fn contains_deep(c: &[u8], path: &[u16]) -> Result<bool, Refusal> {
    // SAFETY: as above.
    yes(unsafe { ffi::feel_context_contains_deep(c.as_ptr(), c.len(), path.as_ptr(), path.len()) })
}

/// `FeelContext::is_context`: is there an entry with this name, and is its value a context?
///
/// ```
/// assert_eq!(hedvaste::contexts::is_context(&[0x0B, 1, 0, 5, 0, 0x0B, 0, 0], 5), Ok(true));
/// assert_eq!(hedvaste::contexts::is_context(&[0x0B, 1, 0, 5, 0, 0x0F], 5), Ok(false));
/// ```
pub fn is_context(c: &[u8], name: u16) -> Result<bool, Refusal> {
    // SAFETY: as above.
    yes(unsafe { ffi::feel_context_is_context(c.as_ptr(), c.len(), name) })
}

/// `FeelContext::is_empty`: is there no entry?
///
/// ```
/// assert_eq!(hedvaste::contexts::is_empty(&[0x0B, 0, 0]), Ok(true));
/// assert_eq!(hedvaste::contexts::is_empty(&[0x0A, 0, 0]).unwrap_err().number(), 12);
/// ```
pub fn is_empty(c: &[u8]) -> Result<bool, Refusal> {
    // SAFETY: as above.
    yes(unsafe { ffi::feel_context_is_empty(c.as_ptr(), c.len()) })
}

/// `FeelContext::len`: how many entries there are.
///
/// ```
/// assert_eq!(hedvaste::contexts::len(&[0x0B, 1, 0, 5, 0, 0x0F]), Ok(1));
/// ```
pub fn len(c: &[u8]) -> Result<usize, Refusal> {
    // SAFETY: as above.
    Ok(given(unsafe { ffi::feel_context_len(c.as_ptr(), c.len()) })? as usize)
}

/// `FeelContext::create_entries`: `c` with the value `v` at the path; a value on the way that is no
/// context is replaced by a new context, an empty path copies `c`.
///
/// ```
/// // {} and the path 1 2: {1: {2: v}}
/// let after = hedvaste::contexts::create_entries(&[0x0B, 0, 0], &[1, 2], &[0x0F]);
/// assert_eq!(after, Ok(vec![0x0B, 1, 0, 1, 0, 0x0B, 1, 0, 2, 0, 0x0F]));
/// ```
pub fn create_entries(c: &[u8], path: &[u16], v: &[u8]) -> Result<Vec<u8>, Refusal> {
    written_value(|out| create_entries_into(c, path, v, out))
}

/// [create_entries] at the front of `out`: its length.
///
/// ```
/// let mut out = [0; 6];
/// let c = [0x0B, 0, 0];
/// assert_eq!(hedvaste::contexts::create_entries_into(&c, &[7], &[0x0F], &mut out), Ok(6));
/// assert_eq!(out, [0x0B, 1, 0, 7, 0, 0x0F]);
/// ```
pub fn create_entries_into(
    c: &[u8],
    path: &[u16],
    v: &[u8],
    out: &mut [u8],
) -> Result<usize, Refusal> {
    entries_into(c, path, v, out, ffi::feel_context_create_entries)
}

/// `FeelContext::apply_entries`: as [create_entries], but refusal 16 where a value on the way is no
/// context.
///
/// ```
/// // {1: true} and the path 1 2.
/// let after = hedvaste::contexts::apply_entries(&[0x0B, 1, 0, 1, 0, 0x01, 1], &[1, 2], &[0x0F]);
/// assert_eq!(after.unwrap_err().number(), 16);
/// ```
pub fn apply_entries(c: &[u8], path: &[u16], v: &[u8]) -> Result<Vec<u8>, Refusal> {
    written_value(|out| apply_entries_into(c, path, v, out))
}

/// [apply_entries] at the front of `out`: its length.
///
/// ```
/// let mut out = [0; 6];
/// let c = [0x0B, 0, 0];
/// assert_eq!(hedvaste::contexts::apply_entries_into(&c, &[7], &[0x0F], &mut out), Ok(6));
/// ```
pub fn apply_entries_into(
    c: &[u8],
    path: &[u16],
    v: &[u8],
    out: &mut [u8],
) -> Result<usize, Refusal> {
    entries_into(c, path, v, out, ffi::feel_context_apply_entries)
}

/// `FeelContext::zip`: `c` with all entries of the other context, which replace those of equal
/// names.
///
/// ```
/// let (c, other) = ([0x0B, 1, 0, 5, 0, 0x0F], [0x0B, 1, 0, 6, 0, 0x0F]);
/// let both = [0x0B, 2, 0, 5, 0, 0x0F, 6, 0, 0x0F];
/// assert_eq!(hedvaste::contexts::zip(&c, &other), Ok(both.to_vec()));
/// ```
pub fn zip(c: &[u8], other: &[u8]) -> Result<Vec<u8>, Refusal> {
    written_value(|out| zip_into(c, other, out))
}

/// [zip] at the front of `out`: its length.
///
/// ```
/// let mut out = [0; 3];
/// assert_eq!(hedvaste::contexts::zip_into(&[0x0B, 0, 0], &[0x0B, 0, 0], &mut out), Ok(3));
/// ```
pub fn zip_into(c: &[u8], other: &[u8], out: &mut [u8]) -> Result<usize, Refusal> {
    combined_into(c, other, out, ffi::feel_context_zip)
}

/// `FeelContext::overwrite`: `c` with those entries of the other context whose names it has.
///
/// ```
/// let c = [0x0B, 1, 0, 5, 0, 0x0F];
/// let other = [0x0B, 2, 0, 5, 0, 0x01, 1, 6, 0, 0x0F];
/// assert_eq!(hedvaste::contexts::overwrite(&c, &other), Ok(vec![0x0B, 1, 0, 5, 0, 0x01, 1]));
/// ```
pub fn overwrite(c: &[u8], other: &[u8]) -> Result<Vec<u8>, Refusal> {
    written_value(|out| overwrite_into(c, other, out))
}

/// [overwrite] at the front of `out`: its length.
///
/// ```
/// let mut out = [0; 2];
/// let refused = hedvaste::contexts::overwrite_into(&[0x0B, 0, 0], &[0x0B, 0, 0], &mut out);
/// assert_eq!(refused.unwrap_err().number(), 18);
/// ```
pub fn overwrite_into(c: &[u8], other: &[u8], out: &mut [u8]) -> Result<usize, Refusal> {
    combined_into(c, other, out, ffi::feel_context_overwrite)
}

/// `FeelContext::move_entry`: `c` without the entry of this name, and with its value created at the
/// path of parent and name; an absent name copies `c`.
///
/// ```
/// // {5: true} becomes {9: {5: true}}.
/// let after = hedvaste::contexts::move_entry(&[0x0B, 1, 0, 5, 0, 0x01, 1], 5, 9);
/// assert_eq!(after, Ok(vec![0x0B, 1, 0, 9, 0, 0x0B, 1, 0, 5, 0, 0x01, 1]));
/// ```
pub fn move_entry(c: &[u8], name: u16, parent: u16) -> Result<Vec<u8>, Refusal> {
    written_value(|out| move_entry_into(c, name, parent, out))
}

/// [move_entry] at the front of `out`: its length.
///
/// ```
/// let mut out = [0; 3];
/// assert_eq!(hedvaste::contexts::move_entry_into(&[0x0B, 0, 0], 5, 9, &mut out), Ok(3));
/// ```
pub fn move_entry_into(c: &[u8], name: u16, parent: u16, out: &mut [u8]) -> Result<usize, Refusal> {
    // SAFETY: as above; the output is borrowed alone, here and below.
    length(unsafe {
        ffi::feel_context_move_entry(
            c.as_ptr(),
            c.len(),
            name,
            parent,
            out.as_mut_ptr(),
            out.len(),
        )
    })
}

/// `FeelContext::set_entry`: `c` with the value `v` under this name.
///
/// ```
/// let after = hedvaste::contexts::set_entry(&[0x0B, 0, 0], 5, &[0x01, 1]);
/// assert_eq!(after, Ok(vec![0x0B, 1, 0, 5, 0, 0x01, 1]));
/// ```
pub fn set_entry(c: &[u8], name: u16, v: &[u8]) -> Result<Vec<u8>, Refusal> {
    written_value(|out| set_entry_into(c, name, v, out))
}

/// [set_entry] at the front of `out`: its length.
///
/// ```
/// let mut out = [0; 9];
/// assert_eq!(hedvaste::contexts::set_entry_into(&[0x0B, 0, 0], 5, &[0x0F], &mut out), Ok(6));
/// ```
pub fn set_entry_into(c: &[u8], name: u16, v: &[u8], out: &mut [u8]) -> Result<usize, Refusal> {
    // SAFETY: as above.
    length(unsafe {
        ffi::feel_context_set_entry(
            c.as_ptr(),
            c.len(),
            name,
            v.as_ptr(),
            v.len(),
            out.as_mut_ptr(),
            out.len(),
        )
    })
}

/// `FeelContext::remove_entry`: `c` without the entry of this name; an absent name copies `c`.
///
/// ```
/// let after = hedvaste::contexts::remove_entry(&[0x0B, 1, 0, 5, 0, 0x0F], 5);
/// assert_eq!(after, Ok(vec![0x0B, 0, 0]));
/// ```
pub fn remove_entry(c: &[u8], name: u16) -> Result<Vec<u8>, Refusal> {
    written_value(|out| remove_entry_into(c, name, out))
}

/// [remove_entry] at the front of `out`: its length.
///
/// ```
/// let mut out = [0; 3];
/// assert_eq!(hedvaste::contexts::remove_entry_into(&[0x0B, 0, 0], 5, &mut out), Ok(3));
/// ```
pub fn remove_entry_into(c: &[u8], name: u16, out: &mut [u8]) -> Result<usize, Refusal> {
    named_into(c, name, out, ffi::feel_context_remove_entry)
}

/// `FeelContext::set_null`: `c` with null of trace 0 under this name.
///
/// ```
/// let after = hedvaste::contexts::set_null(&[0x0B, 0, 0], 5);
/// assert_eq!(after, Ok(vec![0x0B, 1, 0, 5, 0, 0x00, 0]));
/// ```
pub fn set_null(c: &[u8], name: u16) -> Result<Vec<u8>, Refusal> {
    written_value(|out| set_null_into(c, name, out))
}

/// [set_null] at the front of `out`: its length.
///
/// ```
/// let mut out = [0; 7];
/// assert_eq!(hedvaste::contexts::set_null_into(&[0x0B, 0, 0], 5, &mut out), Ok(7));
/// ```
pub fn set_null_into(c: &[u8], name: u16, out: &mut [u8]) -> Result<usize, Refusal> {
    named_into(c, name, out, ffi::feel_context_set_null)
}

type Entries = unsafe extern "C" fn(
    *const u8,
    usize,
    *const u16,
    usize,
    *const u8,
    usize,
    *mut u8,
    usize,
) -> u64;

fn entries_into(
    c: &[u8],
    path: &[u16],
    v: &[u8],
    out: &mut [u8],
    function: Entries,
) -> Result<usize, Refusal> {
    // SAFETY: as above.
    length(unsafe {
        function(
            c.as_ptr(),
            c.len(),
            path.as_ptr(),
            path.len(),
            v.as_ptr(),
            v.len(),
            out.as_mut_ptr(),
            out.len(),
        )
    })
}

type Combined = unsafe extern "C" fn(*const u8, usize, *const u8, usize, *mut u8, usize) -> u64;

fn combined_into(
    c: &[u8],
    other: &[u8],
    out: &mut [u8],
    function: Combined,
) -> Result<usize, Refusal> {
    // SAFETY: as above.
    length(unsafe {
        function(
            c.as_ptr(),
            c.len(),
            other.as_ptr(),
            other.len(),
            out.as_mut_ptr(),
            out.len(),
        )
    })
}

type Named = unsafe extern "C" fn(*const u8, usize, u16, *mut u8, usize) -> u64;

fn named_into(c: &[u8], name: u16, out: &mut [u8], function: Named) -> Result<usize, Refusal> {
    // SAFETY: as above.
    length(unsafe { function(c.as_ptr(), c.len(), name, out.as_mut_ptr(), out.len()) })
}
