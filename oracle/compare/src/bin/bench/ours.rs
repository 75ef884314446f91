//! The exported functions over slices, by their shapes.

/// A function of the library, and that of an earlier library where one is linked too.
#[derive(Clone, Copy)]
pub struct Both<F> {
    pub now: F,
    pub before: Option<F>,
}

/// Both functions of this name, by their shape: `both!(feel_check_value as One)`.
macro_rules! both {
    ($name:ident as $shape:ty) => {
        crate::ours::Both::<$shape> {
            now: compare::library::$name,
            before: crate::ours::earlier!($name),
        }
    };
}
pub(crate) use both;

#[cfg(feel_before)]
macro_rules! earlier {
    ($name:ident) => {
        Some(compare::library::before::$name)
    };
}

#[cfg(not(feel_before))]
macro_rules! earlier {
    ($name:ident) => {
        None
    };
}
pub(crate) use earlier;

/// The same as `both!` for a strict function, which an earlier library may not have.
macro_rules! both_strict {
    ($name:ident as $shape:ty) => {
        crate::ours::Both::<$shape> {
            now: compare::library::$name,
            before: crate::ours::earlier_strict!($name),
        }
    };
}
pub(crate) use both_strict;

#[cfg(feel_before_strict)]
macro_rules! earlier_strict {
    ($name:ident) => {
        Some(compare::library::before::$name)
    };
}

#[cfg(not(feel_before_strict))]
macro_rules! earlier_strict {
    ($name:ident) => {
        None
    };
}
pub(crate) use earlier_strict;

/// The same as `both!` for a function over a table, which an earlier library may not have.
macro_rules! both_table {
    ($name:ident as $shape:ty) => {
        crate::ours::Both::<$shape> {
            now: compare::library::$name,
            before: crate::ours::earlier_table!($name),
        }
    };
}
pub(crate) use both_table;

#[cfg(feel_before_table)]
macro_rules! earlier_table {
    ($name:ident) => {
        Some(compare::library::before::$name)
    };
}

#[cfg(not(feel_before_table))]
macro_rules! earlier_table {
    ($name:ident) => {
        None
    };
}
pub(crate) use earlier_table;

/// The room of an output, and of a record.
pub const ROOM: usize = 16_384;

/// What the Rust writes, or its refusal.
pub type Bytes = Result<Vec<u8>, u8>;

/// Over one record.
pub type One = unsafe extern "C" fn(*const u8, usize) -> u64;

pub fn one(function: One, a: &[u8]) -> u64 {
    // SAFETY: the pointer and the length are those of one slice, which lives through the call.
    unsafe { function(a.as_ptr(), a.len()) }
}

/// Over two records.
pub type Two = unsafe extern "C" fn(*const u8, usize, *const u8, usize) -> u64;

pub fn two(function: Two, a: &[u8], b: &[u8]) -> u64 {
    // SAFETY: each pointer and length are those of one slice, which lives through the call.
    unsafe { function(a.as_ptr(), a.len(), b.as_ptr(), b.len()) }
}

/// Over one record, with an output.
pub type OneBuild = unsafe extern "C" fn(*const u8, usize, *mut u8, usize) -> u64;

pub fn one_build(function: OneBuild, a: &[u8], out: &mut [u8]) -> u64 {
    // SAFETY: each pointer and length are those of one slice, which lives through the call.
    unsafe { function(a.as_ptr(), a.len(), out.as_mut_ptr(), out.len()) }
}

/// Over two records, with an output.
pub type TwoBuild = unsafe extern "C" fn(*const u8, usize, *const u8, usize, *mut u8, usize) -> u64;

pub fn two_build(function: TwoBuild, a: &[u8], b: &[u8], out: &mut [u8]) -> u64 {
    let (out, room) = (out.as_mut_ptr(), out.len());
    // SAFETY: each pointer and length are those of one slice, which lives through the call.
    unsafe { function(a.as_ptr(), a.len(), b.as_ptr(), b.len(), out, room) }
}

/// Over one record, with scratch and an output.
pub type OneScratch = unsafe extern "C" fn(*const u8, usize, *mut u8, usize, *mut u8, usize) -> u64;

pub fn one_scratch(function: OneScratch, a: &[u8], buffers: &mut Buffers) -> u64 {
    let Buffers { scratch, out } = buffers;
    let (scratch, wanted) = (scratch.as_mut_ptr(), scratch.len());
    let (out, room) = (out.as_mut_ptr(), out.len());
    // SAFETY: each pointer and length are those of one slice, which lives through the call.
    unsafe { function(a.as_ptr(), a.len(), scratch, wanted, out, room) }
}

/// Over two records, with scratch and an output.
pub type TwoScratch =
    unsafe extern "C" fn(*const u8, usize, *const u8, usize, *mut u8, usize, *mut u8, usize) -> u64;

pub fn two_scratch(function: TwoScratch, a: &[u8], b: &[u8], buffers: &mut Buffers) -> u64 {
    let Buffers { scratch, out } = buffers;
    let (scratch, wanted) = (scratch.as_mut_ptr(), scratch.len());
    let (out, room) = (out.as_mut_ptr(), out.len());
    let (first, second) = (a.as_ptr(), b.as_ptr());
    // SAFETY: each pointer and length are those of one slice, which lives through the call.
    unsafe { function(first, a.len(), second, b.len(), scratch, wanted, out, room) }
}

/// Over three records.
pub type Three = unsafe extern "C" fn(*const u8, usize, *const u8, usize, *const u8, usize) -> u64;

pub fn three(function: Three, a: &[u8], b: &[u8], c: &[u8]) -> u64 {
    let (first, second, third) = (a.as_ptr(), b.as_ptr(), c.as_ptr());
    // SAFETY: each pointer and length are those of one slice, which lives through the call.
    unsafe { function(first, a.len(), second, b.len(), third, c.len()) }
}

/// Over three records, with scratch and an output.
pub type ThreeScratch = unsafe extern "C" fn(
    *const u8,
    usize,
    *const u8,
    usize,
    *const u8,
    usize,
    *mut u8,
    usize,
    *mut u8,
    usize,
) -> u64;

pub fn three_scratch(function: ThreeScratch, all: [&[u8]; 3], buffers: &mut Buffers) -> u64 {
    let Buffers { scratch, out } = buffers;
    let [a, b, c] = all;
    // SAFETY: each pointer and length are those of one slice, which lives through the call.
    unsafe {
        function(
            a.as_ptr(),
            a.len(),
            b.as_ptr(),
            b.len(),
            c.as_ptr(),
            c.len(),
            scratch.as_mut_ptr(),
            scratch.len(),
            out.as_mut_ptr(),
            out.len(),
        )
    }
}

/// Over a context, with a name.
pub type AtName = unsafe extern "C" fn(*const u8, usize, u16) -> u64;

pub fn at_name(function: AtName, c: &[u8], name: u16) -> u64 {
    // SAFETY: the pointer and the length are those of one slice, which lives through the call.
    unsafe { function(c.as_ptr(), c.len(), name) }
}

/// Over a context, with a path.
pub type AtPath = unsafe extern "C" fn(*const u8, usize, *const u16, usize) -> u64;

pub fn at_path(function: AtPath, c: &[u8], path: &[u16]) -> u64 {
    // SAFETY: each pointer and length are those of one slice, which lives through the call.
    unsafe { function(c.as_ptr(), c.len(), path.as_ptr(), path.len()) }
}

/// Over a context, with a name and an output.
pub type NameBuild = unsafe extern "C" fn(*const u8, usize, u16, *mut u8, usize) -> u64;

pub fn name_build(function: NameBuild, c: &[u8], name: u16, out: &mut [u8]) -> u64 {
    // SAFETY: each pointer and length are those of one slice, which lives through the call.
    unsafe { function(c.as_ptr(), c.len(), name, out.as_mut_ptr(), out.len()) }
}

/// Over a context, with two names and an output.
pub type NamesBuild = unsafe extern "C" fn(*const u8, usize, u16, u16, *mut u8, usize) -> u64;

pub fn names_build(function: NamesBuild, c: &[u8], names: [u16; 2], out: &mut [u8]) -> u64 {
    let [name, parent] = names;
    let (out, room) = (out.as_mut_ptr(), out.len());
    // SAFETY: each pointer and length are those of one slice, which lives through the call.
    unsafe { function(c.as_ptr(), c.len(), name, parent, out, room) }
}

/// Over a context, with a name, a value and an output.
pub type NamePut =
    unsafe extern "C" fn(*const u8, usize, u16, *const u8, usize, *mut u8, usize) -> u64;

pub fn name_put(function: NamePut, c: &[u8], name: u16, v: &[u8], out: &mut [u8]) -> u64 {
    let (out, room) = (out.as_mut_ptr(), out.len());
    // SAFETY: each pointer and length are those of one slice, which lives through the call.
    unsafe { function(c.as_ptr(), c.len(), name, v.as_ptr(), v.len(), out, room) }
}

/// Over a context, with a path, a value and an output.
pub type PathPut = unsafe extern "C" fn(
    *const u8,
    usize,
    *const u16,
    usize,
    *const u8,
    usize,
    *mut u8,
    usize,
) -> u64;

pub fn path_put(function: PathPut, c: &[u8], path: &[u16], v: &[u8], out: &mut [u8]) -> u64 {
    let (out, room) = (out.as_mut_ptr(), out.len());
    let (first, way, value) = (c.as_ptr(), path.as_ptr(), v.as_ptr());
    // SAFETY: each pointer and length are those of one slice, which lives through the call.
    unsafe { function(first, c.len(), way, path.len(), value, v.len(), out, room) }
}

/// Over an interval byte.
pub type OfByte = unsafe extern "C" fn(u8) -> u64;

pub fn of_byte(function: OfByte, byte: u8) -> u64 {
    // SAFETY: the function takes no pointer.
    unsafe { function(byte) }
}

/// Over the position of a built-in function, with an output.
pub type ByteBuild = unsafe extern "C" fn(u8, *mut u8, usize) -> u64;

pub fn byte_build(function: ByteBuild, byte: u8, out: &mut [u8]) -> u64 {
    // SAFETY: the pointer and the length are those of one slice, which lives through the call.
    unsafe { function(byte, out.as_mut_ptr(), out.len()) }
}

/// Scratch and an output.
pub struct Buffers {
    pub scratch: Vec<u8>,
    pub out: Vec<u8>,
}

impl Buffers {
    /// With scratch for every call.
    pub fn new() -> Buffers {
        Buffers {
            scratch: vec![0; 4 * ROOM],
            out: vec![0; ROOM],
        }
    }
}
