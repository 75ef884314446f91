//! Memory between pages without access: a byte read or written beside it faults at once. Linux
//! only.

use std::ffi::{c_int, c_void};
use std::ptr;

/// A multiple of every size that pages have.
const PAGE: usize = 65_536;

const PROT_NONE: c_int = 0;
const PROT_READ_AND_WRITE: c_int = 3;
const MAP_PRIVATE_AND_ANONYMOUS: c_int = 0x22;

unsafe extern "C" {
    fn mmap(
        address: *mut c_void,
        length: usize,
        protection: c_int,
        flags: c_int,
        file: c_int,
        offset: i64,
    ) -> *mut c_void;
    fn mprotect(address: *mut c_void, length: usize, protection: c_int) -> c_int;
    fn munmap(address: *mut c_void, length: usize) -> c_int;
}

/// The memory: `length` bytes from `start` on, and a page without access on both sides.
pub struct Mapping {
    start: *mut u8,
    length: usize,
}

impl Mapping {
    /// Memory of at least this length, full of 0.
    pub fn new(least: usize) -> Mapping {
        let length = least.next_multiple_of(PAGE).max(PAGE);
        let (protection, flags) = (PROT_NONE, MAP_PRIVATE_AND_ANONYMOUS);
        let whole = length + 2 * PAGE;
        // SAFETY: new memory is asked for, at an address of the system's choice, and then access to
        // its middle.
        unsafe {
            let address = mmap(ptr::null_mut(), whole, protection, flags, -1, 0);
            assert!(address.addr() != usize::MAX, "no memory is mapped");
            let start = address.cast::<u8>().add(PAGE);
            let failed = mprotect(start.cast(), length, PROT_READ_AND_WRITE);
            assert!(failed == 0, "the memory has no access");
            Mapping { start, length }
        }
    }

    pub fn len(&self) -> usize {
        self.length
    }

    pub fn bytes(&self) -> &[u8] {
        // SAFETY: this memory is mapped, with access, as long as `self` lives.
        unsafe { std::slice::from_raw_parts(self.start, self.length) }
    }

    pub fn bytes_mut(&mut self) -> &mut [u8] {
        // SAFETY: as above, and it is borrowed alone.
        unsafe { std::slice::from_raw_parts_mut(self.start, self.length) }
    }
}

impl Drop for Mapping {
    fn drop(&mut self) {
        // SAFETY: this is the whole memory that was mapped, and nobody has it any more.
        unsafe { munmap(self.start.sub(PAGE).cast(), self.length + 2 * PAGE) };
    }
}

#[cfg(test)]
mod tests {
    use super::*;
    use std::env;
    use std::os::unix::process::ExitStatusExt;
    use std::process::Command;

    const PLACE: &str = "MAPPING_TEST_PLACE";

    #[test]
    fn both_ends_are_there() {
        let mut mapping = Mapping::new(PAGE + 1);
        assert_eq!(mapping.len(), 2 * PAGE);
        mapping.bytes_mut()[0] = 1;
        mapping.bytes_mut()[2 * PAGE - 1] = 2;
        assert_eq!(mapping.bytes()[..2], [1, 0]);
        assert_eq!(mapping.bytes()[2 * PAGE - 2..], [0, 2]);
    }

    /// Runs only in the process that the next test starts.
    #[test]
    fn touches_the_place_it_is_told() {
        let Ok(place) = env::var(PLACE) else {
            return;
        };
        let mut mapping = Mapping::new(1);
        let (how, place) = place.split_once(' ').expect("how and where");
        let pointer = mapping.bytes_mut().as_mut_ptr();
        let pointer = pointer.wrapping_offset(place.parse().expect("a place"));
        // SAFETY: none. At a place beside the memory this process is meant to end.
        unsafe {
            match how {
                "read" => drop(pointer.read_volatile()),
                _ => pointer.write_volatile(0),
            }
        }
    }

    #[test]
    fn a_byte_beside_the_memory_faults() {
        let last = PAGE as isize - 1;
        for how in ["read", "write"] {
            for (place, faults) in [(-1, true), (0, false), (last, false), (last + 1, true)] {
                let status = Command::new(env::current_exe().expect("this program"))
                    .args(["--exact", "mapping::tests::touches_the_place_it_is_told"])
                    .env(PLACE, format!("{how} {place}"))
                    .output()
                    .expect("the program runs")
                    .status;
                let expected = faults.then_some(11);
                assert_eq!(status.signal(), expected, "{how} at {place}");
            }
        }
    }
}
