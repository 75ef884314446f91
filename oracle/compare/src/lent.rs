//! The buffers lent to a C function. Each pointer is valid for length 0 too, and a byte written
//! beside a buffer is seen: between guard bytes after the call, at pages without access at once.

use crate::call::Case;
use crate::mapping::Mapping;

const GUARD: usize = 16;

/// The bytes of a buffer before the call begin again after so many places.
const PERIOD: usize = 256;

/// The bytes that stand in a buffer before the call, several times over.
static FILLER: [u8; 16 * PERIOD] = filler();

const fn filler() -> [u8; 16 * PERIOD] {
    let mut bytes = [0; 16 * PERIOD];
    let mut place = 0;
    while place < bytes.len() {
        bytes[place] = (place as u8).wrapping_mul(31).wrapping_add(7);
        place += 1;
    }
    bytes
}

/// Makes `bytes` the filler from its first place on.
fn fill(bytes: &mut [u8]) {
    for chunk in bytes.chunks_mut(FILLER.len()) {
        chunk.copy_from_slice(&FILLER[..chunk.len()]);
    }
}

/// Whether `bytes` are the filler from this place on.
fn holds_filler(bytes: &[u8], from: usize) -> bool {
    let expected = &FILLER[from % PERIOD..];
    bytes
        .chunks(FILLER.len() - PERIOD)
        .all(|chunk| chunk == &expected[..chunk.len()])
}

/// Where buffers stand.
#[derive(Debug, Clone, Copy, PartialEq, Eq, Default)]
pub enum Standing {
    /// Between guard bytes.
    #[default]
    Guarded,
    /// The end at a page without access, or the start right behind one, in turn. There are guard
    /// bytes on the other side.
    AtPages,
    /// In a block of the heap of exactly their length.
    Heap,
}

/// The memory of a buffer.
enum Memory {
    Block(Box<[u8]>),
    Pages(Mapping),
}

/// One buffer with its guards.
pub struct Buffer {
    standing: Standing,
    memory: Memory,
    /// Where the guard before the buffer starts in the memory.
    place: usize,
    /// How many guard bytes stand before it and behind it.
    guards: [usize; 2],
    len: usize,
}

impl Buffer {
    fn new(standing: Standing) -> Buffer {
        let memory = match standing {
            Standing::AtPages => Memory::Pages(Mapping::new(0)),
            Standing::Guarded | Standing::Heap => Memory::Block(Box::default()),
        };
        Buffer {
            standing,
            memory,
            place: 0,
            guards: [0, 0],
            len: 0,
        }
    }

    /// Makes room for so many bytes; `at_end` says which side is at a page without access.
    fn make_room(&mut self, len: usize, at_end: bool) {
        self.len = len;
        self.guards = match self.standing {
            Standing::Guarded => [GUARD, GUARD],
            Standing::AtPages if at_end => [GUARD, 0],
            Standing::AtPages => [0, GUARD],
            Standing::Heap => [0, 0],
        };
        let whole = self.whole_length();
        self.place = 0;
        match &mut self.memory {
            Memory::Block(block) if block.len() != whole || self.standing == Standing::Heap => {
                *block = vec![0; whole].into_boxed_slice();
            }
            Memory::Block(_) => {}
            Memory::Pages(mapping) => {
                if mapping.len() < whole {
                    *mapping = Mapping::new(whole);
                }
                if at_end {
                    self.place = mapping.len() - whole;
                }
            }
        }
        let (len, [front, _]) = (self.len, self.guards);
        let whole = self.whole_mut();
        fill(&mut whole[..front]);
        fill(&mut whole[front + len..]);
    }

    fn fill_with(&mut self, contents: &[u8], at_end: bool) {
        self.make_room(contents.len(), at_end);
        self.contents_mut().copy_from_slice(contents);
    }

    fn fill_with_filler(&mut self, len: usize, at_end: bool) {
        self.make_room(len, at_end);
        fill(self.contents_mut());
    }

    fn whole_length(&self) -> usize {
        self.len + self.guards[0] + self.guards[1]
    }

    /// The contents with the guards.
    fn whole(&self) -> &[u8] {
        match &self.memory {
            Memory::Block(block) => block,
            Memory::Pages(mapping) => &mapping.bytes()[self.place..][..self.whole_length()],
        }
    }

    fn whole_mut(&mut self) -> &mut [u8] {
        let length = self.whole_length();
        match &mut self.memory {
            Memory::Block(block) => block,
            Memory::Pages(mapping) => &mut mapping.bytes_mut()[self.place..][..length],
        }
    }

    fn contents_mut(&mut self) -> &mut [u8] {
        let (len, [front, _]) = (self.len, self.guards);
        &mut self.whole_mut()[front..][..len]
    }

    pub fn len(&self) -> usize {
        self.len
    }

    pub fn is_empty(&self) -> bool {
        self.len == 0
    }

    pub fn as_ptr(&self) -> *const u8 {
        self.contents().as_ptr()
    }

    pub fn as_mut_ptr(&mut self) -> *mut u8 {
        let front = self.guards[0];
        self.whole_mut()[front..].as_mut_ptr()
    }

    /// The contents without the guards.
    pub fn contents(&self) -> &[u8] {
        &self.whole()[self.guards[0]..][..self.len]
    }

    /// Lends the contents as 16-bit words to the function. At a page without access they stand as
    /// they are, otherwise in a block of words between the same guards; what stands there
    /// afterwards, also beside them, is what stands in this buffer.
    pub fn lend_words<T>(&mut self, function: impl FnOnce(*const u16, usize) -> T) -> T {
        let len = self.len / 2;
        assert!(self.len.is_multiple_of(2), "a word has two bytes");
        if self.standing == Standing::AtPages {
            const { assert!(cfg!(target_endian = "little"), "words stand as their bytes") };
            return function(self.as_mut_ptr().cast_const().cast(), len);
        }
        let two = |bytes: &[u8]| u16::from_le_bytes([bytes[0], bytes[1]]);
        let mut words: Box<[u16]> = self.whole().chunks_exact(2).map(two).collect();
        let answer = function(words[self.guards[0] / 2..].as_mut_ptr(), len);
        let bytes = words.iter().flat_map(|word| word.to_le_bytes());
        for (place, byte) in self.whole_mut().iter_mut().zip(bytes) {
            *place = byte;
        }
        answer
    }

    fn guards_stand(&self) -> bool {
        let (front, rest) = self.whole().split_at(self.guards[0]);
        let back = &rest[self.len..];
        [front, back].iter().all(|guard| holds_filler(guard, 0))
    }
}

/// All buffers of one case.
pub struct Lent {
    pub args: Vec<Buffer>,
    pub scratch: Buffer,
    pub output: Buffer,
    standing: Standing,
    /// On which side the next case is at a page without access.
    at_end: bool,
}

impl Lent {
    pub fn new(standing: Standing) -> Lent {
        Lent {
            args: vec![],
            scratch: Buffer::new(standing),
            output: Buffer::new(standing),
            standing,
            at_end: true,
        }
    }

    /// Fills the buffers for a case.
    pub fn fill(&mut self, case: Case) {
        let at_end = self.at_end;
        self.at_end = !at_end;
        self.args
            .resize_with(case.args.len(), || Buffer::new(self.standing));
        for (buffer, arg) in self.args.iter_mut().zip(case.args) {
            buffer.fill_with(arg, at_end);
        }
        self.scratch.fill_with_filler(case.scratch, at_end);
        self.output.fill_with_filler(case.output, at_end);
    }

    /// What the call did to its buffers against the rules, if anything: a changed argument, a byte
    /// beside a buffer, an output other than `written` at the front and untouched after it.
    pub fn fault(&self, case: Case, written: &[u8]) -> Option<&'static str> {
        let mut args = self.args.iter().zip(case.args);
        if args.any(|(buffer, arg)| buffer.contents() != *arg) {
            return Some("an argument was changed");
        }
        let lent = self.args.iter().chain([&self.scratch, &self.output]);
        if !lent.into_iter().all(Buffer::guards_stand) {
            return Some("a byte beside a buffer was changed");
        }
        match self.output.contents().split_at_checked(written.len()) {
            Some((front, rest)) if front == written && holds_filler(rest, written.len()) => None,
            _ => Some("the output differs"),
        }
    }
}

#[cfg(test)]
mod tests {
    use super::*;

    const CASE: Case = Case {
        args: &[&[0x0F], &[1, 0, 2, 1]],
        others: None,
        scratch: 3,
        output: 5_000,
    };

    fn lent(standing: Standing, at_end: bool) -> Lent {
        let mut lent = Lent::new(standing);
        lent.at_end = at_end;
        lent.fill(CASE);
        lent
    }

    /// What is seen where a word at this place, counted from the start of a path, is written.
    fn fault_of_write(mut lent: Lent, place: Option<isize>) -> Option<&'static str> {
        lent.args[1].lend_words(|path, path_len| {
            assert_eq!(path_len, 2);
            assert_eq!(unsafe { [path.read(), path.add(1).read()] }, [1, 0x0102]);
            if let Some(place) = place {
                unsafe { path.offset(place).cast_mut().write(0) };
            }
        });
        lent.fault(CASE, &[])
    }

    #[test]
    fn a_path_is_lent_as_words() {
        for standing in [Standing::Guarded, Standing::AtPages, Standing::Heap] {
            for at_end in [false, true] {
                let fault = |place| fault_of_write(lent(standing, at_end), place);
                assert_eq!(fault(None), None);
                assert_eq!(fault(Some(1)), Some("an argument was changed"));
            }
        }
    }

    #[test]
    fn a_word_beside_a_path_is_seen() {
        let beside = Some("a byte beside a buffer was changed");
        let guarded = |place| fault_of_write(lent(Standing::Guarded, true), Some(place));
        assert_eq!((guarded(-1), guarded(2)), (beside, beside));
        // The other side is at a page without access.
        let at_end = fault_of_write(lent(Standing::AtPages, true), Some(-1));
        let at_start = fault_of_write(lent(Standing::AtPages, false), Some(2));
        assert_eq!((at_end, at_start), (beside, beside));
    }

    #[test]
    fn buffers_reach_to_the_pages_in_turn() {
        let mut lent = Lent::new(Standing::AtPages);
        for (case, output) in [5_000, 0, 70_000, 70_000].into_iter().enumerate() {
            lent.fill(Case { output, ..CASE });
            for buffer in lent.args.iter().chain([&lent.scratch, &lent.output]) {
                let Memory::Pages(mapping) = &buffer.memory else {
                    panic!("no mapping");
                };
                let [mapping, own] = [mapping.bytes(), buffer.contents()].map(<[u8]>::as_ptr_range);
                if case % 2 == 0 {
                    assert_eq!(own.end, mapping.end);
                } else {
                    assert_eq!(own.start, mapping.start);
                }
            }
            assert_eq!(lent.fault(Case { output, ..CASE }, &[]), None);
        }
    }

    #[test]
    fn a_byte_of_a_long_output_is_seen() {
        for standing in [Standing::Guarded, Standing::AtPages, Standing::Heap] {
            for place in [0, 3_839, 3_840, 4_095, 4_096, 4_999] {
                let mut lent = lent(standing, true);
                let first = lent.output.contents()[..9].to_vec();
                assert_eq!(lent.fault(CASE, &first), None);
                lent.output.contents_mut()[place] ^= 1;
                assert_eq!(lent.fault(CASE, &[]), Some("the output differs"));
            }
        }
    }
}
