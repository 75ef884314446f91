//! The way through accepted bytes, where nothing is checked again.

/// A 16-bit count or name.
pub fn word(s: &[u8], at: usize) -> u16 {
    u16::from_le_bytes([s[at], s[at + 1]])
}

/// Where the type ends that starts here.
#[inline(always)]
pub fn skip_type(s: &[u8], at: usize) -> usize {
    match s[at] {
        0x20..=0x29 => at + 1,
        command => skip_types(command, s, at + 1),
    }
}

/// The same behind the command of a type that is not simple.
fn skip_types(command: u8, s: &[u8], at: usize) -> usize {
    match command {
        0x2C => {
            let mut end = at + 2;
            for _ in 0..word(s, at) {
                end = skip_type(s, end + 2);
            }
            end
        }
        0x2D => {
            let mut end = at + 1;
            for _ in 0..=s[at] {
                end = skip_type(s, end);
            }
            end
        }
        _ => skip_type(s, at),
    }
}

/// Where the value ends that starts here.
#[inline(always)]
pub fn skip_value(s: &[u8], at: usize) -> usize {
    match s[at] {
        0x00 | 0x01 => at + 2,
        0x03 => at + 3,
        0x02 | 0x04..=0x08 => at + 9,
        command => skip_values(command, s, at + 1),
    }
}

/// The same behind the command of a value that is none of the leaves above.
fn skip_values(command: u8, s: &[u8], at: usize) -> usize {
    match command {
        0x09 => skip_value(s, skip_value(s, at + 2)),
        0x0A => {
            let mut end = at + 2;
            for _ in 0..word(s, at) {
                end = skip_value(s, end);
            }
            end
        }
        0x0B => {
            let mut end = at + 2;
            for _ in 0..word(s, at) {
                end = skip_value(s, end + 2);
            }
            end
        }
        0x0C => {
            let mut end = skip_type(s, at + 3);
            for _ in 0..s[at] {
                end = skip_type(s, end + 2);
            }
            end
        }
        0x0D => at + 1,
        0x0E => skip_type(s, at),
        0x10 => at + 9,
        _ => at,
    }
}

/// The entries of a context or its type that still lie ahead; `skip` skips what an entry has.
pub struct Entries<'a, Skip> {
    s: &'a [u8],
    /// Where the next entry starts.
    pub at: usize,
    left: u16,
    skip: Skip,
}

impl<'a, Skip: Fn(&[u8], usize) -> usize> Entries<'a, Skip> {
    /// Those that follow the count at `at`.
    pub fn new(s: &'a [u8], at: usize, skip: Skip) -> Self {
        Entries {
            s,
            at: at + 2,
            left: word(s, at),
            skip,
        }
    }

    /// Where the child of the entry with this name starts; the names ascend. Where it ends is then to
    /// be put into `at`.
    pub fn find(&mut self, name: u16) -> Option<usize> {
        while self.left > 0 {
            self.left -= 1;
            let other = word(self.s, self.at);
            if other >= name {
                return (other == name).then_some(self.at + 2);
            }
            self.at = (self.skip)(self.s, self.at + 2);
        }
        None
    }

    /// Where the last entry ends.
    pub fn end(mut self) -> usize {
        for _ in 0..self.left {
            self.at = (self.skip)(self.s, self.at + 2);
        }
        self.at
    }
}
