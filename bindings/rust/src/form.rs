//! What the trees of values and of types have in common where they are written and read.

use crate::{MAX_LENGTH, Refusal};

/// The limits of one kind of record, and its refusals.
#[derive(Clone, Copy)]
pub struct Limits {
    pub max_level: usize,
    /// More than 16,384 bytes.
    pub length: Refusal,
    /// No such form.
    pub form: Refusal,
    /// Level over the limit.
    pub level: Refusal,
}

pub const VALUE: Limits = Limits {
    max_level: 31,
    length: Refusal::of(1),
    form: Refusal::of(2),
    level: Refusal::of(4),
};

pub const TYPE: Limits = Limits {
    max_level: 32,
    length: Refusal::of(6),
    form: Refusal::of(7),
    level: Refusal::of(9),
};

/// Bytes that are being written. It is refused here what could not be written out: too deep a tree,
/// too long a record, too many parameters. All else is judged by the library's reader afterwards.
pub struct Writer {
    out: Vec<u8>,
    limits: Limits,
}

impl Writer {
    pub fn new(limits: Limits) -> Writer {
        Writer {
            out: vec![],
            limits,
        }
    }

    /// The command of a record at this level, and its operands.
    pub fn command(&mut self, level: usize, command: u8, operands: &[u8]) -> Result<(), Refusal> {
        if level > self.limits.max_level {
            return Err(self.limits.level);
        }
        self.put(&[command])?;
        self.put(operands)
    }

    pub fn put(&mut self, bytes: &[u8]) -> Result<(), Refusal> {
        if self.out.len() + bytes.len() > MAX_LENGTH {
            return Err(self.limits.length);
        }
        self.out.extend(bytes);
        Ok(())
    }

    /// The 16 bits of a count. More children than it can count have more bytes than a record.
    pub fn wide_count(&self, count: usize) -> Result<[u8; 2], Refusal> {
        let count = u16::try_from(count).map_err(|_| self.limits.length)?;
        Ok(count.to_le_bytes())
    }

    /// The 8 bits of a count of parameters.
    pub fn narrow_count(&self, count: usize) -> Result<u8, Refusal> {
        u8::try_from(count).map_err(|_| self.limits.form)
    }

    pub fn into_bytes(self) -> Vec<u8> {
        self.out
    }
}

/// The entries in the order of their names.
pub fn sorted<T>(entries: &[(u16, T)]) -> Vec<&(u16, T)> {
    let mut sorted: Vec<_> = entries.iter().collect();
    sorted.sort_by_key(|(name, _)| *name);
    sorted
}

/// Bytes that are being read. The library's reader has accepted them, so the refusal for the form is
/// never given, and the level bounds the depth of the calls.
pub struct Reader<'a> {
    rest: &'a [u8],
    limits: Limits,
}

impl<'a> Reader<'a> {
    pub fn new(rest: &'a [u8], limits: Limits) -> Reader<'a> {
        Reader { rest, limits }
    }

    /// The refusal of bytes that have no such form.
    pub fn form(&self) -> Refusal {
        self.limits.form
    }

    pub fn bytes<const N: usize>(&mut self) -> Result<[u8; N], Refusal> {
        let (bytes, rest) = self.rest.split_first_chunk().ok_or(self.limits.form)?;
        self.rest = rest;
        Ok(*bytes)
    }

    pub fn byte(&mut self) -> Result<u8, Refusal> {
        let [byte] = self.bytes()?;
        Ok(byte)
    }

    /// A count, a name, a text or a body.
    pub fn number(&mut self) -> Result<u16, Refusal> {
        Ok(u16::from_le_bytes(self.bytes()?))
    }

    pub fn key(&mut self) -> Result<i64, Refusal> {
        Ok(i64::from_le_bytes(self.bytes()?))
    }

    /// So many children.
    pub fn children<T>(
        &mut self,
        count: u16,
        child: fn(&mut Reader<'a>) -> Result<T, Refusal>,
    ) -> Result<Vec<T>, Refusal> {
        (0..count).map(|_| child(self)).collect()
    }

    /// So many children, each behind its name.
    pub fn entries<T>(
        &mut self,
        count: u16,
        child: fn(&mut Reader<'a>) -> Result<T, Refusal>,
    ) -> Result<Vec<(u16, T)>, Refusal> {
        (0..count)
            .map(|_| Ok((self.number()?, child(self)?)))
            .collect()
    }
}
