//! A table of simple types as bits: one number of ten bits for each type, a bit for each type to which
//! it conforms.

pub struct Loaded([u16; 10]);

impl Loaded {
    /// Loads a table, or refuses it.
    pub fn read(table: &[u8]) -> Result<Loaded, u8> {
        let table: &[u8; 100] = table.try_into().map_err(|_| 26)?;
        let mut rows = [0u16; 10];
        let mut wrong = 0;
        for (row, bytes) in rows.iter_mut().zip(table.chunks_exact(10)) {
            for (column, byte) in bytes.iter().enumerate() {
                wrong |= byte & 0xFE;
                *row |= u16::from(*byte & 1) << column;
            }
        }
        if wrong != 0 {
            return Err(26);
        }
        if rows[9] != 0x3FF {
            return Err(27);
        }
        for (t, row) in rows.iter().enumerate() {
            if row & 1 == 0 || row >> t & 1 == 0 {
                return Err(27);
            }
            for (other, above) in rows.iter().enumerate() {
                // What is above a type above is above; and it is not below.
                let is_above = other != t && row >> other & 1 == 1;
                if is_above && (above & !row != 0 || above >> t & 1 == 1) {
                    return Err(27);
                }
            }
        }
        for a in 1..9 {
            for b in a + 1..9 {
                let both = rows[a] & rows[b];
                if !rows.contains(&both) {
                    return Err(28);
                }
            }
        }
        Ok(Loaded(rows))
    }

    /// Whether a simple type conforms to another, both as commands.
    #[inline(always)]
    pub fn has(&self, a: u8, b: u8) -> bool {
        self.0[usize::from(a - 0x20)] >> (b - 0x20) & 1 == 1
    }
}
