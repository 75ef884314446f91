//! The rules of a reading: whether functions are read strictly, and how simple types stand to each
//! other. Each simple type has a number of ten bits, one for each type to which it conforms, and another
//! for those that conform to it.

#[derive(Clone, Copy)]
pub struct Rules {
    pub strict: bool,
    above: [u16; 10],
    below: [u16; 10],
}

const PLAIN: Rules = plain();

/// Document 01's rules.
pub const PORTED: Rules = PLAIN;

/// DMN's rules.
pub const STRICT: Rules = Rules {
    strict: true,
    ..PLAIN
};

const fn plain() -> Rules {
    let mut rules = Rules {
        strict: false,
        above: [0; 10],
        below: [0; 10],
    };
    let mut t = 0;
    while t < 10 {
        rules.above[t] = 1 << t | 1;
        rules.below[t] = 1 << t | 1 << 9;
        t += 1;
    }
    rules.above[9] = 0x3FF;
    rules.below[0] = 0x3FF;
    rules
}

impl Rules {
    /// Document 01's rules over a table, or the table's refusal.
    pub fn over(table: &[u8]) -> Result<Rules, u64> {
        let Ok(bytes) = <&[u8; 100]>::try_from(table) else {
            return Err(26);
        };
        let mut rules = Rules {
            strict: false,
            above: [0; 10],
            below: [0; 10],
        };
        for (place, byte) in bytes.iter().enumerate() {
            match byte {
                0 => {}
                1 => {
                    rules.above[place / 10] |= 1 << (place % 10);
                    rules.below[place % 10] |= 1 << (place / 10);
                }
                _ => return Err(26),
            }
        }
        rules.order()?;
        rules.bounds()?;
        Ok(rules)
    }

    /// All above what is above a type is above it too; nothing else is both above and below it.
    fn order(&self) -> Result<(), u64> {
        for t in 0..10 {
            let own = 1 << t;
            let ends = self.above[t] & 1 == 1 && self.below[t] >> 9 == 1;
            if !ends || self.above[t] & self.below[t] != own {
                return Err(27);
            }
            let mut reached = 0;
            for other in 0..10 {
                if self.above[t] >> other & 1 == 1 {
                    reached |= self.above[other];
                }
            }
            if reached != self.above[t] {
                return Err(27);
            }
        }
        Ok(())
    }

    /// What is above both of two types is what is above one type.
    fn bounds(&self) -> Result<(), u64> {
        for a in self.above {
            for b in self.above {
                if !self.above.contains(&(a & b)) {
                    return Err(28);
                }
            }
        }
        Ok(())
    }

    /// Whether a simple type conforms to another, both as commands.
    pub fn has(&self, a: u8, b: u8) -> bool {
        self.above[usize::from(a - 0x20)] >> (b - 0x20) & 1 == 1
    }

    /// The least simple type above both.
    pub fn above(&self, a: u8, b: u8) -> u8 {
        bound(&self.above, a, b)
    }

    /// The greatest simple type below both.
    pub fn below(&self, a: u8, b: u8) -> u8 {
        bound(&self.below, a, b)
    }
}

/// The type whose number is the common part of both.
fn bound(numbers: &[u16; 10], a: u8, b: u8) -> u8 {
    let both = numbers[usize::from(a - 0x20)] & numbers[usize::from(b - 0x20)];
    let place = numbers.iter().position(|number| *number == both);
    0x20 + place.expect("the table is loaded") as u8
}
