//! A small generator of random numbers, splitmix64: the same seed gives the same numbers.

pub struct Random {
    state: u64,
    /// Whether random values may have decimal numbers.
    decimals: bool,
}

impl Random {
    pub fn new(seed: u64) -> Self {
        Random {
            state: seed,
            decimals: true,
        }
    }

    /// The same numbers, for random values whose numbers are all whole.
    pub fn without_decimals(self) -> Self {
        Random {
            decimals: false,
            ..self
        }
    }

    /// Whether random values may have decimal numbers.
    pub fn has_decimals(&self) -> bool {
        self.decimals
    }

    /// The next 64 random bits.
    pub fn bits(&mut self) -> u64 {
        self.state = self.state.wrapping_add(0x9E37_79B9_7F4A_7C15);
        let mut bits = self.state;
        bits = (bits ^ (bits >> 30)).wrapping_mul(0xBF58_476D_1CE4_E5B9);
        bits = (bits ^ (bits >> 27)).wrapping_mul(0x94D0_49BB_1331_11EB);
        bits ^ (bits >> 31)
    }

    /// A number below `bound`, which is not 0.
    pub fn below(&mut self, bound: usize) -> usize {
        (self.bits() % bound as u64) as usize
    }

    /// A random byte.
    pub fn byte(&mut self) -> u8 {
        self.bits() as u8
    }

    /// One of `choices`, which is not empty.
    pub fn pick<T: Copy>(&mut self, choices: &[T]) -> T {
        choices[self.below(choices.len())]
    }
}
