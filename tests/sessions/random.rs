//! A small seeded generator of words (xorshift64*), so that every run can be repeated.

pub struct Random {
    state: u64,
}

impl Random {
    /// Takes any seed: mixing keeps neighbouring seeds apart and the state nonzero.
    pub fn from_seed(seed: u64) -> Random {
        let mixed = (seed ^ 0x9e37_79b9_7f4a_7c15).wrapping_mul(0xbf58_476d_1ce4_e5b9);
        let mixed = (mixed ^ (mixed >> 31)).wrapping_mul(0x94d0_49bb_1331_11eb);
        Random {
            state: (mixed ^ (mixed >> 29)) | 1,
        }
    }

    pub fn word(&mut self) -> u32 {
        self.state ^= self.state >> 12;
        self.state ^= self.state << 25;
        self.state ^= self.state >> 27;
        (self.state.wrapping_mul(0x2545_f491_4f6c_dd1d) >> 32) as u32
    }

    pub fn words(&mut self, count: usize) -> Vec<u32> {
        (0..count).map(|_| self.word()).collect()
    }
}
