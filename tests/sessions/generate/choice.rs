//! Random choices for the generated sessions.

use crate::random::Random;

impl Random {
    /// A number under the bound.
    pub fn below(&mut self, bound: usize) -> usize {
        self.word() as usize % bound
    }

    /// True in so many of a hundred cases.
    pub fn percent(&mut self, share: usize) -> bool {
        self.below(100) < share
    }

    pub fn pick<T: Copy>(&mut self, from: &[T]) -> T {
        from[self.below(from.len())]
    }

    /// A word that is often at an edge of the ring, or a small count.
    pub fn edge_word(&mut self) -> u32 {
        const HALF: u32 = 1 << 31;
        const EDGES: [u32; 8] = [0, 1, HALF - 1, HALF, HALF + 1, u32::MAX, 65_535, 65_536];
        match self.below(3) {
            0 => self.pick(&EDGES),
            1 => self.below(200) as u32,
            _ => self.word(),
        }
    }
}
