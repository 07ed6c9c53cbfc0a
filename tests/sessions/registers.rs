//! The plain register machine: the words that the shares of each handle have to combine to.
//! Specification: Registers; Opened words.

use crate::reference::machine::{
    Lent, ADD, ADD_CONSTANT, BELOW, BIT, BITS, BIT_WORD, EQUAL, MULTIPLY, OPEN, RESHARE, RING,
    STORE, SUBTRACT, TIMES_CONSTANT,
};
use crate::reference::protocols::{bit_word, ring_word};

/// Registers (word, kind) and opened words after accepted commands from the empty place record.
#[derive(Default)]
pub struct Registers {
    pub values: Vec<(u32, u32)>,
    pub opened: Vec<(u32, u32)>,
    inputs_used: usize,
}

impl Registers {
    /// The machine after these accepted commands; it reads no tape.
    pub fn after(commands: &[u32], inputs: &[u32]) -> Registers {
        let mut registers = Registers::default();
        for command in commands.chunks_exact(3) {
            registers.accept([command[0], command[1], command[2]], inputs);
        }
        registers
    }

    fn accept(&mut self, [code, a, b]: [u32; 3], inputs: &[u32]) {
        let at = |handle: u32| self.values[handle as usize - 1].0;
        let word = match code {
            STORE => inputs[self.inputs_used],
            ADD => at(a).wrapping_add(at(b)),
            SUBTRACT => at(a).wrapping_sub(at(b)),
            ADD_CONSTANT => at(a).wrapping_add(b),
            TIMES_CONSTANT => at(a).wrapping_mul(b),
            MULTIPLY => at(a).wrapping_mul(at(b)),
            RESHARE | BITS | OPEN => at(a),
            BIT => (at(a) >> b) & 1,
            EQUAL => u32::from(at(a) == at(b)),
            BELOW => at(a).wrapping_sub(at(b)) >> 31,
            _ => unreachable!("only accepted commands come here"),
        };
        self.inputs_used += usize::from(code == STORE);
        match code {
            OPEN => self.opened.push((a, word)),
            BITS => self.values.push((word, BIT_WORD)),
            _ => self.values.push((word, RING)),
        }
    }

    /// The first entry whose shares or kind differ from the register, if there is one.
    pub fn first_unlike(&self, lent: &Lent) -> Option<usize> {
        (0..self.values.len()).find(|&entry| {
            let shares = [0, 1, 2].map(|i| lent.shares[i][entry]);
            let word = match lent.kinds[entry] {
                BIT_WORD => bit_word(shares),
                _ => ring_word(shares),
            };
            (word, lent.kinds[entry]) != self.values[entry]
        })
    }
}
