//! The named session files of the test program, and the lengths of the lists that it lends to each.

mod clinics;
mod contents;
mod fields;
mod sizes;
mod tapes;
mod values;

use crate::random::Random;
use crate::reference::machine::{row_of, MULTIPLY, OPEN, STORE};
use crate::reference::{Lengths, POOL_LENGTHS};
use crate::sheet::Sheet;

/// A named file, and the number that answers it on the lists of `pool`.
pub struct Case {
    pub name: String,
    pub number: u32,
    pub bytes: Vec<u8>,
}

/// A growing list of cases.
#[derive(Default)]
pub struct Cases {
    pub list: Vec<Case>,
}

impl Cases {
    /// Adds a file of these bytes.
    fn file(&mut self, name: &str, number: u32, bytes: Vec<u8>) {
        let name = name.to_string();
        self.list.push(Case {
            name,
            number,
            bytes,
        });
    }

    /// Adds a session whose tapes are exactly as long as its commands draw.
    fn run(&mut self, name: &str, number: u32, commands: &[[u32; 3]], inputs: &[u32]) {
        let bytes = exact_sheet(name, commands, inputs).bytes();
        self.file(name, number, bytes);
    }
}

/// All cases, in the order in which the test program runs them.
pub fn all() -> Vec<Case> {
    let mut cases = Cases::default();
    // Worked cases 1 to 4: 7 and 5 are stored and multiplied, and the product 35 is opened.
    cases.file("worked", 0, worked().bytes());
    // Contents only: no command, no input, no tape.
    cases.file("empty", 0, Sheet::default().bytes());
    contents::add(&mut cases);
    sizes::add(&mut cases);
    fields::add(&mut cases);
    tapes::add(&mut cases);
    values::add(&mut cases);
    clinics::add(&mut cases);
    cases.list
}

/// Lists of four lengths: those of `pool`; 'small' ones; a lent word too few; a kind list too short.
pub fn lendings() -> [Lengths; 4] {
    let small = Lengths {
        shares: [1; 3],
        kinds: 1,
        received: [3_584, 3_584, 3_584, 2],
        ..POOL_LENGTHS
    };
    let word_too_few = Lengths {
        words: 7_691,
        ..POOL_LENGTHS
    };
    let kinds_too_short = Lengths {
        kinds: 127,
        ..POOL_LENGTHS
    };
    [POOL_LENGTHS, small, word_too_few, kinds_too_short]
}

/// The session of worked cases 1 to 4. Specification: Worked sessions.
pub fn worked() -> Sheet {
    Sheet {
        commands: vec![[STORE, 0, 0], [STORE, 0, 0], [MULTIPLY, 1, 2], [OPEN, 3, 0]],
        inputs: vec![7, 5],
        tapes: [
            vec![1, 2, 3, 4],
            vec![10, 20, 70],
            vec![30, 40, 80],
            vec![50, 60, 90],
        ],
    }
}

/// A sheet with random tapes, the same for each name, that are used up when all commands are done.
pub fn exact_sheet(name: &str, commands: &[[u32; 3]], inputs: &[u32]) -> Sheet {
    let mut random = seeded(name);
    let drawn = |tape: usize| {
        let rows = commands.iter().filter_map(|command| row_of(command[0]));
        rows.map(|row| row.drawn[tape]).sum()
    };
    Sheet {
        commands: commands.to_vec(),
        inputs: inputs.to_vec(),
        tapes: [0, 1, 2, 3].map(|tape| random.words(drawn(tape))),
    }
}

/// A generator seeded with a name (FNV-1a), so that a named file never changes.
fn seeded(name: &str) -> Random {
    let seed = name.bytes().fold(0xcbf2_9ce4_8422_2325, |hash: u64, byte| {
        (hash ^ u64::from(byte)).wrapping_mul(0x0100_0000_01b3)
    });
    Random::from_seed(seed)
}

/// The commands' names, codes 1 to 12.
const COMMAND_NAMES: [&str; 12] = [
    "store",
    "add",
    "subtract",
    "add_constant",
    "times_constant",
    "multiply",
    "reshare",
    "bits",
    "bit",
    "equal",
    "open",
    "below",
];
