//! Seeded sessions: long runs that succeed, single wrong commands in them, and damaged files.

mod choice;
mod damage;
pub mod lending;

use crate::random::Random;
use crate::reference::machine::{
    row_of, Field, BIT, BITS, BIT_WORD, OPEN, RESHARE, RING, ROWS, STORE,
};
use crate::reference::LIMITS;
use crate::sheet::Sheet;

/// How often codes 1 to 12 are tried, in proportion: opens, bit and stores more often.
const OFTEN: [usize; 12] = [3, 2, 2, 1, 1, 2, 1, 2, 3, 2, 4, 2];

/// Codes that leave a field unused.
const UNUSED_CODES: [u32; 4] = [STORE, RESHARE, BITS, OPEN];

/// The bytes of one session, mostly legal.
pub fn session_file(random: &mut Random) -> Vec<u8> {
    let sheet = sheet(random);
    match random.below(100) {
        0..=77 => sheet.bytes(),
        78..=80 => damage::any_bytes(random),
        _ => damage::damaged(random, &sheet),
    }
}

/// A sheet whose commands are accepted, but for a wrong one or a short body now and then.
fn sheet(random: &mut Random) -> Sheet {
    let count = match random.below(20) {
        0..=1 => random.below(5),
        2..=8 => 5 + random.below(8),
        9..=16 => 8 + random.below(40),
        17..=18 => 40 + random.below(88),
        _ => 128,
    };
    // 128 commands without an open fill the program's tables.
    let opens = count < 128 || random.percent(50);
    let mut draft = Draft::default();
    while draft.commands.len() < count {
        let command = draft.accepted(random);
        if opens || command[0] != OPEN {
            draft.push(command);
        }
    }
    let mut sheet = draft.sheet(random);
    if random.percent(30) && sheet.commands.len() < 120 {
        put_wrong_command(random, &mut sheet.commands);
    }
    if random.percent(3) {
        fill(random, &mut sheet);
    }
    sheet
}

/// A code from 1 to 12.
fn code(random: &mut Random) -> u32 {
    let mut codes = (1..=12).flat_map(|code| [code].repeat(OFTEN[code as usize - 1]));
    let drawn = random.below(OFTEN.iter().sum());
    codes.nth(drawn).expect("a number under the sum")
}

/// Puts a wrong command among the accepted ones.
fn put_wrong_command(random: &mut Random, commands: &mut Vec<[u32; 3]>) {
    let at = random.below(commands.len() + 1);
    let mut before = Draft::default();
    commands[..at]
        .iter()
        .for_each(|&command| before.push(command));
    let mut wrong = before.accepted(random);
    for _ in 0..1 + random.below(2) {
        before.spoil(random, &mut wrong);
    }
    commands.insert(at, wrong);
}

/// Fills every body but the commands to its limit.
fn fill(random: &mut Random, sheet: &mut Sheet) {
    let more = LIMITS[1].saturating_sub(sheet.inputs.len());
    sheet.inputs.extend(random.words(more));
    for (tape, limit) in sheet.tapes.iter_mut().zip(&LIMITS[2..]) {
        let more = limit.saturating_sub(tape.len());
        tape.extend(random.words(more));
    }
}

/// Accepted commands so far, and the kinds of the handles that they fill.
#[derive(Default)]
pub struct Draft {
    pub commands: Vec<[u32; 3]>,
    pub kinds: Vec<u32>,
}

impl Draft {
    fn push(&mut self, command: [u32; 3]) {
        self.commands.push(command);
        let new_kind = ROWS[command[0] as usize - 1].new_kind;
        if new_kind != 0 {
            self.kinds.push(new_kind);
        }
    }

    /// A command that the machine accepts after these, if inputs and tapes last.
    pub fn accepted(&self, random: &mut Random) -> [u32; 3] {
        let code = code(random);
        self.accepted_of(random, code)
    }

    /// A command of this code, or the one that must come before it.
    fn accepted_of(&self, random: &mut Random, code: u32) -> [u32; 3] {
        let code = match code {
            _ if self.kinds.is_empty() => STORE,
            BIT if !self.kinds.contains(&BIT_WORD) => BITS,
            _ => code,
        };
        let row = &ROWS[code as usize - 1];
        let [a, b] = row.fields.map(|field| match field {
            Field::Unused => 0,
            Field::Handle(kind) => self.handle(random, kind),
            Field::Constant => random.edge_word(),
            Field::Position if random.percent(30) => random.pick(&[0, 31]),
            Field::Position => random.below(32) as u32,
        });
        [code, a, b]
    }

    /// A filled handle of this kind, often a late one; 0 if there is none.
    fn handle(&self, random: &mut Random, kind: u32) -> u32 {
        let of_kind = |&handle: &u32| self.kinds[handle as usize - 1] == kind;
        let handles: Vec<u32> = (1..=self.kinds.len() as u32).filter(of_kind).collect();
        let recent = handles.len().saturating_sub(3);
        match handles.len() {
            0 => 0,
            _ if random.percent(40) => random.pick(&handles[recent..]),
            _ => random.pick(&handles),
        }
    }

    /// Bodies as long as the commands need or a little longer; sometimes one a little too short.
    fn sheet(&self, random: &mut Random) -> Sheet {
        let needs = |tape: usize| -> usize {
            let rows = self
                .commands
                .iter()
                .filter_map(|command| row_of(command[0]));
            rows.map(|row| row.drawn[tape]).sum()
        };
        let stores = needs(0) / 2;
        let mut lengths = [stores, needs(0), needs(1), needs(2), needs(3)];
        match random.below(20) {
            0..=4 => lengths = lengths.map(|length| length + random.below(6)),
            5..=7 => {
                let short = random.below(5);
                lengths[short] = lengths[short].saturating_sub(1 + random.below(3));
            }
            8 => lengths[0] = lengths[0].saturating_sub(1),
            _ => (),
        }
        let [inputs, tapes @ ..] = lengths;
        let within = |body: usize, length: usize| length.min(LIMITS[body]);
        Sheet {
            commands: self.commands.clone(),
            inputs: (0..within(1, inputs)).map(|_| random.edge_word()).collect(),
            tapes: [0, 1, 2, 3].map(|tape| tape_words(random, within(tape + 2, tapes[tape]))),
        }
    }

    /// Makes one of numbers 5 to 9 apply, if the handles allow it.
    pub fn spoil(&self, random: &mut Random, command: &mut [u32; 3]) {
        let of = |random: &mut Random, code| self.accepted_of(random, code);
        match random.below(8) {
            0 => command[0] = random.pick(&[0, 13, 14, 256, 257, 1 << 31, u32::MAX]),
            1 => {
                let code = random.pick(&UNUSED_CODES);
                *command = of(random, code);
                command[2] = random.pick(&[1, 7, 256, 1 << 31, u32::MAX]);
            }
            2 => command[1 + random.below(2)] = self.unfilled_handle(random),
            3 | 4 => {
                let field = 1 + random.below(2);
                let kind = if command[0] == BIT { RING } else { BIT_WORD };
                command[field] = self.handle(random, kind);
            }
            5 | 6 => {
                *command = of(random, BIT);
                command[2] = random.pick(&[32, 33, 63, 64, 256, 1 << 31, u32::MAX]);
            }
            _ => {
                let handles = self.kinds.len() + 3;
                *command = [random.below(14), random.below(handles), random.below(40)]
                    .map(|word| word as u32);
            }
        }
    }

    fn unfilled_handle(&self, random: &mut Random) -> u32 {
        let next = self.kinds.len() as u32 + 1;
        random.pick(&[0, 0, next, next, 128, 129, next + 255, 1 << 31, u32::MAX])
    }
}

/// Tape words: mostly random, else all zeros, all ones, or edges.
fn tape_words(random: &mut Random, length: usize) -> Vec<u32> {
    match random.below(10) {
        0 => vec![0; length],
        1 => vec![u32::MAX; length],
        2 => (0..length).map(|_| random.edge_word()).collect(),
        _ => random.words(length),
    }
}
