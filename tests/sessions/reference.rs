//! The reference: the engine written a second time, for clarity, after docs/SPECIFICATION.md.
//! It shares no code with the engine under test.
//!
//! This file has the session call and the text of `pool`. They stand on the command machine, and
//! that stands on the protocols.

pub mod machine;
pub mod protocols;

use machine::{Bodies, Lent, Place};

/// The fewest words that a caller lends for the file's. Specification: Sessions.
pub const LENT_WORDS: usize = 7_692;
/// In bytes. Specification: Limits.
pub const LONGEST_FILE: usize = 30_768;
/// Most words of each body, in the order of the contents. Specification: Limits.
pub const LIMITS: [usize; 6] = [384, 128, 256, 2_304, 2_304, 2_304];

/// How long the lent lists are.
#[derive(Clone, Copy, Debug)]
pub struct Lengths {
    pub words: usize,
    pub shares: [usize; 3],
    pub kinds: usize,
    /// Miners 1 to 3 and controller.
    pub received: [usize; 4],
}

/// The lists of the program. Specification: Program.
pub const POOL_LENGTHS: Lengths = Lengths {
    words: LENT_WORDS,
    shares: [128; 3],
    kinds: 128,
    received: [3_584; 4],
};

impl Lengths {
    /// Lists of these lengths, each made by the caller's function.
    pub fn lend(&self, mut list: impl FnMut(usize) -> Vec<u32>) -> Lent {
        Lent {
            words: list(self.words),
            shares: self.shares.map(&mut list),
            kinds: list(self.kinds),
            received: self.received.map(&mut list),
        }
    }

    pub fn lend_zeros(&self) -> Lent {
        self.lend(|length| vec![0; length])
    }
}

/// A session's answer, and beside it each accepted open as (handle, word).
#[derive(Clone, Debug, Default, PartialEq, Eq)]
pub struct Outcome {
    pub done: usize,
    pub place: Place,
    pub number: u32,
    pub opened: Vec<(u32, u32)>,
}

/// Runs a session up to its first refusal. Specification: Sessions.
pub fn session(file: &[u8], lent: &mut Lent) -> Outcome {
    let mut outcome = Outcome {
        number: session_refusal(file, lent),
        ..Outcome::default()
    };
    if outcome.number != 0 {
        return outcome;
    }
    let words = words_of(file);
    lent.words[..words.len()].copy_from_slice(&words);
    let [commands, inputs, provider, one, two, three] =
        contents(&words).map(|(start, count)| &words[start as usize..(start + count) as usize]);
    let tapes = [provider, one, two, three];
    let bodies = Bodies { inputs, tapes };
    for command in commands.chunks_exact(3) {
        let command = [command[0], command[1], command[2]];
        let answer = machine::run_command(command, &bodies, outcome.place, lent);
        if answer.number != 0 {
            outcome.number = answer.number;
            return outcome;
        }
        outcome.place = answer.place;
        outcome.done += 1;
        if command[0] == machine::OPEN {
            outcome.opened.push((command[1], answer.opened));
        }
    }
    outcome
}

/// The text that `pool` prints for a file. Specification: Lines; Program.
pub fn pool_text(file: &[u8], lent: &mut Lent) -> String {
    // Even if number 1 or 2 applies too.
    if file.len() > LONGEST_FILE {
        return "refused 3\n".to_string();
    }
    let outcome = session(file, lent);
    let mut text = String::new();
    for (handle, word) in &outcome.opened {
        text += &format!("open {handle} {word}\n");
    }
    let [one, two, three, controller] = outcome.place.received;
    text += &match outcome.number {
        0 => format!("end {} {one} {two} {three} {controller}\n", outcome.done),
        number @ 1..=4 => format!("refused {number}\n"),
        number => format!("refused {number} at {}\n", outcome.done),
    };
    text
}

// ---- reading the sheet

/// The lowest of numbers 1 to 4 that applies to the session, 0 if none does.
/// Specification: Table of refusals; Order of refusals.
fn session_refusal(file: &[u8], lent: &Lent) -> u32 {
    if file.len() < 48 || file.len() % 4 != 0 {
        return 1;
    }
    let words = words_of(file);
    let contents = contents(&words);
    if !keeps_contents_rule(&contents, words.len()) {
        return 2;
    }
    let over = (0..6).any(|body| contents[body].1 > LIMITS[body] as u64);
    if over || contents[0].1 % 3 != 0 {
        return 3;
    }
    if machine::lengths_differ(lent) || lent.words.len() < LENT_WORDS {
        return 4;
    }
    0
}

/// Specification: Sheet file.
fn words_of(file: &[u8]) -> Vec<u32> {
    file.chunks_exact(4)
        .map(|bytes| u32::from_le_bytes([bytes[0], bytes[1], bytes[2], bytes[3]]))
        .collect()
}

/// The six pairs of start and count, wide enough that their sums cannot wrap.
fn contents(words: &[u32]) -> [(u64, u64); 6] {
    [0, 1, 2, 3, 4, 5].map(|body| {
        let pair = &words[2 * body..];
        (u64::from(pair[0]), u64::from(pair[1]))
    })
}

/// Whether the bodies follow one another from word 12 to the file's end. Specification: Contents.
fn keeps_contents_rule(contents: &[(u64, u64); 6], file_words: usize) -> bool {
    let mut due = 12;
    for (start, count) in contents {
        if *start != due {
            return false;
        }
        due = start + count;
    }
    due == file_words as u64
}
