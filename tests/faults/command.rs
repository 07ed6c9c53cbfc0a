//! Arbitrary single commands, with arbitrary place records and lists.

use crate::generate::Draft;
use crate::random::Random;
use crate::reference::machine::{row_of, Lent, Place, BIT_WORD, RING};

/// A command and all that is lent to it.
pub struct Command {
    pub words: [u32; 3],
    pub place: Place,
    /// Without the words for a file, which a command does not use.
    pub lent: Lent,
    pub inputs: Vec<u32>,
    /// Of the provider and miners 1 to 3.
    pub tapes: [Vec<u32>; 4],
}

/// Most are accepted, or refused for a single fault.
pub fn arbitrary(random: &mut Random) -> Command {
    let filled = random.pick(&[0, 1, 2, 3, 5, 8, 13, 40, 127, 300]);
    let mut kinds: Vec<u32> = (0..filled)
        .map(|_| random.pick(&[RING, RING, BIT_WORD]))
        .collect();
    let words = command_words(random, &kinds);
    let unfilled = random.pick(&[0, 1, 1, 1, 2, 7, 200]);
    kinds.extend(random.words(unfilled));
    let mut command = with_enough(random, words, filled, kinds);
    if random.percent(10) {
        damage(random, &mut command);
    }
    if random.percent(5) {
        command.place = arbitrary_place(random);
    }
    command
}

/// Words that are accepted on handles of these kinds, or those with a fault, or any words.
fn command_words(random: &mut Random, kinds: &[u32]) -> [u32; 3] {
    let draft = Draft {
        kinds: kinds.to_vec(),
        ..Draft::default()
    };
    let mut words = draft.accepted(random);
    match random.below(10) {
        0..=1 => draft.spoil(random, &mut words),
        2 => words = words.map(|_| random.edge_word()),
        _ => (),
    }
    words
}

/// Inputs, tapes and received lists, most with as much left as the command needs or more, a few
/// with less.
fn with_enough(random: &mut Random, words: [u32; 3], handles: usize, kinds: Vec<u32>) -> Command {
    let row = row_of(words[0]);
    let (inputs, drawn, received) = row.map_or((0, [0; 4], [0; 4]), |row| {
        (row.inputs, row.drawn, row.received)
    });
    let mut place = Place {
        handles,
        ..Place::default()
    };
    let mut list = |need: usize, used: &mut usize| {
        *used = random.pick(&[0, 0, 1, 2, 9, 60, 1_030, 3_000]);
        let length = *used + left(random, need);
        random.words(length)
    };
    let inputs = list(inputs, &mut place.inputs);
    let tapes = [0, 1, 2, 3].map(|i| list(drawn[i], &mut place.drawn[i]));
    let received = [0, 1, 2, 3].map(|i| list(received[i], &mut place.received[i]));
    let shares = [(); 3].map(|_| random.words(kinds.len()));
    let lent = Lent {
        words: Vec::new(),
        shares,
        kinds,
        received,
    };
    Command {
        words,
        place,
        lent,
        inputs,
        tapes,
    }
}

/// How much is left in a list of which the command needs this much.
fn left(random: &mut Random, need: usize) -> usize {
    match random.below(20) {
        0 => random.below(need.max(1)),
        1..=5 => need + random.below(40),
        _ => need,
    }
}

/// Makes refusal 4 apply, where the lists allow it.
fn damage(random: &mut Random, command: &mut Command) {
    let Command { place, lent, .. } = command;
    let beyond = random.pick(&[1, 2, 1 << 31, usize::MAX / 2]);
    let i = random.below(4);
    match random.below(8) {
        0 => lent.kinds.push(RING),
        1 => drop(lent.shares[random.below(3)].pop()),
        2 => lent.shares[random.below(3)].push(0),
        3 => place.handles = lent.kinds.len() + beyond,
        4 => place.inputs = command.inputs.len() + beyond,
        5 => place.drawn[i] = command.tapes[i].len() + beyond,
        6 => place.received[i] = lent.received[i].len() + beyond,
        _ => {
            let wrong = random.pick(&[0, 3, 256, 1 << 31, u32::MAX]);
            let filled = &mut lent.kinds[..place.handles];
            let at = random.below(filled.len().max(1));
            if let Some(kind) = filled.get_mut(at) {
                *kind = wrong;
            }
        }
    }
}

/// Counts of any size, whatever the lists are.
fn arbitrary_place(random: &mut Random) -> Place {
    let mut count = || match random.below(4) {
        0 => 0,
        1 => random.below(10),
        2 => random.word() as usize,
        _ => usize::MAX - random.below(40),
    };
    Place {
        handles: count(),
        inputs: count(),
        drawn: [(); 4].map(|_| count()),
        received: [(); 4].map(|_| count()),
    }
}
