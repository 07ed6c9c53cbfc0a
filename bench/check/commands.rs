//! Sequences of commands on short lists, some refused, some on unsound lists.

use super::both;
use crate::buffers::Buffers;
use crate::engine::Place;
use crate::random::Random;
use crate::reference::machine::{BIT_WORD, RING};
use crate::reference::Lengths;

/// One sequence: each command on the lists and place record that the one before left.
pub fn check(seed: u64, commands: usize, numbers: &mut [usize; 14]) {
    let mut random = Random::from_seed(seed);
    let mut buffers = buffers(&mut random);
    let mut place = Place::default();
    for _ in 0..commands {
        let command = command(&mut random, &buffers.kinds[..place.handles]);
        let what = format!("command {command:?} of sequence {seed}");
        if random.percent(10) {
            let (lists, place) = unsound(&mut random, &buffers, place);
            let (answer, _) = both(&what, &lists, |lists, side| {
                lists.lent().command(side, command, &place)
            });
            numbers[answer.number as usize] += 1;
        }
        let (answer, after) = both(&what, &buffers, |lists, side| {
            lists.lent().command(side, command, &place)
        });
        numbers[answer.number as usize] += 1;
        (place, buffers) = (answer.place, after);
    }
}

/// Lists that some sequences fill; the rest holds random words.
fn buffers(random: &mut Random) -> Buffers {
    let entries = 1 + random.below(40);
    let lengths = Lengths {
        words: 0,
        shares: [entries; 3],
        kinds: entries,
        received: [0; 4].map(|_| 20 + random.below(300)),
    };
    let mut buffers = Buffers::lend(&lengths, |length| random.words(length));
    let inputs = 2 + random.below(12);
    buffers.inputs = random.words(inputs);
    buffers.tapes = [0; 4].map(|_| {
        let length = 10 + random.below(200);
        random.words(length)
    });
    buffers
}

/// Mostly a command whose handles are filled and of the right kind.
fn command(random: &mut Random, filled: &[u32]) -> [u32; 3] {
    let code = match random.below(12) {
        0..=1 => 1,
        2 => 8,
        3 => 9,
        _ => random.below(14) as u32,
    };
    let unused = |random: &mut Random| u32::from(random.percent(5));
    let a = handle(random, filled, if code == 9 { BIT_WORD } else { RING });
    match code {
        1 => [code, unused(random), unused(random)],
        7 | 8 | 11 => [code, a, unused(random)],
        9 => [code, a, random.below(40) as u32],
        _ => [code, a, handle(random, filled, RING)],
    }
}

/// A handle of this kind in most cases, if there is one.
fn handle(random: &mut Random, filled: &[u32], kind: u32) -> u32 {
    let any = 1 + random.below(filled.len() + 1) as u32;
    let of_kind = |&handle: &u32| filled[handle as usize - 1] == kind;
    let right: Vec<u32> = (1..=filled.len() as u32).filter(of_kind).collect();
    match random.below(30) {
        0 => random.word(),
        1 => random.below(3) as u32,
        2..=4 => any,
        _ if right.is_empty() => any,
        _ => random.pick(&right),
    }
}

/// The lists or the place record changed in one way, so that often number 4 applies.
fn unsound(random: &mut Random, sound: &Buffers, mut place: Place) -> (Buffers, Place) {
    let mut lists = sound.clone();
    let more = 1 + random.below(400);
    match random.below(10) {
        0 => lists.shares[random.below(3)].push(0),
        1 => lists.kinds.push(1),
        2 => place.handles += more,
        3 => place.inputs += more,
        4 => place.drawn.provider += more,
        5 => place.drawn.one += more,
        6 => place.drawn.three = usize::MAX,
        7 => place.received.two += more,
        8 => place.received.controller = usize::MAX - random.below(30),
        _ => {
            let entry = random.below(lists.kinds.len());
            lists.kinds[entry] = random.pick(&[0, 1, 2, 3, 4, u32::MAX]);
        }
    }
    (lists, place)
}
