//! Whole sessions by the session call and the pool call, on lists of many lengths.

use super::both;
use crate::buffers::{Buffers, Side};
use crate::engine;
use crate::generate;
use crate::random::Random;
use crate::reference::machine;
use crate::reference::POOL_LENGTHS;

/// One seeded file, legal or damaged.
pub fn check(seed: u64, numbers: &mut [usize; 14]) {
    let mut random = Random::from_seed(seed);
    let file = generate::session_file(&mut random);
    let mut zeros = Buffers::lend(&POOL_LENGTHS, |length| vec![0; length]);
    let reached = zeros.lent().session(Side::Twin, &file).place;
    let lengths = generate::lending::lengths(&mut random, place_of(reached));
    let mut lists = Buffers::lend(&lengths, |length| random.words(length));
    lists.text.fill(random.word() as u8);

    let what = format!("the session call, session {seed}");
    let (answer, _) = both(&what, &lists, |lists, side| lists.lent().session(side, &file));
    let what = format!("the pool call, session {seed}");
    both(&what, &lists, |lists, side| lists.lent().pool(side, &file));
    numbers[answer.number as usize] += 1;
}

/// The place record in the form of the tests' generator.
fn place_of(place: engine::Place) -> machine::Place {
    let (drawn, received) = (place.drawn, place.received);
    machine::Place {
        handles: place.handles,
        inputs: place.inputs,
        drawn: [drawn.provider, drawn.one, drawn.two, drawn.three],
        received: [
            received.one,
            received.two,
            received.three,
            received.controller,
        ],
    }
}
