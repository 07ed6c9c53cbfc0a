//! Lengths of the lists that a caller lends: those of `pool` half of the time.

use crate::random::Random;
use crate::reference::machine::Place;
use crate::reference::{Lengths, LENT_WORDS, POOL_LENGTHS};

/// Lengths for one call; `after` is the place record that the session reaches in long lists.
pub fn lengths(random: &mut Random, after: Place) -> Lengths {
    let mut lengths = POOL_LENGTHS;
    if random.percent(50) {
        return lengths;
    }
    match random.below(8) {
        0 => unequal_tables(random, &mut lengths),
        1 => lengths.words = random.pick(&[0, 1, 48, 7_690, 7_691, 7_691, 7_691]),
        2 => equal_tables(&mut lengths, random.pick(&[0, 1, 2, 3, 5, 8, 13])),
        3 => short_received(random, &mut lengths),
        4 => {
            equal_tables(&mut lengths, random.below(12));
            short_received(random, &mut lengths);
        }
        5 | 6 => fitted(random, &mut lengths, after),
        _ => any(random, &mut lengths),
    }
    lengths
}

fn equal_tables(lengths: &mut Lengths, length: usize) {
    lengths.shares = [length; 3];
    lengths.kinds = length;
}

fn unequal_tables(random: &mut Random, lengths: &mut Lengths) {
    let other = random.pick(&[0, 1, 127, 129]);
    match random.below(4) {
        3 => lengths.kinds = other,
        table => lengths.shares[table] = other,
    }
}

fn short_received(random: &mut Random, lengths: &mut Lengths) {
    let list = random.below(4);
    lengths.received[list] = random.below(60);
}

/// Lists that the session fills exactly, or one of them a little too short for that.
fn fitted(random: &mut Random, lengths: &mut Lengths, after: Place) {
    lengths.received = after.received;
    let mut tables = after.handles;
    let short = 1 + random.below(3);
    match random.below(6) {
        4 => tables = tables.saturating_sub(short),
        5 => (),
        list => lengths.received[list] = lengths.received[list].saturating_sub(short),
    }
    equal_tables(lengths, tables);
}

fn any(random: &mut Random, lengths: &mut Lengths) {
    equal_tables(lengths, random.below(200));
    lengths.received = [0; 4].map(|_: usize| random.below(4_000));
    lengths.words = LENT_WORDS + random.below(300);
}
