//! Arbitrary files, and arbitrary lengths of the lists that are lent with them.

use crate::random::Random;
use crate::reference::{Lengths, LENT_WORDS, LIMITS, LONGEST_FILE};
use crate::room::MOST_BYTES;
use crate::sheet::bytes_of_words;

const CONTENTS: usize = 12;

/// Any bytes; half of the time they begin with contents that fit.
pub fn arbitrary(random: &mut Random) -> Vec<u8> {
    let length = match random.below(6) {
        0 => random.below(64),
        1 => 4 * random.below(64),
        2 => random.below(2_000),
        3 => 4 * random.below(2_000),
        4 => LONGEST_FILE - 8 + random.below(17),
        _ => random.below(MOST_BYTES + 1),
    };
    let mut words = random.words(length.div_ceil(4));
    if random.percent(50) && words.len() >= CONTENTS {
        put_contents(random, &mut words);
    }
    let mut bytes = bytes_of_words(&words);
    bytes.truncate(length);
    bytes
}

/// Divides the words behind the contents among the bodies: each within its limit, the last aside,
/// and three words for each command. Half of the time the words of commands are small.
fn put_contents(random: &mut Random, words: &mut [u32]) {
    let mut start = CONTENTS;
    for (body, limit) in LIMITS.into_iter().enumerate() {
        let rest = words.len() - start;
        let count = match body {
            0 => 3 * random.below(rest.min(limit) / 3 + 1),
            5 => rest,
            _ => random.below(rest.min(limit) + 1),
        };
        words[2 * body] = start as u32;
        words[2 * body + 1] = count as u32;
        start += count;
    }
    if random.percent(50) {
        let end = CONTENTS + words[1] as usize;
        words[CONTENTS..end].iter_mut().for_each(|word| *word %= 14);
    }
}

/// Any lengths; most have enough words for a file and tables of one length.
pub fn lengths(random: &mut Random) -> Lengths {
    let entries = random.below(200);
    let mut lengths = Lengths {
        words: LENT_WORDS + random.below(300),
        shares: [entries; 3],
        kinds: entries,
        received: [(); 4].map(|_| random.below(4_000)),
    };
    match random.below(20) {
        0 => lengths.words = random.below(LENT_WORDS),
        1 => lengths.kinds = random.below(200),
        2 => lengths.shares[random.below(3)] = random.below(200),
        _ => (),
    }
    lengths
}
