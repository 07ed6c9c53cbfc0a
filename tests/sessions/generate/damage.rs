//! Session files with something wrong.

use crate::random::Random;
use crate::reference::{LIMITS, LONGEST_FILE};
use crate::sheet::{bytes_of_words, words_of_bodies, Sheet};

/// Any bytes, of a length around the contents or beyond it.
pub fn any_bytes(random: &mut Random) -> Vec<u8> {
    let length = match random.below(3) {
        0 => random.below(60),
        1 => 4 * random.below(40),
        _ => random.below(2_000),
    };
    (0..length).map(|_| random.word() as u8).collect()
}

/// The sheet's file, damaged in one way.
pub fn damaged(random: &mut Random, sheet: &Sheet) -> Vec<u8> {
    match random.below(12) {
        0 => cut(random, sheet.bytes(), 1),
        1 => cut(random, sheet.bytes(), 4),
        2 => bit_flipped(random, sheet.bytes()),
        3 => byte_replaced(random, sheet.bytes()),
        4 => contents_replaced(random, sheet.words()),
        5 => contents_wrapped(random, sheet.words()),
        6 | 7 => body_over_limit(random, sheet),
        8 => not_in_threes(random, sheet),
        9 => grown(random, sheet.bytes()),
        10 => contents_swapped(random, sheet.words()),
        _ => near_longest(random, sheet),
    }
}

fn cut(random: &mut Random, mut bytes: Vec<u8>, step: usize) -> Vec<u8> {
    let most = bytes.len() / step;
    let kept = match random.below(2) {
        0 => random.below(most + 1),
        _ => most.saturating_sub(1 + random.below(4)),
    };
    bytes.truncate(kept * step);
    bytes
}

/// The position of a byte, in the contents half of the time.
fn byte_place(random: &mut Random, bytes: &[u8]) -> usize {
    match random.below(2) {
        0 => random.below(48),
        _ => random.below(bytes.len()),
    }
}

fn bit_flipped(random: &mut Random, mut bytes: Vec<u8>) -> Vec<u8> {
    let at = byte_place(random, &bytes);
    bytes[at] ^= 1 << random.below(8);
    bytes
}

fn byte_replaced(random: &mut Random, mut bytes: Vec<u8>) -> Vec<u8> {
    let at = byte_place(random, &bytes);
    bytes[at] = random.word() as u8;
    bytes
}

/// A start or count off by one, at an edge, or any word; half of the time the rest is made to fit.
fn contents_replaced(random: &mut Random, mut words: Vec<u32>) -> Vec<u8> {
    let entry = random.below(12);
    let word = words[entry];
    let edge = random.edge_word();
    words[entry] = random.pick(&[word.wrapping_sub(1), word.wrapping_add(1), edge]);
    if random.percent(50) && entry % 2 == 0 {
        // The count is changed to fit, so that only this start is wrong.
        let moved = words[entry].wrapping_sub(word);
        words[entry + 1] = words[entry + 1].wrapping_sub(moved);
    }
    bytes_of_words(&words)
}

/// Starts and counts that fit only modulo 2^32.
fn contents_wrapped(random: &mut Random, mut words: Vec<u32>) -> Vec<u8> {
    let end = words.len() as u32;
    let body = random.below(6);
    if body == 5 {
        let far = u32::MAX - random.below(9) as u32;
        words[9] = far - words[8];
        words[10] = far;
        words[11] = end.wrapping_sub(far);
    } else {
        let back = words[2 * body] - 1 - random.below(12) as u32;
        let after_next = match body {
            4 => end,
            _ => words[2 * body + 4],
        };
        words[2 * body + 1] = back.wrapping_sub(words[2 * body]);
        words[2 * body + 2] = back;
        words[2 * body + 3] = after_next - back;
    }
    bytes_of_words(&words)
}

/// One body, sometimes two, over the limit; the contents are right.
fn body_over_limit(random: &mut Random, sheet: &Sheet) -> Vec<u8> {
    let mut bodies = sheet.bodies();
    for _ in 0..1 + random.below(2) {
        let body = random.below(6);
        let over = match body {
            0 => LIMITS[0] + 3 * (1 + random.below(2)),
            _ => LIMITS[body] + 1 + random.below(3),
        };
        bodies[body].resize(over, 1);
    }
    bytes_of_words(&words_of_bodies(&bodies))
}

fn not_in_threes(random: &mut Random, sheet: &Sheet) -> Vec<u8> {
    let mut bodies = sheet.bodies();
    let extra = 1 + random.below(2);
    bodies[0].extend(random.words(extra));
    bytes_of_words(&words_of_bodies(&bodies))
}

/// Words or single bytes after the last body.
fn grown(random: &mut Random, mut bytes: Vec<u8>) -> Vec<u8> {
    let step = random.pick(&[1, 4]);
    let more = step * (1 + random.below(4));
    bytes.extend((0..more).map(|_| random.word() as u8));
    bytes
}

fn contents_swapped(random: &mut Random, mut words: Vec<u32>) -> Vec<u8> {
    words.swap(random.below(12), random.below(12));
    bytes_of_words(&words)
}

/// All bodies full, and the file then as long as is legal, or a little shorter or longer.
fn near_longest(random: &mut Random, sheet: &Sheet) -> Vec<u8> {
    let mut bodies = sheet.bodies();
    for (body, limit) in bodies.iter_mut().zip(LIMITS) {
        let more = limit.saturating_sub(body.len());
        body.extend(random.words(more));
        body.truncate(limit);
    }
    let mut bytes = bytes_of_words(&words_of_bodies(&bodies));
    let lengths = [0, 1, 2, 4, 5, 8, 9, 400].map(|moved| LONGEST_FILE + moved);
    bytes.resize(random.pick(&lengths) - random.pick(&[0, 0, 4]), 0);
    if random.percent(20) {
        bytes[0] = 13;
    }
    bytes
}
