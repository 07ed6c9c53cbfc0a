//! Number 1 and the file's length: the shortest files, the longest legal one, and longer ones.
//! Specification: Sheet file; Program.

use super::{exact_sheet, seeded, worked, Cases};
use crate::reference::machine::{
    ADD, ADD_CONSTANT, BELOW, BIT, BITS, EQUAL, MULTIPLY, OPEN, RESHARE, STORE, SUBTRACT,
    TIMES_CONSTANT,
};
use crate::reference::LIMITS;
use crate::sheet::{bytes_of_words, words_of_bodies, Sheet};

pub fn add(cases: &mut Cases) {
    short_files(cases);
    longest_files(cases);
    files_near_the_longest(cases);
}

fn short_files(cases: &mut Cases) {
    // The example of number 1: 47 bytes, a byte short of the contents.
    cases.file(
        "refused_01_47_bytes",
        1,
        sized(Sheet::default().bytes(), 47),
    );
    // The empty session cut short or with zero bytes behind; 48 is right, at 52 the end does not fit.
    for (length, number) in [
        (0, 1),
        (1, 1),
        (4, 1),
        (44, 1),
        (47, 1),
        (48, 0),
        (49, 1),
        (50, 1),
        (51, 1),
        (52, 2),
    ] {
        let name = format!("bytes_{length}");
        cases.file(&name, number, sized(Sheet::default().bytes(), length));
    }
    // Zeros in place of the contents: the first start is 0.
    cases.file("zeros_48", 2, vec![0; 48]);
    // All ones in place of the contents.
    cases.file("ones_48", 2, vec![255; 48]);
    // The worked session without its last byte.
    let bytes = worked().bytes();
    let length = bytes.len() - 1;
    cases.file("worked_cut_by_a_byte", 1, sized(bytes, length));
}

fn sized(mut bytes: Vec<u8>, length: usize) -> Vec<u8> {
    bytes.resize(length, 0);
    bytes
}

/// Fills every body to its limit, so that the file has 30,768 bytes.
fn filled(name: &str, commands: &[[u32; 3]]) -> Vec<u8> {
    let mut bodies = exact_sheet(name, commands, &[]).bodies();
    let mut random = seeded(name);
    for (body, limit) in bodies.iter_mut().zip(LIMITS) {
        let missing = limit - body.len();
        body.extend(random.words(missing));
    }
    bytes_of_words(&words_of_bodies(&bodies))
}

/// 128 commands that use all twelve codes and are all accepted.
fn all_twelve() -> Vec<[u32; 3]> {
    let mut commands = vec![[STORE, 0, 0], [STORE, 0, 0], [BITS, 1, 0]];
    let cycle = [
        [ADD, 1, 2],
        [SUBTRACT, 2, 1],
        [MULTIPLY, 1, 2],
        [OPEN, 6, 0],
        [BELOW, 1, 2],
        [EQUAL, 1, 1],
        [BIT, 3, 31],
        [RESHARE, 2, 0],
        [ADD_CONSTANT, 1, u32::MAX],
        [TIMES_CONSTANT, 2, 1 << 31],
        [BITS, 2, 0],
        [STORE, 0, 0],
    ];
    commands.extend(cycle.iter().cycle().take(125));
    commands
}

fn longest_files(cases: &mut Cases) {
    // The largest legal session: all bodies full, 128 commands of all twelve codes done.
    cases.file("bytes_30768", 0, filled("bytes_30768", &all_twelve()));
    let mut belows = vec![[BELOW, 2, 1]; 128];
    belows[0] = [STORE, 0, 0];
    belows[1] = [STORE, 0, 0];
    // The largest session with the command that draws and receives most.
    cases.file("longest_of_belows", 0, filled("longest_of_belows", &belows));
    // The largest session of stores alone: every input and every provider word is used.
    let stores = filled("longest_of_stores", &[[STORE, 0, 0]; 128]);
    cases.file("longest_of_stores", 0, stores);
}

fn files_near_the_longest(cases: &mut Cases) {
    let longest = filled("bytes_30768", &all_twelve());
    // A byte under: no multiple of 4.
    cases.file("bytes_30767", 1, sized(longest.clone(), 30_767));
    // A word under: the last body does not end the file.
    cases.file("bytes_30764", 2, sized(longest.clone(), 30_764));
    // A byte over: 3 is printed even though 1 applies.
    cases.file("bytes_30769", 3, sized(longest.clone(), 30_769));
    // A word over: 3 is printed even though 2 applies.
    cases.file("bytes_30772", 3, sized(longest.clone(), 30_772));
    // A word over, and the contents name it: tape 3 is over its limit.
    let mut over = sized(longest.clone(), 30_772);
    over[44..48].copy_from_slice(&2_305u32.to_le_bytes());
    cases.file("bytes_30772_named", 3, over);
    // 30,768 bytes whose first start is 13.
    let mut start_13 = longest.clone();
    start_13[0] = 13;
    cases.file("bytes_30768_start_13", 2, start_13);
    // 30,768 bytes with right contents, one tape over its limit and the next one under.
    let mut shifted = longest;
    shifted[36..40].copy_from_slice(&2_305u32.to_le_bytes());
    shifted[40..44].copy_from_slice(&5_389u32.to_le_bytes());
    shifted[44..48].copy_from_slice(&2_303u32.to_le_bytes());
    cases.file("bytes_30768_tape_2_over", 3, shifted);
}
