//! Numbers 2 and 3: contents wrong in each way, bodies over their limits, incomplete commands.
//! Specification: Contents; Limits.

use super::{exact_sheet, worked, Cases};
use crate::reference::machine::{ADD, STORE};
use crate::reference::LIMITS;
use crate::sheet::{bytes_of_words, words_of_bodies};

/// The six bodies, as case names spell them.
const BODY_NAMES: [&str; 6] = [
    "commands", "inputs", "provider", "tape_1", "tape_2", "tape_3",
];

pub fn add(cases: &mut Cases) {
    starts(cases);
    ends(cases);
    wrapping_starts(cases);
    limits(cases);
    threes(cases);
    two_at_once(cases);
}

/// The worked session's words with some entries of the contents replaced.
fn worked_with(replaced: &[(usize, u32)]) -> Vec<u8> {
    let mut words = worked().words();
    for &(entry, word) in replaced {
        words[entry] = word;
    }
    bytes_of_words(&words)
}

fn starts(cases: &mut Cases) {
    // The example of number 2: first start 13.
    cases.file("refused_02_first_start_13", 2, worked_with(&[(0, 13)]));
    let words = worked().words();
    for body in 0..6 {
        let (start, count) = (words[2 * body], words[2 * body + 1]);
        for (way, moved) in [("low", u32::MAX), ("high", 1)] {
            let wrong = start.wrapping_add(moved);
            let kept_end = count.wrapping_sub(moved);
            // One start off by one, its count as it was: the next start does not fit either.
            let name = format!("start_{}_{way}", BODY_NAMES[body]);
            cases.file(&name, 2, worked_with(&[(2 * body, wrong)]));
            // One start off by one, its count changed to fit: only this start is wrong.
            let name = format!("start_{}_{way}_end_kept", BODY_NAMES[body]);
            let replaced = [(2 * body, wrong), (2 * body + 1, kept_end)];
            cases.file(&name, 2, worked_with(&replaced));
        }
    }
}

fn ends(cases: &mut Cases) {
    let last = worked().words()[11];
    // The last body ends one word before the file.
    cases.file("end_short", 2, worked_with(&[(11, last - 1)]));
    // The last body ends one word after the file.
    cases.file("end_long", 2, worked_with(&[(11, last + 1)]));
    // One more word in the file than the contents name.
    let mut words = worked().words();
    words.push(0);
    cases.file("file_word_more", 2, bytes_of_words(&words));
    // One word fewer in the file than the contents name.
    words.truncate(words.len() - 2);
    cases.file("file_word_less", 2, bytes_of_words(&words));
    // The last count is the largest word.
    cases.file("end_far", 2, worked_with(&[(11, u32::MAX)]));
}

/// Starts and counts that fit only modulo 2^32.
fn wrapping_starts(cases: &mut Cases) {
    let words = worked().words();
    for body in 0..5 {
        let (start, next) = (words[2 * body], words[2 * body + 2] + words[2 * body + 3]);
        let back = start - 1;
        let replaced = [
            (2 * body + 1, u32::MAX),
            (2 * body + 2, back),
            (2 * body + 3, next - back),
        ];
        // One start plus count wraps to a next start one before it.
        let name = format!("wrap_after_{}", BODY_NAMES[body]);
        cases.file(&name, 2, worked_with(&replaced));
    }
    let (start, far) = (words[8], u32::MAX - 3);
    let end = words.len() as u32;
    let replaced = [(9, far - start), (10, far), (11, end.wrapping_sub(far))];
    // The last body starts near 2^32 and ends, wrapping, with the file.
    cases.file("wrap_to_end", 2, worked_with(&replaced));
}

fn limits(cases: &mut Cases) {
    let mut commands = vec![[ADD, 1, 1]; 128];
    commands[0] = [STORE, 0, 0];
    for body in 0..6 {
        let mut bodies = exact_sheet("limits", &commands, &[7]).bodies();
        bodies[body].resize(LIMITS[body], 1);
        // One body exactly at its limit, 128 commands done.
        let name = format!("limit_{}", BODY_NAMES[body]);
        cases.file(&name, 0, bytes_of_words(&words_of_bodies(&bodies)));
        let over = if body == 0 { 387 } else { LIMITS[body] + 1 };
        bodies[body].resize(over, 1);
        // One body a word over its limit, the commands a whole command over.
        let name = match body {
            1 => "refused_03_129_inputs".to_string(),
            _ => format!("over_{}", BODY_NAMES[body]),
        };
        cases.file(&name, 3, bytes_of_words(&words_of_bodies(&bodies)));
    }
    let mut bodies = exact_sheet("limits", &commands, &[7]).bodies();
    bodies[0].push(1);
    // The commands one word over their limit, so the last command is incomplete too.
    let bytes = bytes_of_words(&words_of_bodies(&bodies));
    cases.file("over_commands_by_a_word", 3, bytes);
}

fn threes(cases: &mut Cases) {
    for (name, extra) in [("threes_1_over", 1), ("threes_2_over", 2)] {
        let mut bodies = worked().bodies();
        bodies[0].extend(vec![0; extra]);
        // One or two words after the last whole command, all else right.
        cases.file(name, 3, bytes_of_words(&words_of_bodies(&bodies)));
    }
    let mut bodies = worked().bodies();
    bodies[0].truncate(1);
    // A single word of commands.
    let bytes = bytes_of_words(&words_of_bodies(&bodies));
    cases.file("threes_one_word", 3, bytes);
}

/// Two numbers at once: the lower one is answered. Specification: Order of refusals.
fn two_at_once(cases: &mut Cases) {
    // 1 before 2: first start 13 and a byte too many.
    let mut bytes = worked_with(&[(0, 13)]);
    bytes.push(0);
    cases.file("both_01_02", 1, bytes);
    let mut bodies = worked().bodies();
    bodies[1].resize(129, 0);
    let mut words = words_of_bodies(&bodies);
    // 1 before 3: 129 inputs and three bytes too many.
    let mut bytes = bytes_of_words(&words);
    bytes.extend([0; 3]);
    cases.file("both_01_03", 1, bytes);
    // 3 before 5: 129 inputs and a first command of code 0. With lists lent too short, 3 before 4.
    words[12] = 0;
    cases.file("both_03_05", 3, bytes_of_words(&words));
    // 2 before 3: 129 inputs and first start 11.
    words[0] = 11;
    cases.file("both_02_03", 2, bytes_of_words(&words));
}
