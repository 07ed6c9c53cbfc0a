//! Numbers 10 to 13: full tables, used inputs, spent tapes and filled received lists.
//! Specification: Table of refusals.

use super::fields::{accepted, BEFORE};
use super::{exact_sheet, Cases, COMMAND_NAMES};
use crate::reference::machine::{ADD, BIT, BITS, MULTIPLY, OPEN, RESHARE, ROWS, STORE};

const TAPE_NAMES: [&str; 4] = ["provider", "tape_1", "tape_2", "tape_3"];

pub fn add(cases: &mut Cases) {
    table_examples(cases);
    exact_and_short_tapes(cases);
    two_at_once(cases);
    full_under_small(cases);
}

fn table_examples(cases: &mut Cases) {
    // Number 10: a second store, where the 'small' tables have one entry.
    let stores = [[STORE, 0, 0], [STORE, 0, 0]];
    cases.run("refused_10_second_store", 0, &stores, &[7, 5]);
    // Number 11: a store when the sheet has no input.
    cases.run("refused_11_store_no_inputs", 11, &stores[..1], &[]);
    // A second store, the only input used.
    cases.run("second_store_one_input", 11, &stores, &[7]);
    // Number 12: reshare, when miner 2's tape is empty.
    let commands = [[STORE, 0, 0], [RESHARE, 1, 0]];
    let mut sheet = exact_sheet("refused_12_reshare_tape_2_empty", &commands, &[7]);
    sheet.tapes[2].clear();
    cases.file("refused_12_reshare_tape_2_empty", 12, sheet.bytes());
    // Number 13: open, when the controller's 'small' list has two words.
    let commands = [[STORE, 0, 0], [OPEN, 1, 0]];
    cases.run("refused_13_open_controller_2", 0, &commands, &[7]);
}

fn exact_and_short_tapes(cases: &mut Cases) {
    for code in 1..=12 {
        let row = &ROWS[code as usize - 1];
        if row.drawn == [0; 4] {
            continue;
        }
        let command = COMMAND_NAMES[code as usize - 1];
        let mut commands = BEFORE.to_vec();
        commands.push(accepted(code));
        let exact = format!("exact_{command}");
        // Every tape has exactly the words that the commands draw.
        cases.run(&exact, 0, &commands, &[7, 5, 9]);
        for tape in (0..4).filter(|&tape| row.drawn[tape] != 0) {
            let mut sheet = exact_sheet(&exact, &commands, &[7, 5, 9]);
            sheet.tapes[tape].pop();
            // One tape that the command draws from is one word short.
            let name = format!("short_{command}_{}", TAPE_NAMES[tape]);
            cases.file(&name, 12, sheet.bytes());
        }
    }
    let commands = [[STORE, 0, 0], [ADD, 1, 1], [OPEN, 2, 0]];
    let mut sheet = exact_sheet("spare_words", &commands, &[7, 5]);
    sheet
        .tapes
        .iter_mut()
        .for_each(|tape| tape.extend([1, 2, 3]));
    // Words and inputs may be left over.
    cases.file("spare_words", 0, sheet.bytes());
}

/// Two numbers at once: the lower one is answered; some pairs need the 'small' lists.
/// Specification: Order of refusals.
fn two_at_once(cases: &mut Cases) {
    let store_open = [[STORE, 0, 0], [OPEN, 1, 0]];
    let no_tapes = |name: &str, commands: &[[u32; 3]], inputs: &[u32]| {
        let mut sheet = exact_sheet(name, commands, inputs);
        sheet.tapes[1..].iter_mut().for_each(Vec::clear);
        sheet.bytes()
    };
    // 10 before 11, in 'small' lists: table full and inputs used; else 11.
    let stores = [[STORE, 0, 0], [STORE, 0, 0]];
    cases.run("both_10_11", 11, &stores, &[7]);
    // 10 before 12, in 'small' lists: table full and tapes empty; else 12.
    let multiply = [[STORE, 0, 0], [MULTIPLY, 1, 1]];
    let bytes = no_tapes("both_10_12", &multiply, &[7]);
    cases.file("both_10_12", 12, bytes);
    // 11 before 12: a store with neither input nor provider tape.
    let mut sheet = exact_sheet("both_11_12", &stores[..1], &[]);
    sheet.tapes[0].clear();
    cases.file("both_11_12", 11, sheet.bytes());
    // 12 before 13, in 'small' lists: tapes empty and the controller's list too short.
    let bytes = no_tapes("both_12_13", &store_open, &[7]);
    cases.file("both_12_13", 12, bytes);
    // 9 before 12: position 32, and the bits before it used up tape 1.
    let mut commands = BEFORE.to_vec();
    commands.push([BIT, 3, 32]);
    let mut sheet = exact_sheet("both_09_12", &commands, &[7, 5]);
    sheet.tapes[1].truncate(15);
    cases.file("both_09_12", 9, sheet.bytes());
    // 7 before 12: open of an unfilled handle, all tapes empty.
    let bytes = no_tapes("both_07_12", &[[OPEN, 1, 0]], &[]);
    cases.file("both_07_12", 7, bytes);
    // 8 before 12: open of a bit word, no word left to draw.
    commands[3] = [OPEN, 3, 0];
    let mut sheet = exact_sheet("both_08_12", &commands, &[7, 5]);
    for tape in &mut sheet.tapes[1..] {
        tape.pop();
    }
    cases.file("both_08_12", 8, sheet.bytes());
}

fn full_under_small(cases: &mut Cases) {
    for code in 2..=12 {
        if code == BIT || code == OPEN {
            continue;
        }
        let mut command = accepted(code);
        command[1] = 1;
        if command[2] == 2 {
            command[2] = 1;
        }
        // Each command with a new value, in 'small' lists on a full table: 10.
        let name = format!("full_{}", COMMAND_NAMES[code as usize - 1]);
        cases.run(&name, 0, &[[STORE, 0, 0], command], &[7]);
    }
    // An open needs no entry: of the 'small' lists only the controller's is too short.
    let commands = [[STORE, 0, 0], [OPEN, 1, 0], [BITS, 1, 0]];
    cases.run("full_open", 0, &commands, &[7]);
}
