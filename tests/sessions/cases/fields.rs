//! Numbers 5 to 9, which a command's own words give, and two numbers that apply at once.
//! Specification: Table of refusals.

use super::{Cases, COMMAND_NAMES};
use crate::reference::machine::{
    Field, ADD, BELOW, BIT, BITS, EQUAL, MULTIPLY, OPEN, RESHARE, ROWS, STORE,
};

/// Before each tried command: handles 1 and 2 are ring values, handle 3 is a bit word.
pub const BEFORE: [[u32; 3]; 3] = [[STORE, 0, 0], [STORE, 0, 0], [BITS, 1, 0]];

/// A command of this code that is accepted after `BEFORE`.
pub fn accepted(code: u32) -> [u32; 3] {
    let field = |field| match field {
        Field::Unused => 0,
        Field::Handle(2) => 3,
        Field::Handle(_) => 2,
        Field::Constant => 9,
        Field::Position => 5,
    };
    let row = &ROWS[code as usize - 1];
    [code, field(row.fields[0]), field(row.fields[1])]
}

pub fn add(cases: &mut Cases) {
    codes(cases);
    unused_fields(cases);
    handles(cases);
    kinds(cases);
    positions(cases);
    two_at_once(cases);
    stops_at_refusal(cases);
}

/// Tries one command after `BEFORE`, with inputs and tape words enough.
fn tried(cases: &mut Cases, name: &str, number: u32, command: [u32; 3]) {
    let mut commands = BEFORE.to_vec();
    commands.push(command);
    cases.run(name, number, &commands, &[7, 5, 9]);
}

fn codes(cases: &mut Cases) {
    // The example of number 5, 0, 0, 0, as a session's first command.
    cases.run("refused_05_code_0", 5, &[[0, 0, 0]], &[]);
    // Code 0 after accepted commands.
    tried(cases, "code_0_later", 5, [0, 0, 0]);
    // The first code after the last.
    tried(cases, "code_13", 5, [13, 1, 2]);
    // A store in its lowest byte only.
    tried(cases, "code_257", 5, [257, 0, 0]);
    // A store in its lowest two bytes only.
    tried(cases, "code_65537", 5, [65_537, 0, 0]);
    // The top bit alone.
    tried(cases, "code_2147483648", 5, [1 << 31, 1, 2]);
    // The largest word.
    tried(cases, "code_4294967295", 5, [u32::MAX, 1, 2]);
}

fn unused_fields(cases: &mut Cases) {
    // The example of number 6: 1, 0, 7.
    cases.run("refused_06_store_b_7", 6, &[[STORE, 0, 7]], &[7]);
    for code in 1..=12 {
        let row = &ROWS[code as usize - 1];
        for (field, letter) in [(0, "a"), (1, "b")] {
            if row.fields[field] == Field::Unused {
                let mut command = accepted(code);
                command[1 + field] = 1;
                // Each unused field of each command, holding 1.
                let name = format!("unused_{}_{letter}", COMMAND_NAMES[code as usize - 1]);
                tried(cases, &name, 6, command);
            }
        }
    }
    // An unused field that is 0 in its lowest byte.
    tried(cases, "unused_open_b_high", 6, [OPEN, 1, 1 << 24]);
    // An unused field with the top bit alone.
    tried(cases, "unused_store_a_top", 6, [STORE, 1 << 31, 0]);
}

fn handles(cases: &mut Cases) {
    // The example of number 7: 2, 0, 1.
    tried(cases, "refused_07_add_0_1", 7, [ADD, 0, 1]);
    for code in 1..=12 {
        let row = &ROWS[code as usize - 1];
        for (field, letter) in [(0, "a"), (1, "b")] {
            if !matches!(row.fields[field], Field::Handle(_)) {
                continue;
            }
            let place = format!("{}_{letter}", COMMAND_NAMES[code as usize - 1]);
            for (why, handle) in [("zero", 0), ("next", 4)] {
                let mut command = accepted(code);
                command[1 + field] = handle;
                // Each handle of each command 0, and the next one to be filled.
                tried(cases, &format!("handle_{why}_{place}"), 7, command);
            }
        }
    }
    // A command on handle 1 before anything is stored.
    cases.run("handle_of_empty_tables", 7, &[[OPEN, 1, 0]], &[]);
    // Handle 128 is in the tables but not filled.
    tried(cases, "handle_128", 7, [OPEN, 128, 0]);
    // Handle 129 is past the end of the tables.
    tried(cases, "handle_129", 7, [ADD, 1, 129]);
    // Handle 1 in its lowest byte only.
    tried(cases, "handle_257", 7, [RESHARE, 257, 0]);
    // The largest word as a handle.
    tried(cases, "handle_4294967295", 7, [MULTIPLY, u32::MAX, 1]);
    // The top bit alone as a handle.
    tried(cases, "handle_2147483648", 7, [EQUAL, 1, 1 << 31]);
}

fn kinds(cases: &mut Cases) {
    // The example of number 8: 11 on a bit word.
    tried(cases, "refused_08_open_bit_word", 8, [OPEN, 3, 0]);
    for code in 1..=12 {
        let row = &ROWS[code as usize - 1];
        for (field, letter) in [(0, "a"), (1, "b")] {
            let Field::Handle(kind) = row.fields[field] else {
                continue;
            };
            let mut command = accepted(code);
            command[1 + field] = if kind == 2 { 1 } else { 3 };
            // Each handle of each command, of the other kind.
            let name = format!("kind_{}_{letter}", COMMAND_NAMES[code as usize - 1]);
            tried(cases, &name, 8, command);
        }
    }
    // Both handles of the wrong kind.
    tried(cases, "kind_below_both", 8, [BELOW, 3, 3]);
}

fn positions(cases: &mut Cases) {
    // The example of number 9 on a bit word: 9, 3, 32.
    tried(cases, "refused_09_bit_32", 9, [BIT, 3, 32]);
    for (name, position, number) in [
        ("position_0", 0, 0),
        ("position_31", 31, 0),
        ("position_32", 32, 9),
        ("position_33", 33, 9),
        ("position_63", 63, 9),
        ("position_256", 256, 9),
        ("position_2147483648", 1 << 31, 9),
        ("position_4294967295", u32::MAX, 9),
    ] {
        // 31 is the highest position; every larger one is refused.
        let mut commands = BEFORE.to_vec();
        commands.extend([[BIT, 3, position], [OPEN, 4, 0]]);
        cases.run(name, number, &commands, &[0x8000_0001, 5]);
    }
}

/// Two numbers at once: the lower one is answered. Specification: Order of refusals.
fn two_at_once(cases: &mut Cases) {
    // 5 before 6: no such code, and fields that no store may have.
    tried(cases, "both_05_06", 5, [0, 1, 1]);
    // 5 before 7: no such code, handles 0.
    tried(cases, "both_05_07", 5, [13, 0, 0]);
    // 6 before 7: reshare of handle 0 with its unused field 7.
    tried(cases, "both_06_07", 6, [RESHARE, 0, 7]);
    // 6 before 8: open of a bit word with its unused field 7.
    tried(cases, "both_06_08", 6, [OPEN, 3, 7]);
    // 7 before 8: the first handle of the wrong kind, the second not filled.
    tried(cases, "both_07_08_kind_first", 7, [ADD, 3, 9]);
    // 7 before 8: the first handle 0, the second of the wrong kind.
    tried(cases, "both_07_08_handle_first", 7, [EQUAL, 0, 3]);
    // 7 before 9: bit of handle 0 at position 32.
    tried(cases, "both_07_09", 7, [BIT, 0, 32]);
    // 8 before 9: bit of a ring value at position 32 (9, 1, 32 where handle 1 was stored).
    tried(cases, "both_08_09", 8, [BIT, 1, 32]);
    // 6 before 11: a store with a nonzero field and no input.
    cases.run("both_06_11", 6, &[[STORE, 5, 0]], &[]);
    // 7 before 10, in 'small' lists: the table is full and handle 2 is not filled.
    let commands = [[STORE, 0, 0], [ADD, 1, 2]];
    cases.run("both_07_10", 7, &commands, &[7]);
    // 6 before 10, in 'small' lists: the table is full and a field that must be 0 is not.
    let commands = [[STORE, 0, 0], [STORE, 0, 1]];
    cases.run("both_06_10", 6, &commands, &[7, 5]);
    // 6 before 13, in 'small' lists: the controller's list is too short and the field not 0.
    let commands = [[STORE, 0, 0], [OPEN, 1, 1]];
    cases.run("both_06_13", 6, &commands, &[7]);
}

fn stops_at_refusal(cases: &mut Cases) {
    let commands = [
        [STORE, 0, 0],
        [OPEN, 1, 0],
        [OPEN, 2, 0],
        [STORE, 0, 0],
        [OPEN, 2, 0],
    ];
    // What was opened before the refused command is printed; nothing after it is done.
    cases.run("stops_at_refusal", 7, &commands, &[7, 5]);
    // The first of two refused commands is answered.
    let commands = [[STORE, 0, 0], [OPEN, 1, 0], [13, 0, 0], [OPEN, 9, 0]];
    cases.run("first_of_two_refusals", 5, &commands, &[7]);
    let mut commands = vec![[OPEN, 1, 0]; 128];
    commands[0] = [STORE, 0, 0];
    commands[127] = [0, 0, 0];
    // The last of 128 commands is refused.
    cases.run("refused_at_127", 5, &commands, &[7]);
}
