//! Accepted sessions: every command's result opened, edges, and both handles the same.

use super::{Cases, COMMAND_NAMES};
use crate::reference::machine::{
    ADD, ADD_CONSTANT, BELOW, BIT, BITS, EQUAL, MULTIPLY, OPEN, RESHARE, STORE, SUBTRACT,
    TIMES_CONSTANT,
};

const EDGES: [u32; 5] = [0, 1, (1 << 31) - 1, 1 << 31, u32::MAX];

pub fn add(cases: &mut Cases) {
    worked(cases);
    each_command_opened(cases);
    all_in_one(cases);
    edges(cases);
    edge_constants(cases);
    same_handle_twice(cases);
    bits_of_a_word(cases);
    many_opens(cases);
}

/// Stores two inputs, runs one command on them and opens its result.
fn two_and_open(cases: &mut Cases, name: &str, command: [u32; 3], inputs: [u32; 2]) {
    let commands = [[STORE, 0, 0], [STORE, 0, 0], command, [OPEN, 3, 0]];
    cases.run(name, 0, &commands, &inputs);
}

/// Specification: Worked computations; Below.
fn worked(cases: &mut Cases) {
    // Worked case 10: 65536 times 65536 is 0.
    let inputs = [65_536, 65_536];
    two_and_open(cases, "case_10_65536_times_65536", [MULTIPLY, 1, 2], inputs);
    // Worked case 11: 3 below 5 is 1.
    two_and_open(cases, "case_11_3_below_5", [BELOW, 1, 2], [3, 5]);
    // Worked case 11: 5 below 5 is 0.
    two_and_open(cases, "case_11_5_below_5", [BELOW, 1, 2], [5, 5]);
    // Worked case 12: 4294967295 below 0 is 1, bit 31 of the difference.
    two_and_open(cases, "case_12_top_below_0", [BELOW, 1, 2], [u32::MAX, 0]);
    // 0 below 2147483648 is 1, and so is 2147483648 below 0.
    two_and_open(cases, "below_half_apart", [BELOW, 1, 2], [0, 1 << 31]);
    two_and_open(cases, "below_half_apart_back", [BELOW, 2, 1], [0, 1 << 31]);
}

fn each_command_opened(cases: &mut Cases) {
    for command in [
        [STORE, 0, 0],
        [ADD, 1, 2],
        [SUBTRACT, 1, 2],
        [ADD_CONSTANT, 1, 4_000_000_000],
        [TIMES_CONSTANT, 2, 1_000_003],
        [MULTIPLY, 1, 2],
        [RESHARE, 2, 0],
        [EQUAL, 1, 2],
        [BELOW, 1, 2],
    ] {
        let name = format!("opened_{}", COMMAND_NAMES[command[0] as usize - 1]);
        let commands = [[STORE, 0, 0], [STORE, 0, 0], command, [OPEN, 3, 0]];
        // Each command with a ring result, its result opened.
        cases.run(&name, 0, &commands, &[118, 4_294_967_000, 61]);
    }
    let commands = [[STORE, 0, 0], [BITS, 1, 0], [BIT, 2, 4], [OPEN, 3, 0]];
    // A bit word is opened by the command bit.
    cases.run("opened_bits_by_bit", 0, &commands, &[118]);
}

fn all_in_one(cases: &mut Cases) {
    let commands = [
        [STORE, 0, 0],
        [STORE, 0, 0],
        [ADD, 1, 2],
        [SUBTRACT, 3, 1],
        [ADD_CONSTANT, 4, 12],
        [TIMES_CONSTANT, 5, 3],
        [MULTIPLY, 6, 1],
        [RESHARE, 7, 0],
        [BITS, 8, 0],
        [BIT, 9, 2],
        [EQUAL, 7, 8],
        [BELOW, 1, 2],
        [OPEN, 8, 0],
        [OPEN, 10, 0],
        [OPEN, 11, 0],
        [OPEN, 12, 0],
    ];
    // All twelve commands in one session, each on what the one before it left.
    cases.run("all_twelve_commands", 0, &commands, &[84, 97]);
}

fn edges(cases: &mut Cases) {
    for code in [ADD, SUBTRACT, MULTIPLY, EQUAL, BELOW] {
        let mut commands = vec![[STORE, 0, 0]; 5];
        let mut handle = 5;
        for (a, b) in (0..25).map(|pair| (pair / 5 + 1, pair % 5 + 1)) {
            handle += 1;
            commands.extend([[code, a, b], [OPEN, handle, 0]]);
        }
        // Every pair of edge values, in both orders and with itself.
        let name = format!("edges_{}", COMMAND_NAMES[code as usize - 1]);
        cases.run(&name, 0, &commands, &EDGES);
    }
    let near = [4_127, 4_126, 4_128, 4_127 + (1 << 31), 4_127 ^ (1 << 16)];
    for code in [EQUAL, BELOW] {
        let mut commands = vec![[STORE, 0, 0]; 5];
        for b in 1..=5 {
            commands.extend([[code, 1, b], [OPEN, 5 + b, 0]]);
        }
        // A word against itself, its neighbours, and words that differ in a single bit.
        let name = format!("near_{}", COMMAND_NAMES[code as usize - 1]);
        cases.run(&name, 0, &commands, &near);
    }
}

fn edge_constants(cases: &mut Cases) {
    for code in [ADD_CONSTANT, TIMES_CONSTANT] {
        let mut commands = vec![[STORE, 0, 0]; 5];
        let mut handle = 5;
        for (a, constant) in (0..25).map(|pair| (pair / 5 + 1, EDGES[pair % 5])) {
            handle += 1;
            commands.extend([[code, a as u32, constant], [OPEN, handle, 0]]);
        }
        // Every edge value with every edge constant.
        let name = format!("edges_{}", COMMAND_NAMES[code as usize - 1]);
        cases.run(&name, 0, &commands, &EDGES);
    }
}

/// Commands whose two handles are the same.
fn same_handle_twice(cases: &mut Cases) {
    for code in [ADD, SUBTRACT, MULTIPLY, EQUAL, BELOW] {
        let commands = [[STORE, 0, 0], [code, 1, 1], [OPEN, 2, 0]];
        // One value on both sides.
        let name = format!("same_{}", COMMAND_NAMES[code as usize - 1]);
        cases.run(&name, 0, &commands, &[3_000_000_019]);
    }
}

fn bits_of_a_word(cases: &mut Cases) {
    let mut commands = vec![[STORE, 0, 0], [BITS, 1, 0]];
    for position in 0..32 {
        commands.extend([[BIT, 2, position], [OPEN, 3 + position, 0]]);
    }
    // All 32 positions of one word, lowest first.
    cases.run("bits_all_positions", 0, &commands, &[0xb5c3_9e01]);
    let mut commands = vec![[STORE, 0, 0]; 5];
    commands.extend([1, 2, 3, 4, 5].map(|handle| [BITS, handle, 0]));
    for handle in 6..=10 {
        commands.extend([[BIT, handle, 0], [BIT, handle, 30], [BIT, handle, 31]]);
    }
    commands.extend((11..=25).map(|handle| [OPEN, handle, 0]));
    // Positions 0, 30 and 31 of the edge values.
    cases.run("bits_of_edges", 0, &commands, &EDGES);
}

fn many_opens(cases: &mut Cases) {
    let mut commands = vec![[OPEN, 1, 0]; 128];
    commands[0] = [STORE, 0, 0];
    // One store and 127 opens of it: the longest text there is.
    cases.run("opens_127", 0, &commands, &[4_294_967_291]);
    let mut commands = vec![[OPEN, 100, 0]; 128];
    commands[..100].fill([RESHARE, 1, 0]);
    commands[0] = [STORE, 0, 0];
    // A handle of three digits, opened again and again.
    cases.run("opens_of_handle_100", 0, &commands, &[4_294_967_291]);
}
