//! Sessions with inputs of several clinics.

use super::Cases;
use crate::reference::machine::{ADD, BELOW, EQUAL, MULTIPLY, OPEN, STORE};

pub fn add(cases: &mut Cases) {
    stumbles_times_hours(cases);
    setting_codes_compared(cases);
    two_totals_ranked(cases);
}

fn stumbles_times_hours(cases: &mut Cases) {
    // Stumbles and wearing hours of one week, knee by knee.
    let inputs = [4, 84, 2, 97, 7, 63];
    let mut commands = vec![[STORE, 0, 0]; 6];
    commands.extend([
        [MULTIPLY, 1, 2],
        [MULTIPLY, 3, 4],
        [MULTIPLY, 5, 6],
        [ADD, 7, 8],
        [ADD, 10, 9],
        [OPEN, 11, 0],
    ]);
    // Stumbles times hours of three knees; the sum of the products, 971, is opened.
    cases.run("stumbles_times_hours", 0, &commands, &inputs);
}

fn setting_codes_compared(cases: &mut Cases) {
    // Swing damping, then stance damping: the codes of the first and the second clinic.
    let inputs = [4_127, 4_127, 2_210, 2_212];
    let mut commands = vec![[STORE, 0, 0]; 4];
    commands.extend([[EQUAL, 1, 2], [EQUAL, 3, 4], [OPEN, 5, 0], [OPEN, 6, 0]]);
    // The swing codes agree (1), the stance codes do not (0).
    cases.run("setting_codes_compared", 0, &commands, &inputs);
}

fn two_totals_ranked(cases: &mut Cases) {
    // Stumbles of three months at the first clinic, then at the second.
    let inputs = [38, 41, 39, 45, 37, 44];
    let mut commands = vec![[STORE, 0, 0]; 6];
    commands.extend([
        [ADD, 1, 2],
        [ADD, 7, 3],
        [ADD, 4, 5],
        [ADD, 9, 6],
        [BELOW, 8, 10],
        [OPEN, 11, 0],
    ]);
    // The first clinic's total, 118, is below the second's, 126: 1 is opened.
    cases.run("two_totals_ranked", 0, &commands, &inputs);
}
