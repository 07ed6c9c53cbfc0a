//! Whether engine and twin agree, word for word, on seeded commands and sessions.

mod commands;
mod sessions;
mod workloads;

use crate::buffers::{Buffers, Side, SIDES};
use std::fmt::Debug;
use std::process::exit;

/// Sequences of commands, and commands in each.
const SEQUENCES: u64 = 400;
const COMMANDS: usize = 60;
const SESSIONS: u64 = 4_000;
/// Fewest answers of each number, so that every refusal is tried.
const FEWEST: usize = 20;

/// Exits with a message at the first difference.
pub fn check() {
    let mut numbers = [0; 14];
    (0..SEQUENCES).for_each(|seed| commands::check(seed, COMMANDS, &mut numbers));
    report("commands", &numbers, 4);
    let mut numbers = [0; 14];
    (0..SESSIONS).for_each(|seed| sessions::check(seed, &mut numbers));
    report("sessions", &numbers, 1);
    workloads::check();
}

/// Calls both sides on copies of the lists; gives the common answer and lists.
fn both<T: Debug + PartialEq>(
    what: &str,
    before: &Buffers,
    call: impl Fn(&mut Buffers, Side) -> T,
) -> (T, Buffers) {
    let [engine, twin] = SIDES.map(|side| {
        let mut buffers = before.clone();
        (call(&mut buffers, side), buffers)
    });
    if engine.0 != twin.0 {
        let (engine, twin) = (engine.0, twin.0);
        fail(
            what,
            &format!("the engine answers {engine:?}, the twin {twin:?}"),
        );
    }
    if engine.1 != twin.1 {
        fail(what, "engine and twin leave different lists");
    }
    engine
}

fn fail(what: &str, difference: &str) -> ! {
    eprintln!("FAIL {what}: {difference}");
    exit(1);
}

/// How often each number was answered: 0 and all numbers from `first` on have to occur.
fn report(what: &str, numbers: &[usize; 14], first: usize) {
    let total: usize = numbers.iter().sum();
    let answered: Vec<String> = (0..14)
        .map(|number| format!("{number}:{}", numbers[number]))
        .collect();
    eprintln!("{total} {what} alike; answered {}", answered.join(" "));
    let tried = (0..14).filter(|&number| number == 0 || number >= first);
    if tried.into_iter().any(|number| numbers[number] < FEWEST) {
        eprintln!("FAIL a number was answered fewer than {FEWEST} times");
        exit(1);
    }
}
