//! Compares the engine and the program `pool` with the reference on many seeded sessions.
//!
//! `differential SESSIONS PATH_OF_POOL [FIRST]`: each session is made from its number, the first
//! being FIRST (0 if not given), so that one that differs can be run again alone.

mod answers;
// The command call is tested in tests/interface and tests/faults.
#[allow(dead_code)]
#[path = "../../include/dinglefork.rs"]
mod dinglefork;
mod engine;
mod generate;
mod lists;
mod random;
mod reference;
mod registers;
mod sheet;

use std::io::{ErrorKind, Write};
use std::process::{exit, Command, Stdio};
use std::sync::atomic::{AtomicBool, Ordering};

use engine::Guarded;
use random::Random;
use reference::machine::Lent;
use reference::{Outcome, POOL_LENGTHS};
use registers::Registers;

/// Fewest answers of each number, in so many sessions.
const FEWEST: (usize, usize) = (50, 20_000);
/// With fewer sessions the counts are not checked.
const ENOUGH_TO_COUNT: usize = 1_000;
const THREADS: usize = 2;

/// How often each number was answered, and how many sessions did at least 5 commands.
#[derive(Default)]
struct Tally {
    numbers: [usize; 14],
    long: usize,
}

fn main() {
    let arguments: Vec<String> = std::env::args().skip(1).collect();
    let number = |i: usize| arguments.get(i).map(|word: &String| word.parse::<usize>());
    let (Some(Ok(sessions)), Some(pool)) = (number(0), arguments.get(1)) else {
        eprintln!("usage: differential SESSIONS PATH_OF_POOL [FIRST]");
        exit(2);
    };
    let first = number(2).map_or(0, |parsed| parsed.expect("FIRST is a number"));
    let stopped = AtomicBool::new(false);
    let run = |worker| run_share(first, sessions, worker, pool, &stopped);
    let tallies = std::thread::scope(|scope| {
        let workers = [0, 1].map(|worker| scope.spawn(move || run(worker)));
        workers.map(|worker| worker.join().expect("a worker stops by itself"))
    });
    if stopped.load(Ordering::Relaxed) {
        exit(1);
    }
    report(sessions, &tallies);
}

/// Runs every second session and stops at the first difference, which it prints.
fn run_share(
    first: usize,
    sessions: usize,
    worker: usize,
    pool: &str,
    stopped: &AtomicBool,
) -> Tally {
    let mut tally = Tally::default();
    for number in (first + worker..first + sessions).step_by(THREADS) {
        if stopped.load(Ordering::Relaxed) {
            break;
        }
        let mut random = Random::from_seed(number as u64);
        let file = generate::session_file(&mut random);
        match check(&mut random, &file, pool) {
            Ok(outcome) => {
                tally.numbers[outcome.number as usize] += 1;
                tally.long += usize::from(outcome.done >= 5);
            }
            Err(what) => {
                stopped.store(true, Ordering::Relaxed);
                tell_difference(number, &file, &what);
            }
        }
    }
    tally
}

fn tell_difference(number: usize, file: &[u8], what: &str) {
    let path = std::env::temp_dir().join(format!("differential_session_{number}"));
    let kept = match std::fs::write(&path, file) {
        Ok(()) => format!("its file is {}", path.display()),
        Err(error) => format!("its file could not be written: {error}"),
    };
    println!("FAIL session {number}: {what}; {kept}");
}

/// One session by program, session call and pool call; answers the session call's outcome.
fn check(random: &mut Random, file: &[u8], pool: &str) -> Result<Outcome, String> {
    let mut lent = POOL_LENGTHS.lend_zeros();
    let text = reference::pool_text(file, &mut lent);
    same_text("the program", &run_pool(pool, file)?, &text)?;
    let mut lent = POOL_LENGTHS.lend_zeros();
    let outcome = reference::session(file, &mut lent);
    agrees_with_registers(&outcome, &lent)?;

    let lengths = generate::lending::lengths(random, outcome.place);
    let before = lengths.lend(|length| random.words(length));
    let outcome = check_session_call(file, &before)?;
    check_pool_call(file, &before, random.word() as u8)?;
    Ok(outcome)
}

fn same_text(who: &str, got: &[u8], want: &str) -> Result<(), String> {
    if got == want.as_bytes() {
        return Ok(());
    }
    let got = String::from_utf8_lossy(got);
    Err(format!("{who} gives {got:?}, expected {want:?}"))
}

/// What the program prints for the file on its standard input.
fn run_pool(path: &str, file: &[u8]) -> Result<Vec<u8>, String> {
    let mut child = Command::new(path)
        .stdin(Stdio::piped())
        .stdout(Stdio::piped())
        .spawn()
        .map_err(|error| format!("{path} does not start: {error}"))?;
    let mut input = child.stdin.take().expect("standard input is piped");
    match input.write_all(file) {
        // The program may leave the rest unread.
        Err(error) if error.kind() != ErrorKind::BrokenPipe => return Err(error.to_string()),
        _ => drop(input),
    }
    let output = child
        .wait_with_output()
        .map_err(|error| error.to_string())?;
    match output.status.code() {
        Some(_) => Ok(output.stdout),
        None => Err(format!("the program was stopped: {}", output.status)),
    }
}

/// The reference against the plain register machine.
fn agrees_with_registers(outcome: &Outcome, lent: &Lent) -> Result<(), String> {
    if outcome.done == 0 {
        return Ok(());
    }
    let (first, count) = (lent.words[2] as usize, lent.words[3] as usize);
    let commands = &lent.words[12..12 + 3 * outcome.done];
    let registers = Registers::after(commands, &lent.words[first..first + count]);
    let same = registers.values.len() == outcome.place.handles
        && registers.first_unlike(lent).is_none()
        && registers.opened == outcome.opened;
    match same {
        true => Ok(()),
        false => Err("the reference differs from the registers".to_string()),
    }
}

fn check_session_call(file: &[u8], before: &Lent) -> Result<Outcome, String> {
    let mut expected = before.clone();
    let outcome = reference::session(file, &mut expected);
    let mut lists = Guarded::copy_of(before);
    let got = engine::session(file, &mut lists);
    let want = answers::of_session(&outcome);
    if got != want {
        return Err(format!(
            "the session call answers {got:?}, expected {want:?}"
        ));
    }
    lists
        .compare(&expected)
        .map_err(|what| format!("after the session call, {what}"))?;
    Ok(outcome)
}

fn check_pool_call(file: &[u8], before: &Lent, filler: u8) -> Result<(), String> {
    let mut expected = before.clone();
    let text = reference::pool_text(file, &mut expected);
    let mut lists = Guarded::copy_of(before);
    let got = engine::pool(file, &mut lists, filler)?;
    same_text("the pool call", &got, &text)?;
    lists
        .compare(&expected)
        .map_err(|what| format!("after the pool call, {what}"))
}

/// One line; FAIL if a number came too seldom or too few sessions were long.
fn report(sessions: usize, shares: &[Tally; 2]) {
    let answered = |number: usize| shares.iter().map(|share| share.numbers[number]).sum();
    let numbers: Vec<usize> = (0..14).map(answered).collect();
    let long: usize = shares.iter().map(|share| share.long).sum();
    let fewest = sessions * FEWEST.0 / FEWEST.1;
    let counted = sessions >= ENOUGH_TO_COUNT;
    let seldom = numbers.iter().any(|&times| times < fewest);
    let failed = counted && (seldom || 3 * long < sessions);
    let verdict = if failed { "FAIL " } else { "" };
    let times: Vec<String> = (0..14)
        .map(|number| format!("{number}:{}", numbers[number]))
        .collect();
    let times = times.join(" ");
    println!("{verdict}{sessions} sessions alike; answered {times}; {long} did 5 commands or more");
    if failed {
        exit(1);
    }
}
