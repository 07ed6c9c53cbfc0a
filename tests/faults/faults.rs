//! Makes the library's calls on arbitrary input, with every lent buffer and struct alone between
//! inaccessible pages, and compares answers and lists with the reference.
//!
//! `faults CASES [FIRST]`: cases are numbered from FIRST (0 if not given) on, and `faults 1 NUMBER`
//! runs one again. Each case is run twice: with the end of every buffer at an inaccessible page,
//! and with its start there. An access outside the lent buffers ends the program, and so does a
//! write to one that is lent to be read.

mod command;
mod crash;
#[path = "../../include/dinglefork.rs"]
mod dinglefork;
mod file;
mod pages;
mod room;
mod tally;

// Other tests use the rest of these.
#[allow(dead_code)]
#[path = "../sessions"]
mod sessions {
    pub mod answers;
    pub mod generate;
    pub mod lists;
    pub mod random;
    pub mod reference;
    pub mod sheet;
}

use std::fmt::Debug;
use std::process::exit;

use command::Command;
use pages::Flush;
use random::Random;
use reference::machine::{run_command, Bodies, Lent};
use reference::POOL_LENGTHS;
use room::Room;
use sessions::{answers, generate, lists, random, reference, sheet};
use tally::Tally;

fn main() {
    let mut arguments = std::env::args().skip(1).map(|word| word.parse());
    let (Some(Ok(cases)), Ok(first)) = (arguments.next(), arguments.next().unwrap_or(Ok(0))) else {
        eprintln!("usage: faults CASES [FIRST]");
        exit(2);
    };
    crash::install();
    let mut room = Room::new();
    let mut tally = Tally::default();
    for number in first..first + cases {
        crash::set_case(number);
        if let Err(what) = check_case(number, &mut room, &mut tally) {
            println!("FAIL case {number}: {what}");
            exit(1);
        }
    }
    let lacking = tally.is_lacking();
    println!("{}{}", if lacking { "FAIL " } else { "" }, tally.line());
    exit(i32::from(lacking));
}

/// Half of the cases are commands; the others are session files, one in three of arbitrary bytes.
fn check_case(number: usize, room: &mut Room, tally: &mut Tally) -> Result<(), String> {
    let mut random = Random::from_seed(number as u64);
    tally.cases += 1;
    match number % 6 {
        0..=2 => {
            let command = command::arbitrary(&mut random);
            let answered = check_command(&command, room)?;
            tally.commands[answered as usize] += 1;
            if answered == 0 {
                tally.accepted[command.words[0] as usize - 1] += 1;
            }
        }
        kind => {
            let file = match kind {
                3 => file::arbitrary(&mut random),
                _ => generate::session_file(&mut random),
            };
            let lent = lists_for(&file, &mut random);
            let answered = check_session(&file, &lent, room)?;
            check_pool(&file, &lent, room)?;
            tally.sessions[answered as usize] += 1;
        }
    }
    check_refusal(number as u32 % 16, room)?;
    check_refusal(random.edge_word(), room)
}

/// Lists for a session: of any length, or of about the length that it fills.
fn lists_for(file: &[u8], random: &mut Random) -> Lent {
    let lengths = match random.below(3) {
        0 => file::lengths(random),
        _ => {
            let outcome = reference::session(file, &mut POOL_LENGTHS.lend_zeros());
            generate::lending::lengths(random, outcome.place)
        }
    };
    lengths.lend(|length| random.words(length))
}

fn check_command(command: &Command, room: &mut Room) -> Result<u32, String> {
    let bodies = Bodies {
        inputs: &command.inputs,
        tapes: command.tapes.each_ref().map(Vec::as_slice),
    };
    let mut expected = command.lent.clone();
    let answer = run_command(command.words, &bodies, command.place, &mut expected);
    let want = dinglefork::Answer {
        number: answer.number,
        place: answers::place(answer.place),
        opened: answer.opened,
    };
    for flush in [Flush::End, Flush::Start] {
        let got = room.command(command, flush);
        same("the command call", got, want)?;
        compare("the command call", room, &expected)?;
    }
    Ok(answer.number)
}

fn check_session(file: &[u8], lent: &Lent, room: &mut Room) -> Result<u32, String> {
    let mut expected = lent.clone();
    let outcome = reference::session(file, &mut expected);
    for flush in [Flush::End, Flush::Start] {
        let got = room.session(file, lent, flush);
        same("the session call", got, answers::of_session(&outcome))?;
        compare("the session call", room, &expected)?;
    }
    Ok(outcome.number)
}

fn check_pool(file: &[u8], lent: &Lent, room: &mut Room) -> Result<(), String> {
    let mut expected = lent.clone();
    let text = reference::pool_text(file, &mut expected);
    for flush in [Flush::End, Flush::Start] {
        let got = String::from_utf8_lossy(room.pool(file, lent, flush)?);
        same("the pool call", got.as_ref(), text.as_str())?;
        compare("the pool call", room, &expected)?;
    }
    Ok(())
}

/// A text of the refusal's own number where there is one, and nothing else in the room.
fn check_refusal(number: u32, room: &mut Room) -> Result<(), String> {
    let beginning = format!("refused {number}: ");
    for flush in [Flush::End, Flush::Start] {
        let text = String::from_utf8_lossy(room.refusal(number, flush)?);
        let wanted = match number {
            1..=13 => text.starts_with(&beginning),
            _ => text.is_empty(),
        };
        if !wanted {
            return Err(format!("the refusal call answers {text:?} for {number}"));
        }
    }
    Ok(())
}

fn same<T: PartialEq + Debug>(call: &str, got: T, want: T) -> Result<(), String> {
    match got == want {
        true => Ok(()),
        false => Err(format!("{call} answers {got:?}, expected {want:?}")),
    }
}

fn compare(call: &str, room: &Room, expected: &Lent) -> Result<(), String> {
    let compared = room.compare(expected);
    compared.map_err(|what| format!("after {call}, {what}"))
}
