//! Calls the engine from Rust: a worked session, command by command and as a file, then an example
//! session. From the repository's root:
//!
//!     tools/build dinglefork
//!     rustc --edition 2021 -L target/staticlib -l static=dinglefork -o target/pooled_rs examples/pooled.rs
//!     target/pooled_rs
//!
//! include/dinglefork.h says what each call is lent, writes and answers. The tapes here are fixed:
//! never use fixed tapes for real figures.

#[path = "../include/dinglefork.rs"]
mod dinglefork;

use dinglefork::{code, command, pool, version, VERSION};
use dinglefork::{List, Lists, Place, Tables, Tape, Tapes};
use dinglefork::{CONTENTS, ENTRIES, RECEIVED, TEXT, WORDS};
use std::process::ExitCode;

/// 7 and 5 are stored and multiplied, and the product is opened.
const COMMANDS: [[u32; 3]; 4] = [
    [code::STORE, 0, 0],
    [code::STORE, 0, 0],
    [code::MULTIPLY, 1, 2],
    [code::OPEN, 3, 0],
];
/// No handle 9 is filled.
const WRONG: [u32; 3] = [code::MULTIPLY, 1, 9];
const INPUTS: [u32; 2] = [7, 5];
/// Of the provider and miners 1 to 3.
const TAPES: [&[u32]; 4] = [&[1, 2, 3, 4], &[10, 20, 70], &[30, 40, 80], &[50, 60, 90]];

fn main() -> ExitCode {
    match print_all() {
        Ok(()) => ExitCode::SUCCESS,
        Err(error) => {
            eprintln!("{error}");
            ExitCode::FAILURE
        }
    }
}

fn print_all() -> Result<(), String> {
    let version = version();
    if version != VERSION {
        return Err("the library is not of this version".to_string());
    }
    let (major, minor, patch) = (version / 10_000, version / 100 % 100, version % 100);
    println!("dinglefork {major}.{minor}.{patch}");

    // Room that is enough for every session, one after the other.
    let mut entries = [[0; ENTRIES]; 4];
    let mut received = [[0; RECEIVED]; 4];
    let [share1, share2, share3, kinds] = entries.each_mut().map(|list| List::from(&mut list[..]));
    let [one, two, three, controller] = received.each_mut().map(|list| List::from(&mut list[..]));
    #[rustfmt::skip]
    let mut tables = Tables { share1, share2, share3, kinds };
    #[rustfmt::skip]
    let mut lists = Lists { one, two, three, controller };

    println!("worked session, command by command:");
    run_commands(&mut tables, &mut lists);
    println!("worked session, as a file:");
    print!("{}", text_of(&worked_file(), &mut tables, &mut lists));
    println!("stumbles_times_hours:");
    let path = "examples/stumbles_times_hours.session";
    let file = std::fs::read(path).map_err(|error| format!("{path}: {error}"))?;
    print!("{}", text_of(&file, &mut tables, &mut lists));
    Ok(())
}

/// Prints what each command answers, and the words that miner 1 received.
fn run_commands(tables: &mut Tables, lists: &mut Lists) {
    let [provider, one, two, three] = TAPES.map(Tape::from);
    #[rustfmt::skip]
    let tapes = Tapes { provider, one, two, three };
    let mut place = Place::default();
    // The last command is refused and changes nothing.
    for &words in COMMANDS.iter().chain(&[WRONG]) {
        let [code, a, b] = words;
        let answer = command(words, &place, tables, &INPUTS, &tapes, lists);
        match answer.refusal() {
            Some(refusal) => println!("{code} {a} {b} {refusal}"),
            None if code == code::OPEN => println!("{code} {a} {b} opened {}", answer.opened),
            None => println!("{code} {a} {b} handle {}", answer.place.handles),
        }
        place = answer.place;
    }
    print!("miner 1 received");
    for word in &lists.one[..place.received.one] {
        print!(" {word}");
    }
    println!();
}

/// The text of a session file, as the program `pool` prints it.
fn text_of(file: &[u8], tables: &mut Tables, lists: &mut Lists) -> String {
    let mut text = [0; TEXT];
    let length = pool(file, &mut [0; WORDS], tables, lists, &mut text);
    String::from_utf8_lossy(&text[..length]).into_owned()
}

/// The worked session's file: each body's start and count, then the bodies, each word as four
/// bytes, lowest first.
fn worked_file() -> Vec<u8> {
    let commands = COMMANDS.concat();
    let [provider, one, two, three] = TAPES;
    let bodies = [&commands, &INPUTS[..], provider, one, two, three];
    let mut words = Vec::new();
    let mut start = CONTENTS;
    for body in bodies {
        words.extend([start as u32, body.len() as u32]);
        start += body.len();
    }
    words.extend(bodies.concat());
    words.into_iter().flat_map(u32::to_le_bytes).collect()
}
