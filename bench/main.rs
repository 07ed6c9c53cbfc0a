//! The engine beside its twin: the same answers, and the cost of both.
//!
//! `bench check` compares them; `bench list` names the workloads, each with a number of calls;
//! `bench count WORKLOAD SIDE CALLS` runs one of them; `bench time` prints times as CSV.

mod buffers;
mod check;
#[allow(dead_code)]
#[path = "../include/dinglefork.rs"]
mod engine;
mod time;
mod twin;
mod workload;

/// The generator of sessions of the tests.
#[path = "../tests/sessions"]
#[allow(dead_code)]
mod sessions {
    pub mod generate;
    pub mod random;
    pub mod reference;
    pub mod sheet;
}
use sessions::{generate, random, reference, sheet};

use buffers::Side;
use std::process::exit;

fn main() {
    let arguments: Vec<String> = std::env::args().skip(1).collect();
    let words: Vec<&str> = arguments.iter().map(String::as_str).collect();
    match words.as_slice() {
        ["check"] => check::check(),
        ["list"] => list(),
        ["count", name, side, calls] => count(name, side, calls),
        ["time"] => time::print(),
        _ => {
            eprintln!("usage: bench check | list | count WORKLOAD SIDE CALLS | time");
            exit(2);
        }
    }
}

fn list() {
    for workload in workload::all() {
        println!("{},{}", workload.name, workload.counted_calls());
    }
}

/// Runs one workload and nothing else, for an instruction counter.
fn count(name: &str, side: &str, calls: &str) {
    let side = Side::named(side).expect("engine or twin");
    let calls = calls.parse().expect("a number of calls");
    let found = workload::all().into_iter().find(|one| one.name == name);
    found.expect("a listed workload").run(side, calls);
}
