//! Whole sessions, on the lists of `pool`.

use super::{Call, Workload};
use crate::buffers::Buffers;
use crate::random::Random;
use crate::reference::machine::{row_of, ADD, BELOW, MULTIPLY, OPEN, STORE};
use crate::reference::{LIMITS, POOL_LENGTHS};
use crate::sheet::Sheet;

/// Most commands of a session.
const MOST: usize = 128;

/// The mix: all twelve commands, 16 in a row, 15 of which fill a handle. Handles count from the
/// row's first; it draws 4 words of the provider's tape and 80, 54 and 54 of the miners'.
const MIX: [[u32; 3]; 16] = [
    [1, 0, 0],
    [10, 1, 1],
    [1, 0, 0],
    [3, 1, 3],
    [8, 4, 0],
    [9, 5, 31],
    [2, 1, 3],
    [4, 7, 9],
    [12, 7, 3],
    [6, 8, 6],
    [10, 10, 8],
    [5, 10, 7],
    [12, 12, 1],
    [6, 13, 12],
    [7, 14, 0],
    [11, 15, 0],
];
const HANDLES_OF_MIX: u32 = 15;

pub fn all() -> Vec<Workload> {
    let mut all = Vec::new();
    for (label, file) in files() {
        all.push(workload(
            format!("session:{label}"),
            Call::Session(file.clone()),
        ));
        all.push(workload(format!("pool:{label}"), Call::Pool(file)));
    }
    for power in 0..=7 {
        let commands = 1 << power;
        for (family, list) in [("mix", mix(commands)), ("adds", adds(commands))] {
            let name = format!("growth:{family}:{commands}");
            all.push(workload(name, Call::Session(exact(list).bytes())));
        }
    }
    all
}

fn workload(name: String, call: Call) -> Workload {
    let buffers = Buffers::lend(&POOL_LENGTHS, |length| vec![0; length]);
    Workload {
        name,
        call,
        buffers,
    }
}

fn files() -> [(&'static str, Vec<u8>); 5] {
    let stores = |count| vec![[STORE, 0, 0]; count];
    let multiplies = (2..34).map(|last| [MULTIPLY, last, 1]).collect();
    let belows = |other, count| vec![[BELOW, 1, other]; count];
    let opens = vec![[OPEN, 1, 0]; MOST - 1];
    let full = |commands| filled(exact(commands)).bytes();
    let tight = |commands| exact(commands).bytes();
    [
        ("largest", full(mix(MOST))),
        (
            "127 belows",
            full([stores(1), belows(1, MOST - 1)].concat()),
        ),
        ("100 belows", tight([stores(2), belows(2, 100)].concat())),
        ("32 multiplies", tight([stores(2), multiplies].concat())),
        ("127 opens", tight([stores(1), opens].concat())),
    ]
}

/// The first so many commands of the mix, repeated.
fn mix(commands: usize) -> Vec<[u32; 3]> {
    let rows = (0..).step_by(HANDLES_OF_MIX as usize);
    rows.flat_map(|first| MIX.map(|command| moved(command, first)))
        .take(commands)
        .collect()
}

/// A command of the mix whose handles count from `first` on.
fn moved([code, a, b]: [u32; 3], first: u32) -> [u32; 3] {
    match code {
        1 => [code, a, b],
        2 | 3 | 6 | 10 | 12 => [code, first + a, first + b],
        _ => [code, first + a, b],
    }
}

/// A store, then adds of the first and the latest value.
fn adds(commands: usize) -> Vec<[u32; 3]> {
    let adds = (1..).map(|last| [ADD, 1, last]);
    [[STORE, 0, 0]]
        .into_iter()
        .chain(adds)
        .take(commands)
        .collect()
}

/// A sheet whose inputs and tapes are used up when all commands are done.
fn exact(commands: Vec<[u32; 3]>) -> Sheet {
    let mut random = Random::from_seed(commands.len() as u64);
    let drawn = |tape: usize| -> usize {
        let rows = commands.iter().filter_map(|command| row_of(command[0]));
        rows.map(|row| row.drawn[tape]).sum()
    };
    let inputs = random.words(drawn(0) / 2);
    let tapes = [0, 1, 2, 3].map(|tape| random.words(drawn(tape)));
    Sheet {
        commands,
        inputs,
        tapes,
    }
}

/// Every body but the commands filled to its limit.
fn filled(mut sheet: Sheet) -> Sheet {
    let mut random = Random::from_seed(0);
    let [provider, one, two, three] = &mut sheet.tapes;
    let bodies = [&mut sheet.inputs, provider, one, two, three];
    for (body, limit) in bodies.into_iter().zip(&LIMITS[1..]) {
        body.extend(random.words(limit - body.len()));
    }
    sheet
}
