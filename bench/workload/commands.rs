//! Single commands, on the tables and received lists of `pool` and tapes of greatest length.

use super::{Call, Workload};
use crate::buffers::Buffers;
use crate::engine::{Drawn, Place, Received};
use crate::random::Random;
use crate::reference::machine::{BIT_WORD, RING};
use crate::reference::{LIMITS, POOL_LENGTHS};

/// Filled handles.
const SIZES: [usize; 2] = [3, 100];

/// The handle that holds a bit word; all others hold ring values.
const BIT_WORD_HANDLE: u32 = 3;

/// Each command, with operands 1 and 2, or the bit word.
const COMMANDS: [(&str, [u32; 3]); 12] = [
    ("store", [1, 0, 0]),
    ("add", [2, 1, 2]),
    ("subtract", [3, 1, 2]),
    ("add constant", [4, 1, 12_345]),
    ("times constant", [5, 1, 12_345]),
    ("multiply", [6, 1, 2]),
    ("reshare", [7, 1, 0]),
    ("bits", [8, 1, 0]),
    ("bit", [9, BIT_WORD_HANDLE, 17]),
    ("equal", [10, 1, 2]),
    ("open", [11, 1, 0]),
    ("below", [12, 1, 2]),
];

pub fn all() -> Vec<Workload> {
    let mut all = Vec::new();
    for handles in SIZES {
        for (label, command) in COMMANDS {
            all.push(workload("command", label, handles, command, place(handles)));
        }
        let label = "code 13 (refused by 5)";
        all.push(workload(
            "refusal",
            label,
            handles,
            [13, 1, 2],
            place(handles),
        ));
        let mut full = place(handles);
        full.received.controller = POOL_LENGTHS.received[3];
        let label = "open (refused by 13)";
        all.push(workload("refusal", label, handles, [11, 1, 0], full));
    }
    all
}

fn workload(group: &str, label: &str, handles: usize, command: [u32; 3], place: Place) -> Workload {
    Workload {
        name: format!("{group}:{}:{handles}", label),
        call: Call::Command(command, place),
        buffers: buffers(handles),
    }
}

/// A place record that points into the middle of all lists.
fn place(handles: usize) -> Place {
    Place {
        handles,
        inputs: 5,
        drawn: Drawn {
            provider: 10,
            one: 101,
            two: 101,
            three: 101,
        },
        received: Received {
            one: 203,
            two: 203,
            three: 203,
            controller: 203,
        },
    }
}

fn buffers(handles: usize) -> Buffers {
    let mut random = Random::from_seed(handles as u64);
    let mut buffers = Buffers::lend(&POOL_LENGTHS, |length| vec![0; length]);
    buffers.shares = [0, 1, 2].map(|table: usize| random.words(POOL_LENGTHS.shares[table]));
    buffers.kinds[..handles].fill(RING);
    buffers.kinds[BIT_WORD_HANDLE as usize - 1] = BIT_WORD;
    buffers.inputs = random.words(LIMITS[1]);
    buffers.tapes = [2, 3, 4, 5].map(|body| random.words(LIMITS[body]));
    buffers
}
