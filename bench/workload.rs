//! The calls that are measured.

mod commands;
mod sessions;

use crate::buffers::{Buffers, Side};
use crate::engine::Place;
use std::hint::black_box;

pub enum Call {
    Command([u32; 3], Place),
    Session(Vec<u8>),
    Pool(Vec<u8>),
}

/// One call with its lists. Every call leaves the same words, so it is repeated without clearing the
/// lists.
pub struct Workload {
    /// Group, label and size, with colons between.
    pub name: String,
    pub call: Call,
    pub buffers: Buffers,
}

/// All workloads, in the order of the report.
pub fn all() -> Vec<Workload> {
    let mut all = commands::all();
    all.extend(sessions::all());
    all
}

impl Workload {
    /// Calls of the shorter of two counted runs; the longer one has twice as many.
    pub fn counted_calls(&self) -> usize {
        match self.call {
            Call::Command(..) => 1_000,
            Call::Session(_) | Call::Pool(_) => 20,
        }
    }

    /// Makes so many calls to one side.
    pub fn run(&mut self, side: Side, calls: usize) {
        match side {
            Side::Engine => self.repeat(calls, Side::Engine),
            Side::Twin => self.repeat(calls, Side::Twin),
        }
    }

    /// Inlined for each side, so that both are called directly. The lists are lent once for all calls.
    #[inline(always)]
    fn repeat(&mut self, calls: usize, side: Side) {
        let mut lent = self.buffers.lent();
        match &self.call {
            Call::Command(command, place) => {
                for _ in 0..calls {
                    black_box(&lent.command(side, *command, place));
                }
            }
            Call::Session(file) => {
                for _ in 0..calls {
                    black_box(&lent.session(side, file));
                }
            }
            Call::Pool(file) => {
                for _ in 0..calls {
                    black_box(&lent.pool(side, file));
                }
            }
        }
    }
}
