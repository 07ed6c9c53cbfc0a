//! The twin: the engine's three calls in ordinary safe Rust, written for speed after
//! docs/SPECIFICATION.md.
//!
//! It allocates nothing. A command's draws and received words are arrays of the lengths of its row,
//! so that the checks of numbers 12 and 13 are the only ones.

#![forbid(unsafe_code)]

mod bit;
mod bits;
mod command;
mod equal;
mod lent;
mod masked;
mod ring;
mod session;
mod sheet;
mod step;
mod text;

pub use command::command;
pub use session::session;
pub use text::pool;

/// One share for each of the miners 1 to 3.
type Shares = [u32; 3];

/// For each miner the previous miner's word. Specification: Parties.
fn previous([one, two, three]: Shares) -> Shares {
    [three, one, two]
}

/// Combines the shares of each miner.
fn each(u: Shares, v: Shares, combine: impl Fn(u32, u32) -> u32) -> Shares {
    [
        combine(u[0], v[0]),
        combine(u[1], v[1]),
        combine(u[2], v[2]),
    ]
}
