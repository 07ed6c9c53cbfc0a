//! The session call. Specification: Sessions.

use super::lent::{Lent, Table};
use super::sheet::{bounds, decode};
use super::step::step;
use crate::engine::{Lists, Place, SessionAnswer, Tables};

/// The commands of a file, up to the first refusal; not inlined, so that it is called like the
/// engine.
#[inline(never)]
pub fn session(
    file: &[u8],
    words: &mut [u32],
    tables: &mut Tables,
    lists: &mut Lists,
) -> SessionAnswer {
    let tables = Table::of(tables);
    let bounds = match bounds(file, tables.agree(), words.len()) {
        Ok(bounds) => bounds,
        Err(number) => return answer(0, Place::default(), number),
    };
    decode(file, words);
    let body = |i: usize| &words[bounds[i]..bounds[i + 1]];
    let mut lent = Lent {
        tables,
        inputs: body(1),
        provider: body(2),
        tapes: [body(3), body(4), body(5)],
        received: [&mut lists.one, &mut lists.two, &mut lists.three],
        controller: &mut lists.controller,
    };
    run(body(0), &mut lent)
}

fn answer(done: usize, place: Place, number: u32) -> SessionAnswer {
    SessionAnswer {
        done,
        place,
        number,
    }
}

/// Number 4 cannot apply: place record and filled kinds are this run's own.
#[inline(always)]
fn run(commands: &[u32], lent: &mut Lent) -> SessionAnswer {
    let mut place = Place::default();
    for (done, command) in commands.chunks_exact(3).enumerate() {
        let command = [command[0], command[1], command[2]];
        if let Err(number) = step(command, &mut place, lent) {
            return answer(done, place, number);
        }
    }
    answer(commands.len() / 3, place, 0)
}
