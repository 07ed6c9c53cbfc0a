//! The command call.

use super::lent::{Lent, Table};
use super::step::step;
use crate::engine::{Answer, Lists, Place, Tables, Tapes};

/// One command on lent lists; not inlined, so that it is called like the engine.
#[inline(never)]
pub fn command(
    command: [u32; 3],
    place: &Place,
    tables: &mut Tables,
    inputs: &[u32],
    tapes: &Tapes,
    lists: &mut Lists,
) -> Answer {
    let mut place = *place;
    let mut lent = Lent {
        tables: Table::of(tables),
        inputs,
        provider: &tapes.provider,
        tapes: [&tapes.one, &tapes.two, &tapes.three],
        received: [&mut lists.one, &mut lists.two, &mut lists.three],
        controller: &mut lists.controller,
    };
    let sound = lent.check(&place);
    let done = sound.and_then(|()| step(command, &mut place, &mut lent));
    Answer {
        number: done.err().unwrap_or(0),
        place,
        opened: done.unwrap_or(0),
    }
}
