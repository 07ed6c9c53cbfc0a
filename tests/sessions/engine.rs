//! The engine under test, reached through its C interface, with guarded lists.

use crate::dinglefork::{self, Lists, SessionAnswer, Tables, TEXT};
use crate::lists;
use crate::reference::machine::Lent;

/// Words that stand before and after each lent list and must stay as they are.
const GUARD: [u32; 4] = [0x5afe_5afe, 0, u32::MAX, 0x0dd5_0dd5];

/// Guarded copies of the lent lists, in the order in which they are passed.
pub struct Guarded {
    buffers: [Vec<u32>; lists::COUNT],
}

impl Guarded {
    pub fn copy_of(lent: &Lent) -> Guarded {
        Guarded {
            buffers: lists::of(lent).map(|list| [&GUARD, list.as_slice(), &GUARD].concat()),
        }
    }

    /// The lists between their guards.
    fn lend(&mut self) -> (&mut [u32], Tables<'_>, Lists<'_>) {
        lists::lend(self.buffers.each_mut().map(|buffer| {
            let end = buffer.len() - GUARD.len();
            &mut buffer[GUARD.len()..end]
        }))
    }

    /// The first word in which a list, or the guard about it, is not as expected.
    pub fn compare(&self, expected: &Lent) -> Result<(), String> {
        for (i, want) in lists::of(expected).into_iter().enumerate() {
            let (before, rest) = self.buffers[i].split_at(GUARD.len());
            let (got, after) = rest.split_at(want.len());
            lists::compare(i, got, want, before == GUARD && after == GUARD)?;
        }
        Ok(())
    }
}

/// The session call.
pub fn session(file: &[u8], guarded: &mut Guarded) -> SessionAnswer {
    let (words, mut tables, mut lists) = guarded.lend();
    dinglefork::session(file, words, &mut tables, &mut lists)
}

/// The text of `pool`, in room filled with a byte before; Err if the rest of the room was written.
pub fn pool(file: &[u8], guarded: &mut Guarded, filler: u8) -> Result<Vec<u8>, String> {
    let mut room = vec![filler; TEXT + 2 * GUARD.len()];
    let out = room[GUARD.len()..].first_chunk_mut::<TEXT>();
    let out = out.expect("the guards stand about the text's room");
    let (words, mut tables, mut lists) = guarded.lend();
    let length = dinglefork::pool(file, words, &mut tables, &mut lists, out);
    if length > TEXT {
        return Err(format!("the text's length is {length}, over {TEXT}"));
    }
    let text = room.drain(GUARD.len()..GUARD.len() + length).collect();
    match room.iter().all(|&byte| byte == filler) {
        true => Ok(text),
        false => Err("bytes about the text are overwritten".to_string()),
    }
}
