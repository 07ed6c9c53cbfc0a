//! Pages for every buffer and struct of the calls, and the calls on them.

use crate::command::Command;
use crate::dinglefork::{self, Answer, SessionAnswer, Tapes, REFUSAL_TEXT, TEXT};
use crate::pages::{Flush, Pages};
use crate::reference::machine::Lent;
use crate::{answers, lists};

/// The longest file and the longest list that are lent.
pub const MOST_BYTES: usize = 40_960;
pub const MOST_WORDS: usize = 8_192;

pub struct Room {
    file: Pages<u8>,
    /// The lists that are written, in the order in which they are passed.
    written: [Pages<u32>; lists::COUNT],
    inputs: Pages<u32>,
    /// Of the provider and miners 1 to 3.
    tapes: [Pages<u32>; 4],
    out: Pages<u8>,
    refusal: Pages<u8>,
    structs: Structs,
}

struct Structs {
    place: Pages<usize>,
    tables: Pages<usize>,
    tapes: Pages<usize>,
    lists: Pages<usize>,
}

impl Room {
    pub fn new() -> Room {
        let list = || Pages::up_to(MOST_WORDS);
        Room {
            file: Pages::up_to(MOST_BYTES),
            written: [(); lists::COUNT].map(|_| list()),
            inputs: list(),
            tapes: [(); 4].map(|_| list()),
            out: Pages::up_to(TEXT),
            refusal: Pages::up_to(REFUSAL_TEXT),
            structs: Structs {
                place: Pages::up_to(10),
                tables: Pages::up_to(8),
                tapes: Pages::up_to(8),
                lists: Pages::up_to(8),
            },
        }
    }

    pub fn session(&mut self, file: &[u8], lent: &Lent, flush: Flush) -> SessionAnswer {
        self.put_written(lent, flush);
        put_for_reading(&mut self.file, file, flush);
        let (words, tables, lists) = lists::lend(slices(&mut self.written));
        let tables = self.structs.tables.put_struct(tables, flush);
        let lists = self.structs.lists.put_struct(lists, flush);
        dinglefork::session(self.file.as_slice(), words, tables, lists)
    }

    /// The text of a session; Err if a byte of its room behind it was written.
    pub fn pool(&mut self, file: &[u8], lent: &Lent, flush: Flush) -> Result<&[u8], String> {
        const FILLER: u8 = 0x3c;
        self.put_written(lent, flush);
        put_for_reading(&mut self.file, file, flush);
        self.out.put(&[FILLER; TEXT], flush);
        let out = self.out.as_mut_slice().first_chunk_mut();
        let out = out.expect("the text's room");
        let (words, tables, lists) = lists::lend(slices(&mut self.written));
        let tables = self.structs.tables.put_struct(tables, flush);
        let lists = self.structs.lists.put_struct(lists, flush);
        let length = dinglefork::pool(self.file.as_slice(), words, tables, lists, out);
        if length > TEXT {
            return Err(format!("the text's length is {length}, over {TEXT}"));
        }
        let (text, rest) = self.out.as_slice().split_at(length);
        match rest.iter().all(|&byte| byte == FILLER) {
            true => Ok(text),
            false => Err("bytes after the text are overwritten".to_string()),
        }
    }

    /// The text of a refusal; Err if its room is not zero behind it or bytes around it were written.
    pub fn refusal(&mut self, number: u32, flush: Flush) -> Result<&[u8], String> {
        self.refusal.put(&[0x3c; REFUSAL_TEXT], flush);
        let out = self.refusal.as_mut_slice().first_chunk_mut();
        let out = out.expect("the text's room");
        let length = dinglefork::refusal(number, out).len();
        let (text, rest) = self.refusal.as_slice().split_at(length);
        match rest.iter().all(|&byte| byte == 0) && self.refusal.rest_is_untouched() {
            true => Ok(text),
            false => Err("bytes behind a refusal's text are not as they should be".to_string()),
        }
    }

    pub fn command(&mut self, command: &Command, flush: Flush) -> Answer {
        self.put_written(&command.lent, flush);
        put_for_reading(&mut self.inputs, &command.inputs, flush);
        for (pages, tape) in self.tapes.iter_mut().zip(&command.tapes) {
            put_for_reading(pages, tape, flush);
        }
        let tape = |pages| Pages::as_slice(pages).into();
        let [provider, one, two, three] = self.tapes.each_ref().map(tape);
        let tapes = Tapes {
            provider,
            one,
            two,
            three,
        };
        let place = answers::place(command.place);
        let (_, tables, lists) = lists::lend(slices(&mut self.written));
        let place = self.structs.place.put_struct_for_reading(place, flush);
        let tables = self.structs.tables.put_struct(tables, flush);
        let tapes = self.structs.tapes.put_struct_for_reading(tapes, flush);
        let lists = self.structs.lists.put_struct(lists, flush);
        let inputs = self.inputs.as_slice();
        dinglefork::command(command.words, place, tables, inputs, tapes, lists)
    }

    fn put_written(&mut self, lent: &Lent, flush: Flush) {
        for (pages, list) in self.written.iter_mut().zip(lists::of(lent)) {
            pages.put(list, flush);
        }
    }

    /// Err with the first list in which, or around which, a word is not as expected, or if a struct
    /// of tables or lists is not as it was lent.
    pub fn compare(&self, expected: &Lent) -> Result<(), String> {
        if !self.structs_are_as_lent() {
            return Err("a struct, or bytes around it, are overwritten".to_string());
        }
        for (i, want) in lists::of(expected).into_iter().enumerate() {
            let pages = &self.written[i];
            lists::compare(i, pages.as_slice(), want, pages.rest_is_untouched())?;
        }
        Ok(())
    }

    /// The structs have all written lists but the words for a file, in the same order.
    fn structs_are_as_lent(&self) -> bool {
        let structs = [&self.structs.tables, &self.structs.lists];
        let got = structs.into_iter().flat_map(|pages| pages.as_slice());
        let lists = self.written[1..].iter().map(Pages::as_slice);
        let want = lists.flat_map(|list| [list.as_ptr() as usize, list.len()]);
        got.copied().eq(want) && structs.into_iter().all(Pages::rest_is_untouched)
    }
}

fn put_for_reading<T: Copy>(pages: &mut Pages<T>, content: &[T], flush: Flush) {
    pages.put(content, flush);
    pages.forbid_writing();
}

fn slices(pages: &mut [Pages<u32>; lists::COUNT]) -> [&mut [u32]; lists::COUNT] {
    pages.each_mut().map(Pages::as_mut_slice)
}
