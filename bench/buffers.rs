//! The lists that are lent to both sides, and their calls on them.

use crate::engine::{self, Answer, Lists, Place, SessionAnswer, Tables, Tapes, TEXT};
use crate::reference::Lengths;
use crate::twin;

#[derive(Clone, Copy, Debug, PartialEq, Eq)]
pub enum Side {
    Engine,
    Twin,
}

pub const SIDES: [Side; 2] = [Side::Engine, Side::Twin];

impl Side {
    pub fn name(self) -> &'static str {
        match self {
            Side::Engine => "engine",
            Side::Twin => "twin",
        }
    }

    pub fn named(name: &str) -> Option<Side> {
        SIDES.into_iter().find(|side| side.name() == name)
    }
}

/// All lists; a session takes its inputs and tapes from its file instead.
#[derive(Clone, Debug, PartialEq, Eq)]
pub struct Buffers {
    pub words: Vec<u32>,
    pub shares: [Vec<u32>; 3],
    pub kinds: Vec<u32>,
    pub inputs: Vec<u32>,
    /// Provider, then miners 1 to 3.
    pub tapes: [Vec<u32>; 4],
    /// Miners 1 to 3, then controller.
    pub received: [Vec<u32>; 4],
    pub text: Box<[u8; TEXT]>,
}

impl Buffers {
    /// Lists of these lengths, each made by the caller's function; no inputs and no tapes.
    pub fn lend(lengths: &Lengths, list: impl FnMut(usize) -> Vec<u32>) -> Buffers {
        let lent = lengths.lend(list);
        Buffers {
            words: lent.words,
            shares: lent.shares,
            kinds: lent.kinds,
            inputs: Vec::new(),
            tapes: Default::default(),
            received: lent.received,
            text: Box::new([0; TEXT]),
        }
    }

    /// All lists in the form in which they are lent.
    #[inline(always)]
    pub fn lent(&mut self) -> Lent<'_> {
        let [share1, share2, share3] = self.shares.each_mut().map(|list| (&mut list[..]).into());
        let [provider, tape1, tape2, tape3] = self.tapes.each_ref().map(|list| (&list[..]).into());
        let [one, two, three, controller] = self.received.each_mut().map(|list| (&mut list[..]).into());
        Lent {
            words: &mut self.words,
            inputs: &self.inputs,
            tapes: Tapes {
                provider,
                one: tape1,
                two: tape2,
                three: tape3,
            },
            tables: Tables {
                share1,
                share2,
                share3,
                kinds: (&mut self.kinds[..]).into(),
            },
            lists: Lists {
                one,
                two,
                three,
                controller,
            },
            text: &mut self.text,
        }
    }
}

/// Lists lent once for many calls.
pub struct Lent<'l> {
    words: &'l mut [u32],
    inputs: &'l [u32],
    tapes: Tapes<'l>,
    tables: Tables<'l>,
    lists: Lists<'l>,
    text: &'l mut [u8; TEXT],
}

impl Lent<'_> {
    #[inline(always)]
    pub fn command(&mut self, side: Side, command: [u32; 3], place: &Place) -> Answer {
        let (tables, lists) = (&mut self.tables, &mut self.lists);
        match side {
            Side::Engine => engine::command(command, place, tables, self.inputs, &self.tapes, lists),
            Side::Twin => twin::command(command, place, tables, self.inputs, &self.tapes, lists),
        }
    }

    #[inline(always)]
    pub fn session(&mut self, side: Side, file: &[u8]) -> SessionAnswer {
        let (tables, lists) = (&mut self.tables, &mut self.lists);
        match side {
            Side::Engine => engine::session(file, self.words, tables, lists),
            Side::Twin => twin::session(file, self.words, tables, lists),
        }
    }

    #[inline(always)]
    pub fn pool(&mut self, side: Side, file: &[u8]) -> usize {
        let (tables, lists) = (&mut self.tables, &mut self.lists);
        match side {
            Side::Engine => engine::pool(file, self.words, tables, lists, self.text),
            Side::Twin => twin::pool(file, self.words, tables, lists, self.text),
        }
    }
}
