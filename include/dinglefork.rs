//! The three-miner pooling engine, from Rust: a module for any edition from 2018 on, with Rust 1.82
//! or later. Link with `-l static=dinglefork` or `-l dylib=dinglefork`; `tools/build dinglefork`
//! makes both.
//!
//! Three calls compute: [`command`] does one command, [`session`] the commands of a session file,
//! [`pool`] the same with the text of the program `pool`. Each does the work of all parties in the
//! lists that the caller lends, which may have any length and any content: the call answers them or
//! refuses them by number. Two more describe: [`refusal`] puts a refusal into words, [`version`]
//! gives the version. `dinglefork.h` beside this file says more of each call.
//!
//! [`Tables`], [`Tapes`] and [`Lists`] are left as they were, so that a caller fills them once for
//! many calls.
#![allow(dead_code)] // Nobody uses every name.

use core::fmt;
use core::marker::PhantomData;
use core::ops::{Deref, DerefMut};
use core::slice;

/// The version of this file. [`version`] is that of the library.
pub const VERSION: u32 = 10_000 * VERSION_MAJOR + 100 * VERSION_MINOR + VERSION_PATCH;
pub const VERSION_MAJOR: u32 = 0;
pub const VERSION_MINOR: u32 = 1;
pub const VERSION_PATCH: u32 = 0;
pub const VERSION_TEXT: &str = "0.1.0";

/// Words of a session file's contents, which it begins with.
pub const CONTENTS: usize = 12;
/// The same in bytes: the shortest session file.
pub const CONTENTS_BYTES: usize = 48;
/// Most commands of a session file.
pub const COMMANDS: usize = 128;
/// Most words of its commands, three for each.
pub const COMMAND_WORDS: usize = 384;
/// Most inputs of a session file.
pub const INPUTS: usize = 128;
/// Most words of the provider's tape in a session file.
pub const PROVIDER_TAPE: usize = 256;
/// Most words of each miner's tape in a session file.
pub const MINER_TAPE: usize = 2_304;
/// Most words of a session file; a session is lent as many.
pub const WORDS: usize = 7_692;
/// The same in bytes: the longest session file.
pub const BYTES: usize = 30_768;

/// Entries of each share table and the kind list that are enough for every session.
pub const ENTRIES: usize = 128;
/// Words of each received list that are enough for every session.
pub const RECEIVED: usize = 3_584;
/// Room for [`pool`]'s text, in bytes.
pub const TEXT: usize = 8_192;
/// Room for a refusal's text and a zero byte, in bytes.
pub const REFUSAL_TEXT: usize = 128;

/// The first word of a command. A command that makes a value fills the next handle with it, 1 being
/// the first.
pub mod code {
    /// 0, 0: the next input.
    pub const STORE: u32 = 1;
    /// Two handles: their sum.
    pub const ADD: u32 = 2;
    /// Two handles: the first less the second.
    pub const SUBTRACT: u32 = 3;
    /// A handle and a word: their sum.
    pub const ADD_CONSTANT: u32 = 4;
    /// A handle and a word: their product.
    pub const TIMES_CONSTANT: u32 = 5;
    /// Two handles: their product.
    pub const MULTIPLY: u32 = 6;
    /// A handle, 0: its value, in fresh shares.
    pub const RESHARE: u32 = 7;
    /// A handle, 0: its value as a bit word.
    pub const BITS: u32 = 8;
    /// A bit word's handle and a position, 0 to 31: that bit.
    pub const BIT: u32 = 9;
    /// Two handles: 1 if their values are equal, or 0.
    pub const EQUAL: u32 = 10;
    /// A handle, 0: makes no value; the controller learns it.
    pub const OPEN: u32 = 11;
    /// Two handles: bit 31 of the first less the second.
    pub const BELOW: u32 = 12;
}

/// What a handle holds, in the kind list.
pub mod kind {
    /// A ring value: the sum of its shares modulo 2^32.
    pub const RING: u32 = 1;
    /// A bit word: the exclusive or of its shares.
    pub const BIT_WORD: u32 = 2;
}

/// The number of an answer that is no refusal.
pub const ACCEPTED: u32 = 0;

/// Why a command or a session is refused. Of several that apply, the lowest is answered. It prints
/// as the library puts it: what is wrong, and what to do.
#[derive(Clone, Copy, Debug, PartialEq, Eq, PartialOrd, Ord, Hash)]
#[repr(u32)]
pub enum Refusal {
    /// The file is shorter than its contents or ends within a word.
    FileLength = 1,
    /// The bodies do not follow one another from the contents to the file's end.
    Contents = 2,
    /// A body is longer than its limit, or the last command is incomplete.
    Limit = 3,
    /// The lent lists do not fit: tables and kinds of unequal length, an unknown kind at a filled
    /// handle, a count of the place record past its list's end, or, for a session, fewer than
    /// [`WORDS`] words.
    Lent = 4,
    /// No command has this code.
    Code = 5,
    /// `a` or `b` is not used by the command and yet not 0.
    UnusedField = 6,
    /// `a` or `b` should be a filled handle and is not.
    Handle = 7,
    /// The handle holds a bit word where a ring value is due, or the other way round.
    Kind = 8,
    /// A word has no bit at this position.
    Position = 9,
    /// The tables have no entry left for the new value.
    TablesFull = 10,
    /// No input is left to store.
    InputsUsed = 11,
    /// A tape has too few words left for the command.
    TapeSpent = 12,
    /// A received list has too little room left for the command.
    ReceivedFull = 13,
}

impl Refusal {
    /// Every refusal, number 1 first.
    pub const ALL: [Refusal; 13] = [
        Refusal::FileLength,
        Refusal::Contents,
        Refusal::Limit,
        Refusal::Lent,
        Refusal::Code,
        Refusal::UnusedField,
        Refusal::Handle,
        Refusal::Kind,
        Refusal::Position,
        Refusal::TablesFull,
        Refusal::InputsUsed,
        Refusal::TapeSpent,
        Refusal::ReceivedFull,
    ];

    /// The refusal with this number; none for any other number, [`ACCEPTED`] among them.
    pub fn of_number(number: u32) -> Option<Refusal> {
        let all = Refusal::ALL.iter();
        all.copied().find(|refusal| refusal.number() == number)
    }

    pub fn number(self) -> u32 {
        self as u32
    }
}

impl fmt::Display for Refusal {
    fn fmt(&self, f: &mut fmt::Formatter<'_>) -> fmt::Result {
        f.pad(refusal(self.number(), &mut [0; REFUSAL_TEXT]))
    }
}

impl core::error::Error for Refusal {}

/// How many words of each tape are drawn.
#[repr(C)]
#[derive(Clone, Copy, Debug, Default, PartialEq, Eq)]
pub struct Drawn {
    pub provider: usize,
    pub one: usize,
    pub two: usize,
    pub three: usize,
}

/// How many words each party has received.
#[repr(C)]
#[derive(Clone, Copy, Debug, Default, PartialEq, Eq)]
pub struct Received {
    pub one: usize,
    pub two: usize,
    pub three: usize,
    pub controller: usize,
}

/// The place record: how far each lent list is used. The default, all zero, is the first.
#[repr(C)]
#[derive(Clone, Copy, Debug, Default, PartialEq, Eq)]
pub struct Place {
    pub handles: usize,
    pub inputs: usize,
    pub drawn: Drawn,
    pub received: Received,
}

/// The answer of a command.
#[repr(C)]
#[derive(Clone, Copy, Debug, PartialEq, Eq)]
pub struct Answer {
    /// 0, or the number of the refusal.
    pub number: u32,
    /// To be passed with the next command; as before if refused.
    pub place: Place,
    /// The word that an accepted open gives, otherwise 0.
    pub opened: u32,
}

impl Answer {
    pub fn refusal(&self) -> Option<Refusal> {
        Refusal::of_number(self.number)
    }
}

/// The answer of a session.
#[repr(C)]
#[derive(Clone, Copy, Debug, PartialEq, Eq)]
pub struct SessionAnswer {
    /// How many commands were done: the index, from 0, of a refused one.
    pub done: usize,
    /// After those commands.
    pub place: Place,
    /// 0, or the number of the refusal.
    pub number: u32,
}

impl SessionAnswer {
    pub fn refusal(&self) -> Option<Refusal> {
        Refusal::of_number(self.number)
    }
}

/// A lent list, which may be written: the slice that it is made from, as C takes it.
#[repr(C)]
pub struct List<'a> {
    words: *mut u32,
    length: usize,
    lent: PhantomData<&'a mut [u32]>,
}

// SAFETY: a list is the slice that it is made from, which may be sent and shared.
unsafe impl Send for List<'_> {}
unsafe impl Sync for List<'_> {}

impl<'a> From<&'a mut [u32]> for List<'a> {
    fn from(words: &'a mut [u32]) -> List<'a> {
        List {
            words: words.as_mut_ptr(),
            length: words.len(),
            lent: PhantomData,
        }
    }
}

impl Deref for List<'_> {
    type Target = [u32];

    fn deref(&self) -> &[u32] {
        // SAFETY: the pointer and length of a slice that this list alone has, borrowed with it.
        unsafe { slice::from_raw_parts(self.words, self.length) }
    }
}

impl DerefMut for List<'_> {
    fn deref_mut(&mut self) -> &mut [u32] {
        // SAFETY: as in `deref`.
        unsafe { slice::from_raw_parts_mut(self.words, self.length) }
    }
}

/// A lent list that is only read: the slice that it is made from, as C takes it.
#[repr(C)]
#[derive(Clone, Copy)]
pub struct Tape<'a> {
    words: *const u32,
    length: usize,
    lent: PhantomData<&'a [u32]>,
}

// SAFETY: as for `List`.
unsafe impl Send for Tape<'_> {}
unsafe impl Sync for Tape<'_> {}

impl<'a> From<&'a [u32]> for Tape<'a> {
    fn from(words: &'a [u32]) -> Tape<'a> {
        Tape {
            words: words.as_ptr(),
            length: words.len(),
            lent: PhantomData,
        }
    }
}

impl Deref for Tape<'_> {
    type Target = [u32];

    fn deref(&self) -> &[u32] {
        // SAFETY: the pointer and length of a slice that is lent to be read.
        unsafe { slice::from_raw_parts(self.words, self.length) }
    }
}

/// The share tables of miners 1 to 3 and the kind list; the entry at index 0 is handle 1's.
#[repr(C)]
pub struct Tables<'a> {
    pub share1: List<'a>,
    pub share2: List<'a>,
    pub share3: List<'a>,
    pub kinds: List<'a>,
}

/// The random words that the provider and miners 1 to 3 draw.
#[repr(C)]
#[derive(Clone, Copy)]
pub struct Tapes<'a> {
    pub provider: Tape<'a>,
    pub one: Tape<'a>,
    pub two: Tape<'a>,
    pub three: Tape<'a>,
}

/// The words that miners 1 to 3 and the controller receive.
#[repr(C)]
pub struct Lists<'a> {
    pub one: List<'a>,
    pub two: List<'a>,
    pub three: List<'a>,
    pub controller: List<'a>,
}

/// Does one command, of three words. An accepted one writes, from the place record's counts on, an
/// entry of the tables and the kind list if it makes a value, and the words that the parties
/// receive, and nothing else. A refused one writes nothing.
#[rustfmt::skip] // A pointer and its length on one line.
pub fn command(
    [code, a, b]: [u32; 3],
    place: &Place,
    tables: &mut Tables<'_>,
    inputs: &[u32],
    tapes: &Tapes<'_>,
    lists: &mut Lists<'_>,
) -> Answer {
    // SAFETY: each pointer, in the structs too, is a slice's, with that slice's length, or a
    // struct's; these are aligned and never null, and those that are written are borrowed for this
    // call alone. The structs are left with the same pointers and lengths.
    unsafe {
        dinglefork_command(
            code, a, b, place, tables,
            inputs.as_ptr(), inputs.len(),
            tapes, lists,
        )
    }
}

/// Does the commands of a session file in order, until one is refused. The file's words go to the
/// front of `words`, of which there are [`WORDS`] or more. Refusals 1 to 4 are of the session as a
/// whole: then nothing is written.
#[rustfmt::skip]
pub fn session(
    file: &[u8],
    words: &mut [u32],
    tables: &mut Tables<'_>,
    lists: &mut Lists<'_>,
) -> SessionAnswer {
    // SAFETY: as in `command`.
    unsafe {
        dinglefork_session(
            file.as_ptr(), file.len(),
            words.as_mut_ptr(), words.len(),
            tables, lists,
        )
    }
}

/// The same, and writes the text of the program `pool` to the front of `out`; answers the text's
/// length. A file over [`BYTES`] is not looked into: its text is the line `refused 3`.
#[rustfmt::skip]
pub fn pool(
    file: &[u8],
    words: &mut [u32],
    tables: &mut Tables<'_>,
    lists: &mut Lists<'_>,
    out: &mut [u8; TEXT],
) -> usize {
    // SAFETY: as in `command`; the text has its room.
    unsafe {
        dinglefork_pool(
            file.as_ptr(), file.len(),
            words.as_mut_ptr(), words.len(),
            tables, lists,
            out.as_mut_ptr(),
        )
    }
}

/// What a refusal says, written to the front of `out` with zero bytes behind it; empty for a number
/// that is no refusal's.
pub fn refusal(number: u32, out: &mut [u8; REFUSAL_TEXT]) -> &str {
    // SAFETY: the text has its room.
    let length = unsafe { dinglefork_refusal(number, out.as_mut_ptr()) };
    core::str::from_utf8(&out[..length]).unwrap_or_default()
}

/// The library's version, in the form of [`VERSION`].
pub fn version() -> u32 {
    dinglefork_version()
}

// The C interface: a slice is a pointer and then its length in elements, as a `List` is.
#[rustfmt::skip]
unsafe extern "C" {
    fn dinglefork_command(
        code: u32, a: u32, b: u32, place: *const Place, tables: *mut Tables<'_>,
        inputs: *const u32, inputs_length: usize,
        tapes: *const Tapes<'_>, lists: *mut Lists<'_>,
    ) -> Answer;

    fn dinglefork_session(
        file: *const u8, file_length: usize,
        words: *mut u32, words_length: usize,
        tables: *mut Tables<'_>, lists: *mut Lists<'_>,
    ) -> SessionAnswer;

    fn dinglefork_pool(
        file: *const u8, file_length: usize,
        words: *mut u32, words_length: usize,
        tables: *mut Tables<'_>, lists: *mut Lists<'_>,
        out: *mut u8,
    ) -> usize;

    fn dinglefork_refusal(number: u32, out: *mut u8) -> usize;

    safe fn dinglefork_version() -> u32;
}
