//! The command machine: the table of commands, numbers 4 to 13, and what a command writes.

use super::protocols::{self, Parties, Party, Shares};

pub const STORE: u32 = 1;
pub const ADD: u32 = 2;
pub const SUBTRACT: u32 = 3;
pub const ADD_CONSTANT: u32 = 4;
pub const TIMES_CONSTANT: u32 = 5;
pub const MULTIPLY: u32 = 6;
pub const RESHARE: u32 = 7;
pub const BITS: u32 = 8;
pub const BIT: u32 = 9;
pub const EQUAL: u32 = 10;
pub const OPEN: u32 = 11;
pub const BELOW: u32 = 12;

/// Specification: Kinds.
pub const RING: u32 = 1;
pub const BIT_WORD: u32 = 2;

/// What a command's field a or b holds.
#[derive(Clone, Copy, PartialEq, Eq)]
pub enum Field {
    Unused,
    /// A handle of this kind.
    Handle(u32),
    Constant,
    Position,
}

/// A row of the table of commands.
pub struct Row {
    pub fields: [Field; 2],
    /// 0 where there is no new value.
    pub new_kind: u32,
    pub inputs: usize,
    /// Miners 1 to 3 and controller.
    pub received: [usize; 4],
    /// Provider and miners 1 to 3.
    pub drawn: [usize; 4],
}

/// Rows of codes 1 to 12. Specification: Table of commands.
pub const ROWS: [Row; 12] = {
    use Field::{Constant, Handle, Position, Unused};
    const A: Field = Handle(RING);
    const NONE: [usize; 4] = [0; 4];
    const BITS_AT: [Field; 2] = [Handle(BIT_WORD), Position];
    [
        /* store */ row([Unused, Unused], RING, [1, 1, 1, 0], [2, 0, 0, 0]),
        /* add */ row([A, A], RING, NONE, NONE),
        /* subtract */ row([A, A], RING, NONE, NONE),
        /* add constant */ row([A, Constant], RING, NONE, NONE),
        /* times constant */ row([A, Constant], RING, NONE, NONE),
        /* multiply */ row([A, A], RING, [4, 4, 4, 0], [0, 2, 2, 2]),
        /* reshare */ row([A, Unused], RING, [1, 1, 1, 0], [0, 1, 1, 1]),
        /* bits */ row([A, Unused], BIT_WORD, [22, 25, 25, 0], [0, 15, 12, 12]),
        /* bit */ row(BITS_AT, RING, [0, 3, 3, 0], [0, 3, 0, 0]),
        /* equal */ row([A, A], RING, [11, 15, 15, 0], [0, 10, 6, 6]),
        /* open */ row([A, Unused], 0, [1, 1, 1, 3], [0, 1, 1, 1]),
        /* below */ row([A, A], RING, [22, 28, 28, 0], [0, 18, 12, 12]),
    ]
};

/// Only store uses an input, and only store draws from the provider's tape, two words.
const fn row(fields: [Field; 2], new_kind: u32, received: [usize; 4], drawn: [usize; 4]) -> Row {
    Row {
        fields,
        new_kind,
        inputs: drawn[0] / 2,
        received,
        drawn,
    }
}

/// The row of a code, if a command has it.
pub fn row_of(code: u32) -> Option<&'static Row> {
    ROWS.get((code as usize).wrapping_sub(1))
}

/// Specification: Place record.
#[derive(Clone, Copy, Debug, Default, PartialEq, Eq)]
pub struct Place {
    pub handles: usize,
    pub inputs: usize,
    /// Provider and miners 1 to 3.
    pub drawn: [usize; 4],
    /// Miners 1 to 3 and controller.
    pub received: [usize; 4],
}

/// The lists that a caller lends to be written; only a session is lent words.
#[derive(Clone, Debug, PartialEq, Eq)]
pub struct Lent {
    pub words: Vec<u32>,
    pub shares: [Vec<u32>; 3],
    pub kinds: Vec<u32>,
    /// Miners 1 to 3 and controller.
    pub received: [Vec<u32>; 4],
}

/// The lists that are only read.
pub struct Bodies<'w> {
    pub inputs: &'w [u32],
    /// Provider and miners 1 to 3.
    pub tapes: [&'w [u32]; 4],
}

/// Specification: Answers.
#[derive(Clone, Copy, Debug, PartialEq, Eq)]
pub struct Answer {
    pub number: u32,
    pub place: Place,
    pub opened: u32,
}

/// One command; a refused one writes nothing. Specification: Accepted commands.
pub fn run_command(command: [u32; 3], bodies: &Bodies, place: Place, lent: &mut Lent) -> Answer {
    let number = refusal(command, bodies, place, lent);
    let opened = 0;
    if number != 0 {
        return Answer {
            number,
            place,
            opened,
        };
    }
    let mut parties = parties_at(bodies, place);
    let shares = run_steps(&mut parties, command, bodies, place, lent);
    accept(command, &parties, shares, place, lent)
}

// ---- refusals

/// Whether share tables and kind list are not of one length, for number 4.
pub fn lengths_differ(lent: &Lent) -> bool {
    let length = lent.kinds.len();
    lent.shares.iter().any(|table| table.len() != length)
}

/// Whether number 4 applies to a command.
fn badly_lent(bodies: &Bodies, place: Place, lent: &Lent) -> bool {
    let beyond = place.handles > lent.kinds.len()
        || place.inputs > bodies.inputs.len()
        || (0..4).any(|i| place.drawn[i] > bodies.tapes[i].len())
        || (0..4).any(|i| place.received[i] > lent.received[i].len());
    lengths_differ(lent)
        || beyond
        || lent.kinds[..place.handles]
            .iter()
            .any(|&kind| kind != RING && kind != BIT_WORD)
}

/// The lowest of numbers 4 to 13 that applies, 0 if none does.
/// Specification: Table of refusals; Order of refusals.
fn refusal(command: [u32; 3], bodies: &Bodies, place: Place, lent: &Lent) -> u32 {
    if badly_lent(bodies, place, lent) {
        return 4;
    }
    let Some(row) = row_of(command[0]) else {
        return 5;
    };
    let number = field_refusal(row, [command[1], command[2]], place, lent);
    if number != 0 {
        return number;
    }
    if row.new_kind != 0 && place.handles == lent.kinds.len() {
        return 10;
    }
    if place.inputs + row.inputs > bodies.inputs.len() {
        return 11;
    }
    if (0..4).any(|i| bodies.tapes[i].len() - place.drawn[i] < row.drawn[i]) {
        return 12;
    }
    if (0..4).any(|i| lent.received[i].len() - place.received[i] < row.received[i]) {
        return 13;
    }
    0
}

/// Numbers 6 to 9, each in both fields before the next.
fn field_refusal(row: &Row, words: [u32; 2], place: Place, lent: &Lent) -> u32 {
    let any = |breaks: &dyn Fn(Field, u32) -> bool| (0..2).any(|i| breaks(row.fields[i], words[i]));
    let filled = |handle: u32| handle != 0 && handle as usize <= place.handles;
    if any(&|field, word| field == Field::Unused && word != 0) {
        return 6;
    }
    if any(&|field, word| matches!(field, Field::Handle(_)) && !filled(word)) {
        return 7;
    }
    let wrong_kind = |field, word: u32| match field {
        Field::Handle(kind) => lent.kinds[word as usize - 1] != kind,
        _ => false,
    };
    if any(&wrong_kind) {
        return 8;
    }
    if any(&|field, word| field == Field::Position && word > 31) {
        return 9;
    }
    0
}

// ---- accepted commands

/// The parties with the rest of their tapes; nothing is received yet.
fn parties_at<'w>(bodies: &Bodies<'w>, place: Place) -> Parties<'w> {
    let [provider, one, two, three] = [0, 1, 2, 3].map(|i| Party {
        tape: &bodies.tapes[i][place.drawn[i]..],
        ..Party::default()
    });
    Parties {
        provider,
        miners: [one, two, three],
        controller: Party::default(),
    }
}

/// Runs the command's protocol; answers the shares of the new value, or those that were opened.
fn run_steps(
    parties: &mut Parties,
    [code, a, b]: [u32; 3],
    bodies: &Bodies,
    place: Place,
    lent: &Lent,
) -> Shares {
    let at = |handle: u32| [0, 1, 2].map(|i| lent.shares[i][handle as usize - 1]);
    match code {
        STORE => protocols::store(parties, bodies.inputs[place.inputs]),
        ADD => protocols::each(at(a), at(b), u32::wrapping_add),
        SUBTRACT => protocols::each(at(a), at(b), u32::wrapping_sub),
        ADD_CONSTANT => protocols::add_constant(at(a), b),
        TIMES_CONSTANT => protocols::each(at(a), [b; 3], u32::wrapping_mul),
        MULTIPLY => protocols::multiply(parties, at(a), at(b)),
        RESHARE => protocols::reshare(parties, at(a)),
        BITS => protocols::bits(parties, at(a)),
        BIT => protocols::bit(parties, at(a), b),
        EQUAL => protocols::equal(parties, at(a), at(b)),
        OPEN => protocols::open(parties, at(a)),
        BELOW => protocols::below(parties, at(a), at(b)),
        _ => unreachable!("number 5 was answered"),
    }
}

/// Writes the new value's entries and the received words, and moves the place record on.
/// Specification: Accepted commands.
fn accept(
    command: [u32; 3],
    parties: &Parties,
    shares: Shares,
    mut place: Place,
    lent: &mut Lent,
) -> Answer {
    let row = &ROWS[command[0] as usize - 1];
    let [one, two, three] = &parties.miners;
    let drawn = [&parties.provider, one, two, three].map(|party| party.drawn);
    let received = [one, two, three, &parties.controller].map(|party| &party.received);
    assert_eq!(drawn, row.drawn, "the table's drawn counts");
    assert_eq!(
        received.map(Vec::len),
        row.received,
        "the table's received counts"
    );
    for i in 0..4 {
        let start = place.received[i];
        lent.received[i][start..start + received[i].len()].copy_from_slice(received[i]);
        place.received[i] += received[i].len();
        place.drawn[i] += drawn[i];
    }
    place.inputs += row.inputs;
    let mut opened = 0;
    if row.new_kind == 0 {
        opened = protocols::ring_word(shares);
    } else {
        (0..3).for_each(|i| lent.shares[i][place.handles] = shares[i]);
        lent.kinds[place.handles] = row.new_kind;
        place.handles += 1;
    }
    Answer {
        number: 0,
        place,
        opened,
    }
}
