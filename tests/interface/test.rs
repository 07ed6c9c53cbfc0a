//! The calls through the safe Rust declarations: the worked session, an example of each refusal,
//! empty lists, and the texts of refusals. Valid in every edition from 2018 on.

#[path = "../../include/dinglefork.rs"]
mod dinglefork;

use dinglefork::{code, kind, Refusal, ACCEPTED, VERSION};
use dinglefork::{Answer, Drawn, Place, Received, SessionAnswer};
use dinglefork::{List, Lists, Tables, Tape, Tapes};
use dinglefork::{BYTES, ENTRIES, INPUTS as MOST_INPUTS, RECEIVED, REFUSAL_TEXT, TEXT, WORDS};
use std::mem::{offset_of, size_of};

/// What the lists hold before a call.
const FILLER: u32 = 0xa5a5_a5a5;

const STORE: [u32; 3] = [code::STORE, 0, 0];
const COMMANDS: [[u32; 3]; 4] = [STORE, STORE, [code::MULTIPLY, 1, 2], [code::OPEN, 3, 0]];
const INPUTS: [u32; 2] = [7, 5];
/// Of the provider and miners 1 to 3.
const TAPES: [&[u32]; 4] = [&[1, 2, 3, 4], &[10, 20, 70], &[30, 40, 80], &[50, 60, 90]];

/// Where the worked session ends.
const END: Place = Place {
    handles: 3,
    inputs: 2,
    drawn: Drawn {
        provider: 4,
        one: 3,
        two: 3,
        three: 3,
    },
    received: Received {
        one: 7,
        two: 7,
        three: 7,
        controller: 3,
    },
};

/// All lists that a call may write.
#[derive(Clone, PartialEq)]
struct Buffers {
    words: Vec<u32>,
    tables: [Vec<u32>; 4],
    lists: [Vec<u32>; 4],
}

impl Buffers {
    fn new(words: usize, entries: usize, received: usize) -> Buffers {
        let list = |length| vec![FILLER; length];
        Buffers {
            words: list(words),
            tables: [(); 4].map(|_| list(entries)),
            lists: [(); 4].map(|_| list(received)),
        }
    }

    /// Lists that are long enough for every session.
    fn ample() -> Buffers {
        Buffers::new(WORDS, ENTRIES, RECEIVED)
    }

    fn lend(&mut self) -> (&mut [u32], Tables<'_>, Lists<'_>) {
        let [share1, share2, share3, kinds] = lend_lists(&mut self.tables);
        let [one, two, three, controller] = lend_lists(&mut self.lists);
        let tables = Tables {
            share1,
            share2,
            share3,
            kinds,
        };
        let lists = Lists {
            one,
            two,
            three,
            controller,
        };
        (&mut self.words, tables, lists)
    }

    fn command(
        &mut self,
        command: [u32; 3],
        place: Place,
        inputs: &[u32],
        tapes: [&[u32]; 4],
    ) -> Answer {
        let (_, mut tables, mut lists) = self.lend();
        let [provider, one, two, three] = tapes.map(Tape::from);
        let tapes = Tapes {
            provider,
            one,
            two,
            three,
        };
        dinglefork::command(command, &place, &mut tables, inputs, &tapes, &mut lists)
    }

    fn session(&mut self, file: &[u8]) -> SessionAnswer {
        let (words, mut tables, mut lists) = self.lend();
        dinglefork::session(file, words, &mut tables, &mut lists)
    }

    fn pool(&mut self, file: &[u8]) -> String {
        let mut out = [0xa5; TEXT];
        let (words, mut tables, mut lists) = self.lend();
        let length = dinglefork::pool(file, words, &mut tables, &mut lists, &mut out);
        assert!(out[length..].iter().all(|&byte| byte == 0xa5));
        String::from_utf8(out[..length].to_vec()).expect("the text is plain")
    }
}

fn lend_lists(lists: &mut [Vec<u32>; 4]) -> [List<'_>; 4] {
    lists.each_mut().map(|list| list.as_mut_slice().into())
}

fn main() {
    layouts();
    lists_as_slices();
    worked_by_commands();
    worked_by_session();
    refused_commands();
    refused_files();
    empty_lists();
    texts();
    assert_eq!(dinglefork::version(), VERSION);
    println!("the Rust interface answers as it should");
}

fn layouts() {
    assert_eq!(size_of::<Place>(), 80);
    assert_eq!(offset_of!(Place, drawn.provider), 16);
    assert_eq!(offset_of!(Place, received.controller), 72);
    assert_eq!(size_of::<Answer>(), 96);
    assert_eq!(offset_of!(Answer, place), 8);
    assert_eq!(offset_of!(Answer, opened), 88);
    assert_eq!(size_of::<SessionAnswer>(), 96);
    assert_eq!(offset_of!(SessionAnswer, place), 8);
    assert_eq!(offset_of!(SessionAnswer, number), 88);
    assert_eq!(size_of::<Tables>(), 64);
    assert_eq!(offset_of!(Tables, share1), 0);
    assert_eq!(offset_of!(Tables, kinds), 48);
    assert_eq!(size_of::<Tapes>(), 64);
    assert_eq!(offset_of!(Tapes, provider), 0);
    assert_eq!(offset_of!(Tapes, three), 48);
    assert_eq!(size_of::<Lists>(), 64);
    assert_eq!(offset_of!(Lists, one), 0);
    assert_eq!(offset_of!(Lists, controller), 48);
}

/// A lent list is read and written as the slice that it is made from.
fn lists_as_slices() {
    let mut words = [1, 2, 3];
    let mut list = List::from(&mut words[..]);
    list[1] = 5;
    assert_eq!(list[..], [1, 5, 3]);
    assert_eq!(words, [1, 5, 3]);
    assert_eq!(Tape::from(&words[..])[..], words);
}

// ---- the worked session

/// Its words: each body's start and count, then the bodies.
fn worked_words() -> Vec<u32> {
    let commands = COMMANDS.concat();
    let [provider, one, two, three] = TAPES;
    let bodies = [&commands, &INPUTS[..], provider, one, two, three];
    let mut words = Vec::new();
    let mut start = 12;
    for body in &bodies {
        words.extend(&[start, body.len() as u32]);
        start += body.len() as u32;
    }
    words.extend(bodies.concat());
    words
}

fn bytes_of(words: &[u32]) -> Vec<u8> {
    words.iter().flat_map(|word| word.to_le_bytes()).collect()
}

/// What the worked session leaves, with the first word after it.
fn check_lists(buffers: &Buffers) {
    let [share1, share2, share3, kinds] = &buffers.tables;
    assert_eq!(share1[..4], [1, 3, 4_294_967_149, FILLER]);
    assert_eq!(share2[..4], [2, 4, 4_294_966_074, FILLER]);
    assert_eq!(share3[..4], [4, 4_294_967_294, 1_404, FILLER]);
    assert_eq!(kinds[..4], [1, 1, 1, FILLER]);
    let [one, two, three, controller] = &buffers.lists;
    assert_eq!(one[..8], [1, 3, 50, 60, 24, 18, 90, FILLER]);
    assert!(two[6] != FILLER && two[7] == FILLER);
    assert!(three[6] != FILLER && three[7] == FILLER);
    let opened = [4_294_967_129, 4_294_966_084, 1_414, FILLER];
    assert_eq!(controller[..4], opened);
}

fn worked_by_commands() {
    let mut buffers = Buffers::ample();
    let mut place = Place::default();
    for (command, opened) in COMMANDS.iter().zip(&[0, 0, 0, 35]) {
        let answer = buffers.command(*command, place, &INPUTS, TAPES);
        assert_eq!((answer.number, answer.opened), (ACCEPTED, *opened));
        assert_eq!(answer.refusal(), None);
        place = answer.place;
    }
    assert_eq!(place, END);
    check_lists(&buffers);
}

fn worked_by_session() {
    let words = worked_words();
    let mut buffers = Buffers::ample();
    let answer = buffers.session(&bytes_of(&words));
    assert_eq!((answer.done, answer.place), (4, END));
    assert_eq!((answer.number, answer.refusal()), (ACCEPTED, None));
    assert_eq!(buffers.words[..words.len()], words);
    assert_eq!(buffers.words[words.len()], FILLER);
    check_lists(&buffers);
    let mut buffers = Buffers::ample();
    let text = buffers.pool(&bytes_of(&words));
    assert_eq!(text, "open 3 35\nend 4 7 7 7 3\n");
    check_lists(&buffers);
}

// ---- refusals

/// The command, on two filled handles, is refused and changes nothing.
fn refuses(
    refusal: Refusal,
    command: [u32; 3],
    inputs: &[u32],
    tapes: [&[u32]; 4],
    buffers: &Buffers,
) {
    let place = Place {
        handles: 2,
        ..Place::default()
    };
    let mut after = buffers.clone();
    let answer = after.command(command, place, inputs, tapes);
    assert_eq!((answer.refusal(), answer.opened), (Some(refusal), 0));
    assert_eq!(answer.place, place);
    assert!(after == *buffers);
}

/// One example of each refusal of a command, on a ring value and a bit word.
fn refused_commands() {
    let mut lent = Buffers::new(0, 3, 30);
    lent.tables[3][..2].copy_from_slice(&[kind::RING, kind::BIT_WORD]);
    let of_lent = |refusal, command| refuses(refusal, command, &INPUTS, TAPES, &lent);
    of_lent(Refusal::Code, [0, 0, 0]);
    of_lent(Refusal::UnusedField, [code::STORE, 0, 7]);
    of_lent(Refusal::Handle, [code::ADD, 0, 1]);
    of_lent(Refusal::Kind, [code::OPEN, 2, 0]);
    of_lent(Refusal::Position, [code::BIT, 2, 32]);
    refuses(Refusal::InputsUsed, STORE, &[], TAPES, &lent);
    let [provider, one, _, three] = TAPES;
    let (reshare, tapes) = ([code::RESHARE, 1, 0], [provider, one, &[], three]);
    refuses(Refusal::TapeSpent, reshare, &INPUTS, tapes, &lent);
    let mut full = lent.clone();
    full.tables.iter_mut().for_each(|table| table.truncate(2));
    refuses(Refusal::TablesFull, STORE, &INPUTS, TAPES, &full);
    let mut short = lent.clone();
    short.lists[3].truncate(2);
    let open = [code::OPEN, 1, 0];
    refuses(Refusal::ReceivedFull, open, &INPUTS, TAPES, &short);
    lent.tables[3][0] = 3;
    refuses(Refusal::Lent, STORE, &INPUTS, TAPES, &lent);
}

/// The file is refused as a whole, and no list changes.
fn refuses_file(refusal: Refusal, file: &[u8], buffers: &Buffers) {
    let mut after = buffers.clone();
    let answer = after.session(file);
    assert_eq!((answer.done, answer.refusal()), (0, Some(refusal)));
    assert_eq!(answer.place, Place::default());
    assert!(after == *buffers);
    assert_eq!(after.pool(file), format!("refused {}\n", refusal.number()));
    assert!(after == *buffers);
}

fn refused_files() {
    let lent = Buffers::ample();
    let mut file = bytes_of(&worked_words());
    refuses_file(Refusal::FileLength, &file[..47], &lent);
    let word_too_few = Buffers::new(WORDS - 1, ENTRIES, RECEIVED);
    refuses_file(Refusal::Lent, &file, &word_too_few);
    file[0] = 13;
    refuses_file(Refusal::Contents, &file, &lent);
    let contents = [12, 0, 12, 129, 141, 0, 141, 0, 141, 0, 141, 0];
    let words = [&contents[..], &[0; MOST_INPUTS + 1]].concat();
    refuses_file(Refusal::Limit, &bytes_of(&words), &lent);
    assert_eq!(lent.clone().pool(&[0; BYTES + 1]), "refused 3\n");
}

// ---- empty lists

fn empty_lists() {
    let mut lent = Buffers::new(0, 0, 0);
    let tapes: [&[u32]; 4] = [&[]; 4];
    let store = lent.command(STORE, Place::default(), &[], tapes);
    assert_eq!(store.refusal(), Some(Refusal::TablesFull));
    assert_eq!(store.place, Place::default());
    let open = lent.command([code::OPEN, 1, 0], Place::default(), &[], tapes);
    assert_eq!(open.refusal(), Some(Refusal::Handle));
    assert_eq!(open.place, Place::default());
    refuses_file(Refusal::FileLength, &[], &lent);
    let contents = bytes_of(&[12, 0].repeat(6));
    assert_eq!(Buffers::new(WORDS, 0, 0).pool(&contents), "end 0 0 0 0 0\n");
}

// ---- texts of refusals

/// The text is the front of its room, and zero bytes fill the rest.
fn text_of(number: u32) -> String {
    let mut room = [0xa5; REFUSAL_TEXT];
    let text = dinglefork::refusal(number, &mut room).to_string();
    assert_eq!(room[..text.len()], *text.as_bytes());
    assert!(room[text.len()..].iter().all(|&byte| byte == 0));
    text
}

fn texts() {
    for number in (0..=300).chain(u32::MAX - 300..=u32::MAX) {
        let text = text_of(number);
        match Refusal::of_number(number) {
            Some(refusal) => {
                assert_eq!(refusal.number(), number);
                assert_eq!(refusal.to_string(), text);
                assert!(text.starts_with(&format!("refused {}: ", number)));
            }
            None => assert!(text.is_empty() && !(1..=13).contains(&number)),
        }
    }
    let numbers = Refusal::ALL.iter().map(|refusal| refusal.number());
    assert!(numbers.eq(1..=13));
}
