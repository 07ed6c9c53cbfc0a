//! The lists that are lent to be written, in the order in which they are passed.

use crate::dinglefork::{Lists, Tables};
use crate::reference::machine::Lent;

pub const COUNT: usize = 9;

const NAMES: [&str; COUNT] = [
    "the words",
    "share table 1",
    "share table 2",
    "share table 3",
    "the kind list",
    "received list 1",
    "received list 2",
    "received list 3",
    "the controller's list",
];

/// Those of the reference.
pub fn of(lent: &Lent) -> [&Vec<u32>; COUNT] {
    let [share1, share2, share3] = &lent.shares;
    let [received1, received2, received3, controller] = &lent.received;
    [
        &lent.words,
        share1,
        share2,
        share3,
        &lent.kinds,
        received1,
        received2,
        received3,
        controller,
    ]
}

/// In the form in which the library takes them.
pub fn lend(lists: [&mut [u32]; COUNT]) -> (&mut [u32], Tables<'_>, Lists<'_>) {
    let [words, share1, share2, share3, kinds, one, two, three, controller] = lists;
    let tables = Tables {
        share1: share1.into(),
        share2: share2.into(),
        share3: share3.into(),
        kinds: kinds.into(),
    };
    let lists = Lists {
        one: one.into(),
        two: two.into(),
        three: three.into(),
        controller: controller.into(),
    };
    (words, tables, lists)
}

/// The first word in which a list is not as expected, or that words beside it were written.
pub fn compare(list: usize, got: &[u32], want: &[u32], rest_untouched: bool) -> Result<(), String> {
    let name = NAMES[list];
    if !rest_untouched {
        return Err(format!("words about {name} are overwritten"));
    }
    match (0..want.len()).find(|&at| got[at] != want[at]) {
        Some(at) => {
            let (got, want) = (got[at], want[at]);
            Err(format!("{name}, entry {at}: {got}, expected {want}"))
        }
        None => Ok(()),
    }
}
