//! The lent lists, and the parts of them that one command draws from and writes to.

use crate::engine::{Drawn, Place, Received, Tables};

/// Specification: Kinds.
pub const RING: u32 = 1;
pub const BIT_WORD: u32 = 2;

/// A result, or the number of the refusal.
pub type Checked<T> = Result<T, u32>;

/// All lists of a command.
pub struct Lent<'l> {
    pub tables: Table<'l>,
    pub inputs: &'l [u32],
    pub provider: &'l [u32],
    pub tapes: [&'l [u32]; 3],
    pub received: [&'l mut [u32]; 3],
    pub controller: &'l mut [u32],
}

/// Three share tables and the kind list.
pub struct Table<'l> {
    pub shares: [&'l mut [u32]; 3],
    pub kinds: &'l mut [u32],
}

/// The miners' next words, as many as a command draws: miners 2 and 3 always draw alike.
pub struct Draws<'l, const ONE: usize, const OTHERS: usize> {
    pub one: &'l [u32; ONE],
    pub two: &'l [u32; OTHERS],
    pub three: &'l [u32; OTHERS],
}

/// Room for the words that the miners receive: miners 2 and 3 always receive equally many.
pub struct Room<'l, const ONE: usize, const OTHERS: usize> {
    pub one: &'l mut [u32; ONE],
    pub two: &'l mut [u32; OTHERS],
    pub three: &'l mut [u32; OTHERS],
}

/// The N words from a position on.
pub fn next<const N: usize>(list: &[u32], at: usize) -> Option<&[u32; N]> {
    list.get(at..)?.first_chunk()
}

/// Room for N words from a position on.
pub fn next_mut<const N: usize>(list: &mut [u32], at: usize) -> Option<&mut [u32; N]> {
    list.get_mut(at..)?.first_chunk_mut()
}

impl<'l, const ONE: usize, const OTHERS: usize> Draws<'l, ONE, OTHERS> {
    /// Number 12 if a tape is too short.
    #[inline(always)]
    pub fn of(tapes: &[&'l [u32]; 3], drawn: &Drawn) -> Checked<Self> {
        Ok(Draws {
            one: next(tapes[0], drawn.one).ok_or(12u32)?,
            two: next(tapes[1], drawn.two).ok_or(12u32)?,
            three: next(tapes[2], drawn.three).ok_or(12u32)?,
        })
    }

    /// The k-th word of each miner, where miner 1 has drawn `ahead` more before.
    #[inline(always)]
    pub fn each(&self, ahead: usize, k: usize) -> [u32; 3] {
        [self.one[ahead + k], self.two[k], self.three[k]]
    }

    #[inline(always)]
    pub fn count(&self, drawn: &mut Drawn) {
        drawn.one += ONE;
        drawn.two += OTHERS;
        drawn.three += OTHERS;
    }
}

impl<'l, const ONE: usize, const OTHERS: usize> Room<'l, ONE, OTHERS> {
    /// Number 13 if a list is too short.
    #[inline(always)]
    pub fn of(lists: &'l mut [&mut [u32]; 3], received: &Received) -> Checked<Self> {
        let [one, two, three] = lists;
        Ok(Room {
            one: next_mut(one, received.one).ok_or(13u32)?,
            two: next_mut(two, received.two).ok_or(13u32)?,
            three: next_mut(three, received.three).ok_or(13u32)?,
        })
    }

    /// Each miner's words reach the next one, in order from the k-th received on; miners 2 and 3
    /// have received `ahead` more before.
    #[inline(always)]
    pub fn send_on<const N: usize>(&mut self, ahead: usize, k: usize, words: [[u32; 3]; N]) {
        for (i, [from_one, from_two, from_three]) in words.into_iter().enumerate() {
            self.one[k + i] = from_three;
            self.two[ahead + k + i] = from_one;
            self.three[ahead + k + i] = from_two;
        }
    }

    #[inline(always)]
    pub fn count(&self, received: &mut Received) {
        received.one += ONE;
        received.two += OTHERS;
        received.three += OTHERS;
    }
}

impl<'l> Table<'l> {
    #[inline(always)]
    pub fn of(tables: &'l mut Tables) -> Table<'l> {
        Table {
            shares: [&mut tables.share1, &mut tables.share2, &mut tables.share3],
            kinds: &mut tables.kinds,
        }
    }

    /// Whether the tables and the kind list are equally long.
    #[inline(always)]
    pub fn agree(&self) -> bool {
        self.shares
            .iter()
            .all(|table| table.len() == self.kinds.len())
    }

    /// The shares of an entry.
    #[inline(always)]
    pub fn shares_at(&self, entry: usize) -> [u32; 3] {
        [
            self.shares[0][entry],
            self.shares[1][entry],
            self.shares[2][entry],
        ]
    }

    /// Writes a new value.
    #[inline(always)]
    pub fn put(&mut self, place: &mut Place, kind: u32, shares: [u32; 3]) {
        let entry = place.handles;
        for (table, share) in self.shares.iter_mut().zip(shares) {
            table[entry] = share;
        }
        self.kinds[entry] = kind;
        place.handles = entry + 1;
    }
}

impl Lent<'_> {
    /// Number 4 unless lengths, place record and kinds are right. Specification: Table of refusals.
    #[inline(always)]
    pub fn check(&self, place: &Place) -> Checked<()> {
        if self.is_sound(place) {
            Ok(())
        } else {
            Err(4)
        }
    }

    #[inline(always)]
    fn is_sound(&self, place: &Place) -> bool {
        let (drawn, received) = (&place.drawn, &place.received);
        self.tables.agree()
            && place.inputs <= self.inputs.len()
            && drawn.provider <= self.provider.len()
            && drawn.one <= self.tapes[0].len()
            && drawn.two <= self.tapes[1].len()
            && drawn.three <= self.tapes[2].len()
            && received.one <= self.received[0].len()
            && received.two <= self.received[1].len()
            && received.three <= self.received[2].len()
            && received.controller <= self.controller.len()
            && self
                .tables
                .kinds
                .get(..place.handles)
                .is_some_and(are_kinds)
    }
}

/// Whether each kind is 1 or 2; without an early return, so that the loop is vectorised.
#[inline(always)]
fn are_kinds(kinds: &[u32]) -> bool {
    kinds
        .iter()
        .fold(0, |seen, kind| seen | kind.wrapping_sub(1))
        <= 1
}
