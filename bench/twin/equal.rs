//! Specification: Equal; Fold rounds.

use super::bit::{bit, last, last_mut};
use super::lent::{Draws, Room};
use super::masked::{and, mask};
use super::{each, Shares};

/// Round k: the positions that become an "and".
const HEADS: [u32; 5] = [
    0x5555_5555,
    0x1111_1111,
    0x0101_0101,
    0x0001_0001,
    0x0000_0001,
];

/// Miner 1 draws one word before the masks; miners 2 and 3 receive one more.
const DEALT: usize = 1;

/// Round K on p with its masks q; answers the new p and q.
#[inline(always)]
fn round<const K: usize>(
    (p, q): (Shares, Shares),
    draws: &Draws<10, 6>,
    room: &mut Room<11, 15>,
) -> (Shares, Shares) {
    let p = mask(p, q);
    let q = draws.each(DEALT, 1 + K);
    room.send_on(DEALT, 1 + 2 * K, [p, q]);
    let folded = and(p, p.map(|share| (share >> (1 << K)) & HEADS[K]));
    let p = each(p, folded, |p, folded| (p & !HEADS[K]) ^ folded);
    (p, q)
}

/// 1 if the words are equal, else 0.
#[inline(always)]
pub fn equal(u: Shares, v: Shares, draws: &Draws<10, 6>, room: &mut Room<11, 15>) -> Shares {
    let [d1, d2, d3] = each(u, v, u32::wrapping_sub);
    let r2 = draws.one[0];
    let r3 = d1.wrapping_sub(r2);
    room.two[0] = r2;
    room.three[0] = r3;
    let q = draws.each(DEALT, 0);
    room.send_on(DEALT, 0, [q]);
    let (e2, e3) = (d2.wrapping_add(r2), d3.wrapping_add(r3));
    let held = ([u32::MAX, e2, e3.wrapping_neg()], q);
    let held = round::<0>(held, draws, room);
    let held = round::<1>(held, draws, room);
    let held = round::<2>(held, draws, room);
    let held = round::<3>(held, draws, room);
    let (p, _) = round::<4>(held, draws, room);
    let (two, three) = (last_mut(room.two), last_mut(room.three));
    bit(p, 0, *last(draws.one), two, three)
}
