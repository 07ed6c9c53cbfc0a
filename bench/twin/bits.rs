//! Specification: Bits; Carry rounds; Below.

use super::bit::{bit, last, last_mut};
use super::lent::{Draws, Room};
use super::masked::{and, mask};
use super::{each, Shares};

/// Round k: the sources of other positions, and the positions whose bit k is clear.
const SOURCES: [u32; 5] = [
    0x5555_5555,
    0x2222_2222,
    0x0808_0808,
    0x0080_0080,
    0x0000_8000,
];
const CLEAR: [u32; 5] = [
    0x5555_5555,
    0x3333_3333,
    0x0f0f_0f0f,
    0x00ff_00ff,
    0x0000_ffff,
];

/// Miner 1 draws three words before the rounds' masks; miners 2 and 3 receive three more.
const DEALT: usize = 3;

/// The miners' shares before a round: p and s with their masks q and t.
struct Held {
    p: Shares,
    s: Shares,
    q: Shares,
    t: Shares,
}

/// The source's bit at each position that has a source in round K.
#[inline(always)]
fn spread<const K: usize>(word: u32) -> u32 {
    let sources = word & SOURCES[K];
    ((sources << (1 << K)) - sources) << 1
}

/// Round K; its shares of p and s and the next masks are sent on.
#[inline(always)]
fn round<const K: usize, const D: usize, const R: usize>(
    held: Held,
    draws: &Draws<D, 12>,
    room: &mut Room<22, R>,
) -> Held {
    let (p, s) = (mask(held.p, held.q), mask(held.s, held.t));
    let q = draws.each(DEALT, 2 + 2 * K);
    let t = draws.each(DEALT, 3 + 2 * K);
    room.send_on(DEALT, 2 + 4 * K, [p, s, q, t]);
    let carry = and(p, s.map(spread::<K>));
    let taken = and(p, p.map(spread::<K>));
    Held {
        p: each(p, taken, |p, taken| (p & CLEAR[K]) ^ taken),
        s: each(s, carry, |s, carry| s ^ carry),
        q,
        t,
    }
}

/// Miner 1's words; answers the shares of p and of s.
#[inline(always)]
fn deal<const R: usize>(
    [u1, u2, u3]: Shares,
    [r, r2, bar2]: [u32; 3],
    q: Shares,
    t: Shares,
    room: &mut Room<22, R>,
) -> (Shares, Shares) {
    let r3 = u1.wrapping_sub(r).wrapping_sub(r2);
    let bar3 = r ^ bar2;
    let (v2, v3) = (u2.wrapping_add(r2), u3.wrapping_add(r3));
    let [two, three] = [&mut *room.two, &mut *room.three].map(|list| &mut list[..5]);
    two.copy_from_slice(&[r2, bar2, q[0], t[0], v3]);
    three.copy_from_slice(&[r3, bar3, q[1], t[1], v2]);
    room.one[..2].copy_from_slice(&[q[2], t[2]]);
    let v = v2.wrapping_add(v3);
    ([0, v ^ bar2, bar3], [0, v & bar2, v & bar3])
}

/// Ring shares to bit shares of the same word.
#[inline(always)]
pub fn bits<const D: usize, const R: usize>(
    u: Shares,
    draws: &Draws<D, 12>,
    room: &mut Room<22, R>,
) -> Shares {
    let (q, t) = (draws.each(DEALT, 0), draws.each(DEALT, 1));
    let dealt = [draws.one[0], draws.one[1], draws.one[2]];
    let (p, s) = deal(u, dealt, q, t, room);
    let held = round::<0, D, R>(Held { p, s, q, t }, draws, room);
    let held = round::<1, D, R>(held, draws, room);
    let held = round::<2, D, R>(held, draws, room);
    let held = round::<3, D, R>(held, draws, room);
    let held = round::<4, D, R>(held, draws, room);
    each(held.s, p, |carries, sums| (carries << 1) ^ sums)
}

/// Bit 31 of the difference.
#[inline(always)]
pub fn below(u: Shares, v: Shares, draws: &Draws<18, 12>, room: &mut Room<22, 28>) -> Shares {
    let words = bits(each(u, v, u32::wrapping_sub), draws, room);
    let (two, three) = (last_mut(room.two), last_mut(room.three));
    bit(words, 31, *last(draws.one), two, three)
}
