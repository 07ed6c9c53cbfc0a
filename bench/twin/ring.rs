//! Specification: Store; Reshare; Multiply.

use super::lent::{Draws, Room};
use super::{each, previous, Shares};

#[inline(always)]
pub fn store(value: u32, [s1, s2]: [u32; 2], room: &mut Room<1, 1>) -> Shares {
    let s3 = value.wrapping_sub(s1).wrapping_sub(s2);
    *room.one = [s1];
    *room.two = [s2];
    *room.three = [s3];
    [s1, s2, s3]
}

/// Own mask added, the previous miner's subtracted.
#[inline(always)]
fn fresh(shares: Shares, masks: Shares) -> Shares {
    let added = each(shares, masks, u32::wrapping_add);
    each(added, previous(masks), u32::wrapping_sub)
}

#[inline(always)]
pub fn reshare(shares: Shares, draws: &Draws<1, 1>, room: &mut Room<1, 1>) -> Shares {
    let r = draws.each(0, 0);
    room.send_on(0, 0, [r]);
    fresh(shares, r)
}

#[inline(always)]
pub fn multiply(u: Shares, v: Shares, draws: &Draws<2, 2>, room: &mut Room<4, 4>) -> Shares {
    let (r, s) = (draws.each(0, 0), draws.each(0, 1));
    let (u, v) = (fresh(u, r), fresh(v, s));
    room.send_on(0, 0, [r, s, u, v]);
    let either = each(v, previous(v), u32::wrapping_add);
    let own = each(u, either, u32::wrapping_mul);
    let back = each(previous(u), v, u32::wrapping_mul);
    each(own, back, u32::wrapping_add)
}
