//! Specification: Bit.

use super::Shares;

/// One position of bit shares, with miner 1's draws and room for the words of miners 2 and 3.
#[inline(always)]
pub fn bit(
    shares: Shares,
    position: u32,
    [drawn_b, m12, drawn_b12]: [u32; 3],
    two: &mut [u32; 3],
    three: &mut [u32; 3],
) -> Shares {
    let [u1, u2, u3] = shares.map(|share| (share >> position) & 1);
    let (b, b12) = (drawn_b & 1, drawn_b12 & 1);
    let m13 = (b ^ u1).wrapping_sub(m12);
    let b13 = b ^ b12;
    let (s23, s32) = (b12 ^ u2, b13 ^ u3);
    *two = [m12, b12, s32];
    *three = [m13, b13, s23];
    if s23 == s32 {
        [0, m12, m13]
    } else {
        [0, 1u32.wrapping_sub(m12), m13.wrapping_neg()]
    }
}

/// The last N words of a list that has them.
#[inline(always)]
pub fn last<const N: usize>(words: &[u32]) -> &[u32; N] {
    words.last_chunk().expect("a list of at least N words")
}

/// The same to write to.
#[inline(always)]
pub fn last_mut<const N: usize>(words: &mut [u32]) -> &mut [u32; N] {
    words.last_chunk_mut().expect("a list of at least N words")
}
