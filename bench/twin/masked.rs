//! Parts of carry rounds and fold rounds.

use super::{each, previous, Shares};

/// Own and previous mask, by exclusive or.
#[inline(always)]
pub fn mask(shares: Shares, masks: Shares) -> Shares {
    let both = each(masks, previous(masks), |own, before| own ^ before);
    each(shares, both, |share, mask| share ^ mask)
}

/// Specification: Shared and.
#[inline(always)]
pub fn and(a: Shares, b: Shares) -> Shares {
    let either = each(b, previous(b), |own, before| own ^ before);
    let own = each(a, either, |a, b| a & b);
    let back = each(previous(a), b, |a, b| a & b);
    each(own, back, |own, back| own ^ back)
}
