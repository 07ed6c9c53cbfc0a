//! One command on lists that number 4 does not apply to: numbers 5 to 13, then its protocol.

use super::lent::{next, next_mut, Checked, Draws, Lent, Room, BIT_WORD, RING};
use super::{bit, bits, each, equal, ring, Shares};
use crate::engine::Place;

/// The opened word (0 if nothing is opened) or the number of the refusal. Nothing is written before
/// the last check.
#[inline(always)]
pub fn step([code, a, b]: [u32; 3], place: &mut Place, lent: &mut Lent) -> Checked<u32> {
    let fields = [a, b];
    match code {
        1 => store(fields, place, lent)?,
        2 => local_pair(fields, place, lent, u32::wrapping_add)?,
        3 => local_pair(fields, place, lent, u32::wrapping_sub)?,
        4 => local(a, place, lent, |[u1, u2, u3]| [u1.wrapping_add(b), u2, u3])?,
        5 => local(a, place, lent, |u| u.map(|share| share.wrapping_mul(b)))?,
        6 => joint_pair(fields, place, lent, ring::multiply)?,
        7 => joint_single(fields, place, lent, RING, ring::reshare)?,
        8 => joint_single(fields, place, lent, BIT_WORD, bits::bits::<15, 25>)?,
        9 => bit_of(fields, place, lent)?,
        10 => joint_pair(fields, place, lent, equal::equal)?,
        11 => return open(fields, place, lent),
        12 => joint_pair(fields, place, lent, bits::below)?,
        _ => return Err(5),
    }
    Ok(0)
}

// ---- fields

/// Number 6 unless an unused field is 0.
#[inline(always)]
fn unused(field: u32) -> Checked<()> {
    if field == 0 {
        Ok(())
    } else {
        Err(6)
    }
}

/// The entry of a filled handle, or number 7.
#[inline(always)]
fn filled(handle: u32, place: &Place) -> Checked<usize> {
    let entry = (handle as usize).wrapping_sub(1);
    if entry < place.handles {
        Ok(entry)
    } else {
        Err(7)
    }
}

/// Number 8 unless the entry is of the kind.
#[inline(always)]
fn of_kind(entry: usize, kind: u32, lent: &Lent) -> Checked<()> {
    if lent.tables.kinds[entry] == kind {
        Ok(())
    } else {
        Err(8)
    }
}

/// Number 10 unless the tables have an entry left.
#[inline(always)]
fn has_entry(place: &Place, lent: &Lent) -> Checked<()> {
    if place.handles < lent.tables.kinds.len() {
        Ok(())
    } else {
        Err(10)
    }
}

/// The shares of two ring values.
#[inline(always)]
fn pair([a, b]: [u32; 2], place: &Place, lent: &Lent) -> Checked<[Shares; 2]> {
    let (a, b) = (filled(a, place)?, filled(b, place)?);
    of_kind(a, RING, lent)?;
    of_kind(b, RING, lent)?;
    Ok([lent.tables.shares_at(a), lent.tables.shares_at(b)])
}

/// The shares of one ring value, the other field being unused.
#[inline(always)]
fn single([a, b]: [u32; 2], place: &Place, lent: &Lent) -> Checked<Shares> {
    unused(b)?;
    let a = filled(a, place)?;
    of_kind(a, RING, lent)?;
    Ok(lent.tables.shares_at(a))
}

// ---- rows

#[inline(always)]
fn store([a, b]: [u32; 2], place: &mut Place, lent: &mut Lent) -> Checked<()> {
    unused(a | b)?;
    has_entry(place, lent)?;
    let value = *lent.inputs.get(place.inputs).ok_or(11u32)?;
    let drawn = *next(lent.provider, place.drawn.provider).ok_or(12u32)?;
    let mut room = Room::of(&mut lent.received, &place.received)?;
    let shares = ring::store(value, drawn, &mut room);
    room.count(&mut place.received);
    place.inputs += 1;
    place.drawn.provider += 2;
    lent.tables.put(place, RING, shares);
    Ok(())
}

/// Two operands, each miner on its own shares. Specification: Local commands.
#[inline(always)]
fn local_pair(
    handles: [u32; 2],
    place: &mut Place,
    lent: &mut Lent,
    combine: impl Fn(u32, u32) -> u32,
) -> Checked<()> {
    let [u, v] = pair(handles, place, lent)?;
    has_entry(place, lent)?;
    lent.tables.put(place, RING, each(u, v, combine));
    Ok(())
}

/// One operand and a word.
#[inline(always)]
fn local(
    handle: u32,
    place: &mut Place,
    lent: &mut Lent,
    change: impl Fn(Shares) -> Shares,
) -> Checked<()> {
    let u = single([handle, 0], place, lent)?;
    has_entry(place, lent)?;
    lent.tables.put(place, RING, change(u));
    Ok(())
}

/// A protocol of the three miners; its type has the counts of drawn and received words.
#[inline(always)]
fn joint<const D1: usize, const D: usize, const R1: usize, const R: usize>(
    place: &mut Place,
    lent: &mut Lent,
    kind: u32,
    protocol: impl FnOnce(&Draws<D1, D>, &mut Room<R1, R>) -> Shares,
) -> Checked<()> {
    has_entry(place, lent)?;
    let draws = Draws::of(&lent.tapes, &place.drawn)?;
    let mut room = Room::of(&mut lent.received, &place.received)?;
    let shares = protocol(&draws, &mut room);
    draws.count(&mut place.drawn);
    room.count(&mut place.received);
    lent.tables.put(place, kind, shares);
    Ok(())
}

/// Two operands for a protocol.
#[inline(always)]
fn joint_pair<const D1: usize, const D: usize, const R1: usize, const R: usize>(
    handles: [u32; 2],
    place: &mut Place,
    lent: &mut Lent,
    protocol: impl FnOnce(Shares, Shares, &Draws<D1, D>, &mut Room<R1, R>) -> Shares,
) -> Checked<()> {
    let [u, v] = pair(handles, place, lent)?;
    joint(place, lent, RING, |draws, room| protocol(u, v, draws, room))
}

/// One operand, the other field being unused.
#[inline(always)]
fn joint_single<const D1: usize, const D: usize, const R1: usize, const R: usize>(
    fields: [u32; 2],
    place: &mut Place,
    lent: &mut Lent,
    kind: u32,
    protocol: impl FnOnce(Shares, &Draws<D1, D>, &mut Room<R1, R>) -> Shares,
) -> Checked<()> {
    let u = single(fields, place, lent)?;
    joint(place, lent, kind, |draws, room| protocol(u, draws, room))
}

#[inline(always)]
fn bit_of([a, position]: [u32; 2], place: &mut Place, lent: &mut Lent) -> Checked<()> {
    let a = filled(a, place)?;
    of_kind(a, BIT_WORD, lent)?;
    if position > 31 {
        return Err(9);
    }
    let u = lent.tables.shares_at(a);
    joint(
        place,
        lent,
        RING,
        |draws: &Draws<3, 0>, room: &mut Room<0, 3>| {
            bit::bit(u, position, *draws.one, room.two, room.three)
        },
    )
}

#[inline(always)]
fn open(fields: [u32; 2], place: &mut Place, lent: &mut Lent) -> Checked<u32> {
    let u = single(fields, place, lent)?;
    let draws = Draws::of(&lent.tapes, &place.drawn)?;
    let mut room = Room::of(&mut lent.received, &place.received)?;
    let controller = next_mut(lent.controller, place.received.controller).ok_or(13u32)?;
    let fresh = ring::reshare(u, &draws, &mut room);
    *controller = fresh;
    draws.count(&mut place.drawn);
    room.count(&mut place.received);
    place.received.controller += 3;
    Ok(fresh.into_iter().fold(0, u32::wrapping_add))
}
