//! The protocols step by step, on parties that draw and receive words.
//! Specification: Order of words. The algorithms are those of report T-4-10.

/// One share for each of the miners 1 to 3.
pub type Shares = [u32; 3];

/// A party during one command: the rest of its tape, and the words that it receives.
#[derive(Default)]
pub struct Party<'t> {
    pub tape: &'t [u32],
    pub drawn: usize,
    pub received: Vec<u32>,
}

impl Party<'_> {
    /// The next word of the tape; it is there, else the command was refused before.
    fn draw(&mut self) -> u32 {
        let word = self.tape[self.drawn];
        self.drawn += 1;
        word
    }

    /// Specification: Draws.
    fn draw_bit(&mut self) -> u32 {
        self.draw() & 1
    }

    fn receive(&mut self, word: u32) {
        self.received.push(word);
    }
}

/// All parties; `miners[i]` is miner i + 1.
#[derive(Default)]
pub struct Parties<'t> {
    pub provider: Party<'t>,
    pub miners: [Party<'t>; 3],
    pub controller: Party<'t>,
}

impl Parties<'_> {
    /// Each miner draws a word and sends it to the next; answers the drawn words.
    fn draw_and_send_on(&mut self) -> Shares {
        let drawn = [0, 1, 2].map(|i| self.miners[i].draw());
        self.send_on(drawn);
        drawn
    }

    /// Each miner sends its word to the next.
    fn send_on(&mut self, words: Shares) {
        for i in 0..3 {
            self.miners[(i + 1) % 3].receive(words[i]);
        }
    }
}

/// For each miner the previous miner's word. Specification: Parties.
fn previous(words: Shares) -> Shares {
    [words[2], words[0], words[1]]
}

/// Combines the shares of each miner.
pub fn each(a: Shares, b: Shares, combine: fn(u32, u32) -> u32) -> Shares {
    [0, 1, 2].map(|i| combine(a[i], b[i]))
}

/// The word that ring shares combine to. Specification: Shares.
pub fn ring_word(shares: Shares) -> u32 {
    shares.into_iter().fold(0, u32::wrapping_add)
}

/// The word that bit shares combine to. Specification: Shares.
pub fn bit_word(shares: Shares) -> u32 {
    shares[0] ^ shares[1] ^ shares[2]
}

// ---- ring protocols

/// Specification: Store.
pub fn store(parties: &mut Parties, v: u32) -> Shares {
    let s1 = parties.provider.draw();
    let s2 = parties.provider.draw();
    let shares = [s1, s2, v.wrapping_sub(s1).wrapping_sub(s2)];
    for i in 0..3 {
        parties.miners[i].receive(shares[i]);
    }
    shares
}

/// Ring masking: own mask added, the previous miner's subtracted.
fn ring_mask(shares: Shares, masks: Shares) -> Shares {
    let added = each(shares, masks, u32::wrapping_add);
    each(added, previous(masks), u32::wrapping_sub)
}

/// Specification: Reshare.
pub fn reshare(parties: &mut Parties, s: Shares) -> Shares {
    let r = parties.draw_and_send_on();
    ring_mask(s, r)
}

/// Specification: Open.
pub fn open(parties: &mut Parties, s: Shares) -> Shares {
    let fresh = reshare(parties, s);
    for share in fresh {
        parties.controller.receive(share);
    }
    fresh
}

/// Specification: Multiply; report T-4-10, algorithm 1.
pub fn multiply(parties: &mut Parties, u: Shares, v: Shares) -> Shares {
    let r = parties.draw_and_send_on();
    let s = parties.draw_and_send_on();
    let u = ring_mask(u, r);
    let v = ring_mask(v, s);
    parties.send_on(u);
    parties.send_on(v);
    let own = each(u, v, u32::wrapping_mul);
    let one_back = each(u, previous(v), u32::wrapping_mul);
    let other_back = each(previous(u), v, u32::wrapping_mul);
    let sum = each(own, one_back, u32::wrapping_add);
    each(sum, other_back, u32::wrapping_add)
}

/// The constant is added once, to miner 1's share. Specification: Local commands.
pub fn add_constant(u: Shares, constant: u32) -> Shares {
    [u[0].wrapping_add(constant), u[1], u[2]]
}

// ---- bit protocols

/// Specification: Bit; report T-4-10, algorithm 3.
pub fn bit(parties: &mut Parties, words: Shares, position: u32) -> Shares {
    let u = words.map(|word| (word >> position) & 1);
    let [one, two, three] = &mut parties.miners;
    let b = one.draw_bit();
    let m12 = one.draw();
    let b12 = one.draw_bit();
    let m13 = (b ^ u[0]).wrapping_sub(m12);
    let b13 = b ^ b12;
    two.receive(m12);
    two.receive(b12);
    three.receive(m13);
    three.receive(b13);
    let s23 = b12 ^ u[1];
    let s32 = b13 ^ u[2];
    three.receive(s23);
    two.receive(s32);
    if s23 ^ s32 == 0 {
        [0, m12, m13]
    } else {
        [0, 1u32.wrapping_sub(m12), m13.wrapping_neg()]
    }
}

/// Bit masking, with own and previous mask; report T-4-10, algorithm 4, lines 14 and 15.
fn bit_mask(shares: Shares, masks: Shares) -> Shares {
    let own = each(shares, masks, |share, mask| share ^ mask);
    each(own, previous(masks), |share, mask| share ^ mask)
}

/// Specification: Shared and; report T-4-10, algorithm 4, line 22.
fn and(a: Shares, b: Shares) -> Shares {
    let (before_a, before_b) = (previous(a), previous(b));
    [0, 1, 2].map(|i| (a[i] & b[i]) ^ (a[i] & before_b[i]) ^ (before_a[i] & b[i]))
}

/// At each position that has a source, the source's bit; 0 elsewhere.
fn gather(word: u32, source: impl Fn(u32) -> Option<u32>) -> u32 {
    (0..32).fold(0, |gathered, position| match source(position) {
        Some(from) => gathered | ((word >> from) & 1) << position,
        None => gathered,
    })
}

/// The source of a position in carry round k, if its bit k is set. Specification: Carry rounds.
/// Report T-4-10, algorithm 4, lines 18 to 21: 2^k + 2^(k+1) m - 1.
fn carry_source(k: u32, position: u32) -> Option<u32> {
    let block = position >> (k + 1) << (k + 1);
    ((position >> k) & 1 == 1).then(|| block + (1 << k) - 1)
}

/// The source of a position in fold round k. Specification: Fold rounds.
/// Report T-4-10, algorithm 5, line 16.
fn fold_source(k: u32, position: u32) -> Option<u32> {
    (position % (1 << (k + 1)) == 0).then(|| position + (1 << k))
}

/// The shared "and" at the positions in `taken`; the others keep their shares.
fn and_where_taken(own: Shares, other: Shares, taken: u32) -> Shares {
    let product = and(own, other);
    [0, 1, 2].map(|i| (own[i] & !taken) | (product[i] & taken))
}

/// Answers the shares of s. Specification: Carry rounds; report T-4-10, algorithm 4, lines 13 to 21.
pub fn carry_rounds(
    parties: &mut Parties,
    masks: (Shares, Shares),
    mut p: Shares,
    mut s: Shares,
) -> Shares {
    let (mut q, mut t) = masks;
    for k in 0..5 {
        p = bit_mask(p, q);
        s = bit_mask(s, t);
        parties.send_on(p);
        parties.send_on(s);
        // After round 4 too, where nothing uses them.
        q = parties.draw_and_send_on();
        t = parties.draw_and_send_on();
        let source = |position| carry_source(k, position);
        let lower_s = s.map(|word| gather(word, source));
        let lower_p = p.map(|word| gather(word, source));
        // s before p: the new s depends on the old p.
        s = each(s, and(p, lower_s), |share, carry| share ^ carry);
        p = and_where_taken(p, lower_p, gather(u32::MAX, source));
    }
    s
}

/// Ring shares to bit shares of the same word. Specification: Bits; report T-4-10, algorithm 4,
/// lines 1 to 27.
pub fn bits(parties: &mut Parties, u: Shares) -> Shares {
    let [one, two, three] = &mut parties.miners;
    let r = one.draw();
    let r2 = one.draw();
    let bar_r2 = one.draw();
    let r3 = u[0].wrapping_sub(r).wrapping_sub(r2);
    let bar_r3 = r ^ bar_r2;
    two.receive(r2);
    two.receive(bar_r2);
    three.receive(r3);
    three.receive(bar_r3);
    let q = parties.draw_and_send_on();
    let t = parties.draw_and_send_on();
    let v2 = u[1].wrapping_add(r2);
    let v3 = u[2].wrapping_add(r3);
    parties.miners[2].receive(v2);
    parties.miners[1].receive(v3);
    let v = v2.wrapping_add(v3);
    let p = [0, v ^ bar_r2, bar_r3];
    let s = carry_rounds(parties, (q, t), p, [0, v & bar_r2, v & bar_r3]);
    each(s, p, |carry, sum| (carry << 1) ^ sum)
}

/// Answers the shares of p. Specification: Fold rounds; report T-4-10, algorithm 5, lines 11 to 16.
pub fn fold_rounds(parties: &mut Parties, mut q: Shares, mut p: Shares) -> Shares {
    for k in 0..5 {
        p = bit_mask(p, q);
        parties.send_on(p);
        q = parties.draw_and_send_on();
        let source = |position| fold_source(k, position);
        let upper = p.map(|word| gather(word, source));
        p = and_where_taken(p, upper, gather(u32::MAX, source));
    }
    p
}

/// Specification: Equal; report T-4-10, algorithm 5.
pub fn equal(parties: &mut Parties, u: Shares, v: Shares) -> Shares {
    let difference = each(u, v, u32::wrapping_sub);
    let [one, two, three] = &mut parties.miners;
    let r2 = one.draw();
    let r3 = difference[0].wrapping_sub(r2);
    two.receive(r2);
    three.receive(r3);
    let q = parties.draw_and_send_on();
    let e2 = difference[1].wrapping_add(r2);
    let e3 = difference[2].wrapping_add(r3);
    let p = fold_rounds(parties, q, [u32::MAX, e2, e3.wrapping_neg()]);
    bit(parties, p, 0)
}

/// Specification: Below.
pub fn below(parties: &mut Parties, u: Shares, v: Shares) -> Shares {
    let words = bits(parties, each(u, v, u32::wrapping_sub));
    bit(parties, words, 31)
}
