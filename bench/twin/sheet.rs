//! The session sheet: numbers 1 to 4, and a file's words.

/// The fewest words that a caller lends for the file's. Specification: Sessions.
const LENT_WORDS: usize = 7_692;
/// Most words of each body, in the order of the contents. Specification: Limits.
const LIMITS: [usize; 6] = [384, 128, 256, 2_304, 2_304, 2_304];

/// Where the six bodies start; the last number is where the last one ends.
pub type Bounds = [usize; 7];

/// The bodies' bounds, or the number of the refusal.
#[inline(always)]
pub fn bounds(file: &[u8], tables_agree: bool, lent_words: usize) -> Result<Bounds, u32> {
    let Some(contents) = file.first_chunk::<48>() else {
        return Err(1);
    };
    if file.len() % 4 != 0 {
        return Err(1);
    }
    let word = |i: usize| {
        let bytes = [0, 1, 2, 3].map(|byte| contents[4 * i + byte]);
        u32::from_le_bytes(bytes) as usize
    };
    let mut bounds = [12; 7];
    for body in 0..6 {
        if word(2 * body) != bounds[body] {
            return Err(2);
        }
        bounds[body + 1] = bounds[body] + word(2 * body + 1);
    }
    if bounds[6] != file.len() / 4 {
        return Err(2);
    }
    let over = (0..6).any(|body| bounds[body + 1] - bounds[body] > LIMITS[body]);
    if over || (bounds[1] - bounds[0]) % 3 != 0 {
        return Err(3);
    }
    if !tables_agree || lent_words < LENT_WORDS {
        return Err(4);
    }
    Ok(bounds)
}

/// Puts the file's words at the front of the lent ones.
#[inline(always)]
pub fn decode(file: &[u8], words: &mut [u32]) {
    let (quads, _) = file.as_chunks();
    for (word, bytes) in words[..quads.len()].iter_mut().zip(quads) {
        *word = u32::from_le_bytes(*bytes);
    }
}
