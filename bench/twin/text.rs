//! The text that `pool` prints. Specification: Lines.

use super::session;
use crate::engine::{Lists, SessionAnswer, Tables, TEXT};

/// In bytes. Specification: Program.
const LONGEST_FILE: usize = 30_768;
const OPEN: u32 = 11;

/// The session's text at the front of `out`; answers its length.
#[inline(never)]
pub fn pool(
    file: &[u8],
    words: &mut [u32],
    tables: &mut Tables,
    lists: &mut Lists,
    out: &mut [u8; TEXT],
) -> usize {
    let mut text = Text { out, length: 0 };
    if file.len() > LONGEST_FILE {
        text.line(b"refused", &[3]);
        return text.length;
    }
    let answer = session(file, words, tables, lists);
    text.report(&answer, words, &lists.controller);
    text.length
}

/// The room, and how much of it is filled.
struct Text<'o> {
    out: &'o mut [u8; TEXT],
    length: usize,
}

impl Text<'_> {
    #[inline(always)]
    fn put(&mut self, bytes: &[u8]) {
        let end = self.length + bytes.len();
        self.out[self.length..end].copy_from_slice(bytes);
        self.length = end;
    }

    /// A space and a number.
    #[inline(always)]
    fn number(&mut self, mut number: u32) {
        let digits = number.checked_ilog10().unwrap_or(0) as usize + 1;
        let end = self.length + 1 + digits;
        let field = &mut self.out[self.length..end];
        field[0] = b' ';
        for digit in field[1..].iter_mut().rev() {
            *digit = b'0' + (number % 10) as u8;
            number /= 10;
        }
        self.length = end;
    }

    /// A word and numbers.
    #[inline(always)]
    fn line(&mut self, name: &[u8], numbers: &[u32]) {
        self.put(name);
        for &number in numbers {
            self.number(number);
        }
        self.put(b"\n");
    }

    /// The lines of a session.
    fn report(&mut self, answer: &SessionAnswer, words: &[u32], controller: &[u32]) {
        let (done, received) = (answer.done as u32, &answer.place.received);
        if (1..=4).contains(&answer.number) {
            return self.line(b"refused", &[answer.number]);
        }
        self.opens(&words[12..12 + 3 * answer.done], controller);
        if answer.number != 0 {
            self.put(b"refused");
            self.number(answer.number);
            return self.line(b" at", &[done]);
        }
        let [one, two, three, last] = [
            received.one,
            received.two,
            received.three,
            received.controller,
        ]
        .map(|count| count as u32);
        self.line(b"end", &[done, one, two, three, last]);
    }

    /// A line for each open; the controller has received three shares for it.
    #[inline(always)]
    fn opens(&mut self, commands: &[u32], controller: &[u32]) {
        let mut opened = controller.chunks_exact(3);
        for command in commands.chunks_exact(3) {
            if command[0] == OPEN {
                let shares = opened.next().unwrap_or_default();
                let word = shares
                    .iter()
                    .fold(0, |sum: u32, &share| sum.wrapping_add(share));
                self.line(b"open", &[command[1], word]);
            }
        }
    }
}
