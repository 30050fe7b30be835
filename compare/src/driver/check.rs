//! One text put to both checks of UTF-8, and what they made of it.

use crate::sides::{differ, same, Difference, MOST, NO_ANSWER};
use plain::utf8::{check, Checked};

#[link(name = "ffi", kind = "static")]
extern "C" {
    fn tarbucket_utf8_error(src: *const u8, src_len: usize, answer: *mut u64, answer_len: usize) -> u32;
}

/// The words of an answer: place, rounds.
pub const WORDS: usize = 2;

/// The number of a text that is not UTF-8.
const NOT_UTF8: u32 = 5;

/// Words that are looked at, more than any answer's length.
const LOOKED_AT: usize = 32;

/// Bytes before and behind a text: a round's.
const AROUND: usize = 8;

pub struct Checks {
    pub plain: [u64; LOOKED_AT],
    pub library: [u64; LOOKED_AT],
    /// Holds the text, in each turn at another distance from a multiple of eight.
    room: Vec<u8>,
    turn: u64,
}

impl Checks {
    pub fn new() -> Checks {
        Checks { plain: [0; LOOKED_AT], library: [0; LOOKED_AT], room: vec![0; MOST + 3 * AROUND], turn: 1 }
    }

    /// From now on the text lies elsewhere, with other bytes around, and the answer holds other dirt before.
    pub fn turn(&mut self) {
        self.turn = self.turn.wrapping_add(1);
    }

    /// Compares number, place, rounds and the words behind them, with an answer of so many words. What the plain one found;
    /// none where fewer than two words must be refused.
    pub fn compare(&mut self, src: &[u8], words: usize) -> Result<Option<Checked>, Difference> {
        let dirt = self.turn.wrapping_mul(0x9e37_79b9_7f4a_7c15);
        self.plain.iter_mut().zip(0..).for_each(|(word, at)| *word = dirt.wrapping_add(at));
        self.library = self.plain;
        let found = (words >= WORDS).then(|| check(src));
        if let Some(Checked { bad, rounds }) = found {
            self.plain[..WORDS].copy_from_slice(&[bad.unwrap_or(0) as u64, rounds as u64]);
        }
        let returned = self.call(src, words, dirt);
        let due = found.map_or(NO_ANSWER, |found| if found.bad.is_some() { NOT_UTF8 } else { 0 });
        if returned != due {
            return differ(format!("the check returned {returned}, not {due}"));
        }
        same("the check's answer", &self.plain, &self.library)?;
        Ok(found)
    }

    /// The bytes around the text would be one round more, or go on with its last sequence: who looks at them is seen.
    fn call(&mut self, src: &[u8], words: usize, dirt: u64) -> u32 {
        let start = AROUND + (dirt >> 61) as usize;
        let end = start + src.len();
        let around = if dirt >> 60 & 1 == 0 { b'b' } else { 0x80 };
        self.room[start - AROUND..end + AROUND].fill(around);
        self.room[start..end].copy_from_slice(src);
        assert!(words <= LOOKED_AT);
        // The text lies within its room, and the answer has as many words.
        unsafe { tarbucket_utf8_error(self.room[start..end].as_ptr(), src.len(), self.library.as_mut_ptr(), words) }
    }
}
