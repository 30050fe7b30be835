//! One source and a slice of some length to both writers.

use crate::sides::{differ, same, Case, Difference, Sides, MARGIN, NO_ANSWER};
use plain::lent::{Lent, DIRT};
use plain::writer::{write, Wrote};
use plain::{read, Answer};
use std::panic::{catch_unwind, AssertUnwindSafe};
use std::ptr::slice_from_raw_parts_mut;

#[link(name = "ffi", kind = "static")]
extern "C" {
    fn tarbucket_write_source(
        src: *const u8,
        src_len: usize,
        tokens: *mut u32,
        tokens_len: usize,
        text: *mut u8,
        text_len: usize,
        tree: *mut u32,
        tree_len: usize,
        out: *mut u8,
        out_len: usize,
        answer: *mut u32,
        answer_len: usize,
    ) -> u32;
}

/// The words of an answer: the reader's six and the length.
const WORDS: usize = 7;

/// The library's answer to a source with slices as long as its areas and so many bytes lent for the text, and these.
pub fn written(src: &[u8], room: usize) -> (Wrote, Vec<u8>) {
    let (mut lent, mut out, mut answer) = (Lent::of(src), vec![DIRT; room], [0; WORDS]);
    let Lent { tokens, text, tree, .. } = &mut lent;
    // Each slice is as long as it says.
    let returned =
        unsafe { library(src, &raw mut tokens[..], &raw mut text[..], &raw mut tree[..], &raw mut out[..], &raw mut answer[..]) };
    let [number, place, .., length] = answer;
    assert_eq!(returned, number, "what is returned is the number");
    (Wrote { number, place, length }, out)
}

/// # Safety
/// Each slice is whole within what it points to.
unsafe fn library(src: &[u8], tokens: *mut [u32], text: *mut [u8], tree: *mut [u32], out: *mut [u8], answer: *mut [u32]) -> u32 {
    tarbucket_write_source(
        src.as_ptr(),
        src.len(),
        tokens.cast(),
        tokens.len(),
        text.cast(),
        text.len(),
        tree.cast(),
        tree.len(),
        out.cast(),
        out.len(),
        answer.cast(),
        answer.len(),
    )
}

impl Sides {
    /// Puts a case to both writers, with so many bytes lent for the text. Slices hold dirt before, and cells behind them are compared too.
    pub fn write(&mut self, case: &Case, room: usize) -> Result<(), Difference> {
        let reach = case.reach();
        for side in [&mut self.plain, &mut self.library] {
            side.soil(self.dirt, reach);
            side.soil_out(self.dirt, room + MARGIN);
        }
        let words = case.answer + 1;
        let due = if words < WORDS { NO_ANSWER } else { self.write_plain(case, room)? };
        let returned = self.write_library(case, room, words);
        let lent = |Difference(what)| Difference(format!("{room} bytes lent: {what}"));
        if returned != due {
            return differ(format!("{room} bytes lent: returned {returned}, not {due}"));
        }
        self.alike(reach).map_err(lent)?;
        same("out", &self.plain.out[..room + MARGIN], &self.library.out[..room + MARGIN]).map_err(lent)
    }

    /// The plain writer's turn. It is read before for the reader's counts, which its own answer has not; 17 and 18 keep them.
    fn write_plain(&mut self, case: &Case, room: usize) -> Result<u32, Difference> {
        let [tokens, text, tree] = case.lengths();
        let to = &mut self.plain;
        let (tokens, text, tree) = (&mut to.tokens[..tokens], &mut to.text[..text], &mut to.tree[..tree]);
        let work = || (read(&case.src, tokens, text, tree), write(&case.src, tokens, text, tree, &mut to.out[..room]));
        let made = catch_unwind(AssertUnwindSafe(work));
        let (answer, wrote) = made.map_err(|_| Difference("the plain writer panicked".to_string()))?;
        let Wrote { number, place, length } = wrote;
        to.answer[..6].copy_from_slice(&Answer { number, place, ..answer }.words());
        to.answer[6] = length;
        Ok(number)
    }

    fn write_library(&mut self, case: &Case, room: usize, words: usize) -> u32 {
        let ([tokens, text, tree], to) = (case.lengths(), &mut self.library);
        let (tokens, text) = (lent(&mut to.tokens, tokens), lent(&mut to.text, text));
        // Each slice is whole within its buffer: `soil` has just filled more than that.
        unsafe {
            library(&case.src, tokens, text, lent(&mut to.tree, tree), lent(&mut to.out, room), lent(&mut to.answer, words))
        }
    }
}

/// So many cells at the start of a buffer, of which all may be written.
fn lent<T>(buffer: &mut [T], length: usize) -> *mut [T] {
    slice_from_raw_parts_mut(buffer.as_mut_ptr(), length)
}
