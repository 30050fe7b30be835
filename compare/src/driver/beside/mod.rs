//! The library's writer beside the plain one: each source and the same slices to both, then its text to both readers and both writers.

mod call;

use crate::sides::{differ, Case, Difference, Sides};
use crate::table::{run_table, Found, Judge};
use crate::Limits;
use plain::alike::{first_unlike, Source};
use plain::lent::Lent;
use plain::writer::{standard, EMPTY_BLOCK, TOO_LONG};
use plain::{Answer, LONGEST};
use std::panic::{catch_unwind, AssertUnwindSafe};
use std::process::ExitCode;

pub use call::written;

struct Beside(Sides);

pub fn run(limits: &Limits) -> ExitCode {
    run_table(limits, &mut Beside(Sides::new()))
}

impl Judge for Beside {
    /// Calls of the library's writer, and texts that were read back and written again.
    const COLUMNS: [&'static str; 2] = ["calls", "again"];

    fn turn(&mut self) {
        self.0.turn();
    }

    /// Both writers with each length of the slice. They write the same bytes, so the plain one's text is the library's.
    fn judge(&mut self, case: &Case) -> Result<Found, Difference> {
        let sides = &mut self.0;
        let mut first = Lent::with(&case.src, case.lengths());
        let answer = first.read();
        let text = if answer.number == 0 { text_of(&first)? } else { None };
        let number = match &text {
            None if answer.number == 0 => EMPTY_BLOCK,
            None => answer.number,
            Some(text) if text.len() > LONGEST => TOO_LONG,
            Some(_) => 0,
        };
        let rooms = rooms(&case.src, text.as_deref());
        for &room in &rooms {
            sides.write(case, room)?;
        }
        let again = number == 0 && case.answer >= Answer::default().words().len();
        if let (true, Some(text)) = (again, &text) {
            read_back(sides, &first, text)?;
        }
        let bytes = text.map_or(0, |text| text.len() as u64);
        Ok(Found { number, bytes, more: [rooms.len() as u64 + u64::from(again), u64::from(again)] })
    }
}

fn text_of(first: &Lent) -> Result<Option<Vec<u8>>, Difference> {
    catch_unwind(AssertUnwindSafe(|| standard(first.source()))).or_else(|_| differ("the plain writer panicked"))
}

/// How many bytes are lent: none, and as many as the text has, one less, one more and some more; of a text that is too long the most as
/// well. Where there is no text, none and as many as the source has.
fn rooms(src: &[u8], text: Option<&[u8]>) -> Vec<usize> {
    let length = text.map_or(src.len(), <[u8]>::len);
    let mut rooms = match text {
        None => vec![0, length],
        Some(_) => vec![0, length.saturating_sub(1), length, length + 1, length + 40],
    };
    if length > LONGEST {
        rooms.extend([LONGEST, LONGEST + 1]);
    }
    rooms.sort_unstable();
    rooms.dedup();
    rooms
}

/// "The text, read with room lent for its areas, is accepted with equal nodes in equal order"; "writing that again gives the same text":
/// by both readers and both writers.
fn read_back(sides: &mut Sides, first: &Lent, text: &[u8]) -> Result<(), Difference> {
    let case = Case::of(text.to_vec());
    let number = sides.compare(&case)?.answer.map_or(0, |answer| answer.number);
    if number != 0 {
        return differ(format!("refused by {number}: b\"{}\"", text.escape_ascii()));
    }
    let again = Source { src: text, text: &sides.library.text, tree: &sides.library.tree };
    if let Some(node) = first_unlike(first.source(), again) {
        return differ(format!("node {node} is another in b\"{}\"", text.escape_ascii()));
    }
    sides.write(&case, text.len())?;
    match &sides.library.out[..text.len()] {
        again if again == text => Ok(()),
        again => differ(format!("b\"{}\" is then b\"{}\"", text.escape_ascii(), again.escape_ascii())),
    }
}
