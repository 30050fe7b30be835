//! One case put to the plain writer, and its text to the plain reader and writer again.

use super::form;
use crate::sides::{differ, Case, Difference};
use crate::table::Found;
use plain::alike::first_unlike;
use plain::lent::{Lent, DIRT};
use plain::scan::scan;
use plain::token::{Kind, Token};
use plain::writer::{standard, Wrote, EMPTY_BLOCK, TOO_LONG};
use plain::LONGEST;
use std::panic::{catch_unwind, AssertUnwindSafe};

/// What came of a case, or what is wrong; a panic is too.
pub fn judge(case: &Case) -> Result<Found, Difference> {
    catch_unwind(AssertUnwindSafe(|| judged(case))).unwrap_or_else(|_| differ("the plain writer panicked"))
}

fn judged(case: &Case) -> Result<Found, Difference> {
    let mut read = Lent::with(&case.src, case.lengths());
    let answer = read.read();
    if answer.number != 0 {
        let refused = Wrote { number: answer.number, place: answer.place, length: 0 };
        answered(case, 9, (refused, vec![DIRT; 9]))?;
        return Ok(Found { number: answer.number, ..Found::default() });
    }
    let tokens = tokens_of(&case.src)?;
    // By 01's indentation a block without a statement is no more than its Indent and Dedent.
    let empty_block = tokens.windows(2).any(|two| [two[0].kind, two[1].kind] == [Kind::Indent, Kind::Dedent]);
    match standard(read.source()) {
        None if empty_block => {
            refused(case, EMPTY_BLOCK, case.src.len())?;
            Ok(Found { number: EMPTY_BLOCK, ..Found::default() })
        }
        None => differ("17 where each block has a statement"),
        Some(_) if empty_block => differ("no 17 where a block has no statement"),
        Some(text) if text.len() > LONGEST => {
            refused(case, TOO_LONG, text.len())?;
            Ok(Found { number: TOO_LONG, bytes: text.len() as u64, more: [0; 2] })
        }
        Some(text) => {
            lengths(case, &text)?;
            read_back(&read, &text)
        }
    }
}

fn tokens_of(src: &[u8]) -> Result<Vec<Token>, Difference> {
    match std::str::from_utf8(src).map(scan) {
        Ok(Ok(tokens)) => Ok(tokens),
        _ => differ("scanned twice, refused once"),
    }
}

/// The writer's answer and slice with so many bytes lent, dirty before; the tree is as the reader leaves it.
fn answered(case: &Case, bytes: usize, due: (Wrote, Vec<u8>)) -> Result<(), Difference> {
    let (mut read, mut written) = (Lent::with(&case.src, case.lengths()), Lent::with(&case.src, case.lengths()));
    read.read();
    let made = written.write(bytes);
    if made != due {
        return differ(format!("{bytes} bytes lent: {:?}, not {:?}; b\"{}\"", made.0, due.0, made.1.escape_ascii()));
    }
    if (written.tokens, written.text, written.tree) != (read.tokens, read.text, read.tree) {
        return differ("areas other than the reader's");
    }
    Ok(())
}

/// 17 and 18 zero the slice.
fn refused(case: &Case, number: u32, bytes: usize) -> Result<(), Difference> {
    answered(case, bytes, (Wrote { number, place: 0, length: 0 }, vec![0; bytes]))
}

/// With as many bytes lent as the text has, or some more, it is written; with one less, 18.
fn lengths(case: &Case, text: &[u8]) -> Result<(), Difference> {
    let more = case.src.len() % 4;
    let wrote = Wrote { number: 0, place: 0, length: text.len() as u32 };
    answered(case, text.len() + more, (wrote, [text, &vec![0; more]].concat()))?;
    match text.len() {
        0 => Ok(()),
        length => refused(case, TOO_LONG, length - 1),
    }
}

/// "The text, read with room lent for its areas, is accepted with equal nodes in equal order"; "writing that again gives the same
/// text".
fn read_back(first: &Lent, text: &[u8]) -> Result<Found, Difference> {
    let show = || text.escape_ascii();
    let mut second = Lent::of(text);
    let answer = second.read();
    if answer.number != 0 {
        return differ(format!("refused by {} at {}: b\"{}\"", answer.number, answer.place, show()));
    }
    if let Some(node) = first_unlike(first.source(), second.source()) {
        return differ(format!("node {node} is another in b\"{}\"", show()));
    }
    match standard(second.source()) {
        Some(again) if again == text => {}
        again => return differ(format!("b\"{}\" is then {again:?}", show())),
    }
    let tokens = tokens_of(text)?;
    form::judge(text, &tokens).map_err(|Difference(what)| Difference(format!("b\"{}\": {what}", show())))?;
    let left_out = form::leave_out(second.source(), &tokens)?;
    let more = [left_out.unwrap_or(0), u64::from(left_out.is_none())];
    Ok(Found { number: 0, bytes: text.len() as u64, more })
}
