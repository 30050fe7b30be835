//! Many sources in one process, for written.py and cpython_write.py: those that they send, to a writer, and those that this driver
//! makes, to them. A source is its length, 4 bytes with the low one first, and its bytes.

use crate::generate::Generator;
use crate::written::nests;
use crate::{standard_input, Limits};
use plain::writer::Wrote;
use std::io::{BufWriter, Write};
use std::process::ExitCode;
use std::time::Instant;

/// From standard input the length of the slice that is lent and a source, until it ends. To standard output for each: number,
/// place and length of the answer, and the slice.
pub fn writes(write: impl Fn(&[u8], usize) -> (Wrote, Vec<u8>)) -> ExitCode {
    let input = standard_input();
    let mut rest = &input[..];
    put(|out| {
        while !rest.is_empty() {
            let [lent, length] = [word(&mut rest), word(&mut rest)];
            let (src, behind) = rest.split_at(length);
            rest = behind;
            let (Wrote { number, place, length }, slice) = write(src, lent);
            for word in [number, place, length] {
                out.write_all(&word.to_le_bytes())?;
            }
            out.write_all(&slice)?;
        }
        Ok(())
    })
}

fn word(rest: &mut &[u8]) -> usize {
    let (&word, behind) = rest.split_first_chunk().expect("four bytes");
    *rest = behind;
    u32::from_le_bytes(word) as usize
}

/// To standard output the sources that are nests.
pub fn nests() -> ExitCode {
    sources(nests::nests().map(String::into_bytes))
}

/// To standard output the sources of a run of the writer by itself, but the nests.
pub fn generated(limits: &Limits) -> ExitCode {
    let begun = Instant::now();
    let mut generator = Generator::by_turns(limits.seed);
    sources((0..).take_while(|&done| !limits.over(done, begun)).map(|_| generator.next().1.src))
}

fn sources(mut each: impl Iterator<Item = Vec<u8>>) -> ExitCode {
    put(|out| {
        each.try_for_each(|src| {
            out.write_all(&(src.len() as u32).to_le_bytes())?;
            out.write_all(&src)
        })
    })
}

fn put(write: impl FnOnce(&mut dyn Write) -> std::io::Result<()>) -> ExitCode {
    let mut out = BufWriter::new(std::io::stdout().lock());
    write(&mut out).and_then(|()| out.flush()).expect("standard output");
    ExitCode::SUCCESS
}
