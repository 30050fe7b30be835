//! Writes a script back in its standard text.
//!
//!     write        (from standard input to standard output)
//!
//! A script that is not written is told on standard error, `no` with number and place, and the status is 1. examples/c/write.c does the same.
use std::io::{self, Read, Write};
use std::process::ExitCode;
use tarbucket::{Reader, LONGEST};

fn main() -> io::Result<ExitCode> {
    let mut src = Vec::new();
    io::stdin().take(LONGEST as u64 + 1).read_to_end(&mut src)?;
    let mut reader = Reader::new();
    match reader.write(&src) {
        Ok(text) => io::stdout().write_all(text)?,
        Err(e) => {
            eprintln!("no {} {}", e.number(), e.place());
            return Ok(ExitCode::FAILURE);
        }
    }
    Ok(ExitCode::SUCCESS)
}
