//! Tells whether standard input is UTF-8.
//!
//!     check
//!
//! It prints number, place and rounds, as include/tarbucket.h has them. examples/c/check.c does the same.
use std::io::{self, Read};
use tarbucket::utf8_error;

fn main() -> io::Result<()> {
    let mut text = Vec::new();
    io::stdin().read_to_end(&mut text)?;
    let found = utf8_error(&text);
    let (number, place) = found.place.map_or((0, 0), |place| (5, place));
    println!("{number} {place} {}", found.rounds);
    Ok(())
}
