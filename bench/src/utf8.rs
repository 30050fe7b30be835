//! The UTF-8 check alone: one pass of each side over texts, the answers held against each other, and the table.

use crate::sides::{Buffers, Side};
use crate::{rounds, times, Set};
use std::hint::black_box;

#[link(name = "ffi", kind = "static")]
extern "C" {
    fn tarbucket_utf8_error(src: *const u8, src_len: usize, answer: *mut u64, answer_len: usize) -> u32;
}

/// The library's check first, then the plain ones.
pub const CHECKS: [Side; 3] = [
    ("check, static library", pass_check),
    ("plain Rust, one loop of rounds", pass_rounds),
    ("std::str::from_utf8, no rounds", pass_from_utf8),
];

/// Place and rounds go to the answer; the number.
fn call(text: &[u8], answer: &mut [u64; 2]) -> u32 {
    // The text and the answer are as long as is said.
    unsafe { tarbucket_utf8_error(text.as_ptr(), text.len(), answer.as_mut_ptr(), answer.len()) }
}

#[no_mangle]
#[inline(never)]
pub fn pass_check(texts: &[Vec<u8>], _: &mut Buffers) {
    let mut answer = [7; 2];
    for text in texts {
        black_box(call(text, black_box(&mut answer)));
    }
}

#[no_mangle]
#[inline(never)]
pub fn pass_rounds(texts: &[Vec<u8>], _: &mut Buffers) {
    for text in texts {
        black_box(rounds::check(text).1);
    }
}

#[no_mangle]
#[inline(never)]
pub fn pass_from_utf8(texts: &[Vec<u8>], _: &mut Buffers) {
    for text in texts {
        black_box(std::str::from_utf8(text).is_ok());
    }
}

/// The rounds of a set's texts, each of which must be UTF-8; else a time would mean nothing.
fn rounds_of(set: &Set) -> usize {
    let of_text = |text: &Vec<u8>| {
        let (bad, rounds) = alike(text);
        assert_eq!(bad, None, "{}: not UTF-8", set.name);
        rounds
    };
    set.sources.iter().map(of_text).sum()
}

/// The bytes at the bounds of table 3-7's ranges, within and without.
#[rustfmt::skip]
const BOUNDS: [u8; 24] = [
    0x00, 0x7f, 0x80, 0x8f, 0x90, 0x9f, 0xa0, 0xbf, 0xc0, 0xc1, 0xc2, 0xdf, 0xe0, 0xe1, 0xec, 0xed, 0xee, 0xef, 0xf0, 0xf1, 0xf3, 0xf4, 0xf5, 0xff,
];

/// Four letters and every four of the bounds: a side that lets a bad sequence pass would be timed for too little.
fn alike_at_bounds() {
    for a in BOUNDS {
        for b in BOUNDS {
            for c in BOUNDS {
                for d in BOUNDS {
                    alike(&[b'h', b'a', b'l', b'l', a, b, c, d]);
                }
            }
        }
    }
}

/// The place of the first bad sequence and the rounds of a text, the same for compare's check, the loop and the library.
fn alike(text: &[u8]) -> (Option<usize>, usize) {
    let plain::utf8::Checked { bad, rounds } = plain::utf8::check(text);
    assert_eq!(rounds::check(text), (bad, rounds), "the loop's place and rounds: {text:02x?}");
    let mut answer = [7; 2];
    let number = call(text, &mut answer);
    let expected = (if bad.is_some() { 5 } else { 0 }, [bad.unwrap_or(0) as u64, rounds as u64]);
    assert_eq!((number, answer), expected, "the library's number, place and rounds: {text:02x?}");
    (bad, rounds)
}

/// Checks and times all texts, and prints a row for each set: ns per text of each side.
pub fn table(sets: &[Set], buffers: &mut Buffers) {
    alike_at_bounds();
    let rounds: Vec<usize> = sets.iter().map(rounds_of).collect();
    let sides = CHECKS.map(|side| format!(" {}: ns", side.0)).join(" |");
    println!("\n| UTF-8 check | bytes | rounds | {}: bytes per ns |{sides} |", CHECKS[0].0);
    println!("|---|---|---|---|{}", "---|".repeat(CHECKS.len()));
    for (set, rounds) in sets.iter().zip(rounds) {
        let (texts, best) = (set.sources.len(), times(set, buffers));
        let per_text: Vec<String> = best.iter().map(|ns| format!("{:.1}", ns / texts as f64)).collect();
        println!(
            "| {} | {} | {} | {:.2} | {} |",
            set.name,
            set.bytes() / texts,
            rounds / texts,
            set.bytes() as f64 / best[0],
            per_text.join(" | ")
        );
    }
}
