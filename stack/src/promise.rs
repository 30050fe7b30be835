//! What C and Rust are promised: the same numbers in the header and in the Rust crate.

const HEADER: &str = include_str!("../../include/tarbucket.h");
const BINDING: &str = include_str!("../../bindings/rust/src/lib.rs");

/// Of a call that reads or checks, and of one that writes: the bytes in the header, and in the crate.
pub fn promised() -> [[usize; 2]; 2] {
    let read = [number(HEADER, "#define TARBUCKET_STACK_BYTES "), number(BINDING, "pub const STACK: usize = ")];
    let write = [number(HEADER, "#define TARBUCKET_WRITE_STACK_BYTES "), number(BINDING, "pub const WRITE_STACK: usize = ")];
    [read, write]
}

/// The number right behind these words.
fn number(text: &str, words: &str) -> usize {
    let (_, behind) = text.split_once(words).unwrap_or_else(|| panic!("no {words}"));
    let digits: String = behind.chars().take_while(char::is_ascii_digit).collect();
    digits.parse().expect("a number")
}
