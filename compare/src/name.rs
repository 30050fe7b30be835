//! The characters of names: XID_Start or underscore first, XID_Continue behind.

use crate::classes::{BEGIN, CONTINUE};

/// The length in bytes of the name at the head; 0 where none begins there.
pub fn length(rest: &str) -> usize {
    match rest.chars().next() {
        Some(first) if begins(first) => rest.find(|c| !continues(c)).unwrap_or(rest.len()),
        _ => 0,
    }
}

/// Whether a name begins with it.
pub fn begins(c: char) -> bool {
    match c {
        'a'..='z' | 'A'..='Z' | '_' => true,
        '\0'..='\x7f' => false,
        _ => within(&BEGIN, c),
    }
}

/// Whether a name goes on with it.
pub fn continues(c: char) -> bool {
    match c {
        'a'..='z' | 'A'..='Z' | '0'..='9' | '_' => true,
        '\0'..='\x7f' => false,
        _ => within(&CONTINUE, c),
    }
}

/// Whether a character is in one of the ranges, which ascend: in the last of those that don't begin behind it.
pub fn within(ranges: &[(char, char)], c: char) -> bool {
    let behind = ranges.partition_point(|&(first, _)| first <= c);
    ranges[..behind].last().is_some_and(|&(_, last)| c <= last)
}
