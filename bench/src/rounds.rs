//! The UTF-8 check in rounds as one would write it in Rust: one pass over the text, the standard library alone.

/// Where the first bad sequence begins, if there is one, and the rounds.
pub fn check(text: &[u8]) -> (Option<usize>, usize) {
    let (mut at, mut rounds) = (0, 0);
    while at < text.len() {
        rounds += 1;
        if text.len() - at >= 8 && text[at..at + 8].is_ascii() {
            at += 8;
            continue;
        }
        match sequence(&text[at..]) {
            0 => return (Some(at), rounds),
            taken => at += taken,
        }
    }
    (None, rounds)
}

/// The bytes of the sequence that the text begins with, by table 3-7 of the Unicode Standard; 0 where it is bad.
fn sequence(text: &[u8]) -> usize {
    match *text {
        [..=0x7f, ..] => 1,
        [0xc2..=0xdf, 0x80..=0xbf, ..] => 2,
        [0xe0, 0xa0..=0xbf, 0x80..=0xbf, ..] => 3,
        [0xed, 0x80..=0x9f, 0x80..=0xbf, ..] => 3,
        [0xe1..=0xec | 0xee..=0xef, 0x80..=0xbf, 0x80..=0xbf, ..] => 3,
        [0xf0, 0x90..=0xbf, 0x80..=0xbf, 0x80..=0xbf, ..] => 4,
        [0xf1..=0xf3, 0x80..=0xbf, 0x80..=0xbf, 0x80..=0xbf, ..] => 4,
        [0xf4, 0x80..=0x8f, 0x80..=0xbf, 0x80..=0xbf, ..] => 4,
        _ => 0,
    }
}
