//! Texts for the UTF-8 check alone, which is a call of its own.

use crate::source::Source;

/// What a text is made of, again and again.
const PARTS: [&str; 4] = ["a", "역", "kiosk 4역", "kiosk 4éα역"];

/// What stands at its end, and the number that it makes.
const ENDS: [(&[u8], u32); 4] = [(b"", 0), (b"\xff", 5), (b"\xed\xa0\x80", 5), (b"\xf0\x9f\x98", 5)];

/// The longest source's size, and more than any source has: the check takes texts of any length.
const SIZES: [usize; 2] = [65_536, 1_000_000];

pub fn each(visit: &mut dyn FnMut(Source)) {
    for size in SIZES {
        for part in PARTS {
            for (end, number) in ENDS {
                let times = size / part.len();
                let front = part.repeat(times);
                let place = if number == 0 { 0 } else { front.len() as u32 };
                let name = format!("{times} of `{part}`, then `{}`", end.escape_ascii());
                visit(Source {
                    sort: "UTF-8 check",
                    name,
                    text: [front.as_bytes(), end].concat(),
                    answer: (number, place),
                    levels: 0,
                });
            }
        }
    }
}
