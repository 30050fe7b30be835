//! Characters beyond ASCII: names with them, and where they begin or continue none.

use super::soup::{TOKENS, WORDS};
use crate::random::Random;
use plain::classes::{BEGIN, CONTINUE};

/// Letters and strings that each do something in a name or beside one.
#[rustfmt::skip]
pub const TELLING: [&str; 39] = [
    "a", "t", "_", "E", "if", "0", "1", ".", "-", "=", "(", ")", "'", "\"", "\\", "#", " ", "\n", "\u{e9}", "\u{3b1}", "\u{ac00}",
    "\u{627}", "\u{915}", "\u{2118}", "\u{ff54}", "\u{10400}", "\u{301}", "\u{b7}", "\u{94d}", "\u{661}", "\u{ff11}", "\u{e0100}",
    "\u{a0}", "\u{20ac}", "\u{200d}", "\u{2028}", "\u{3000}", "\u{feff}", "\u{1f600}",
];

/// Names of one script or more; some are others when they are normalised.
#[rustfmt::skip]
const NAMES: [&str; 26] = [
    "\u{e9}", "a\u{e9}", "\u{e9}t\u{e9}_1", "\u{ac00}", "\u{c5ed}_4", "\u{ac70}\u{b9ac}", "\u{1100}\u{1161}\u{11a8}", "\u{3b1}",
    "\u{3b1}\u{3b2}\u{3c2}2", "\u{627}\u{644}\u{628}", "\u{627}\u{661}", "\u{915}\u{94d}\u{937}\u{93f}", "\u{e01}\u{e33}",
    "\u{5e9}\u{5b8}\u{5c1}", "e\u{301}", "_\u{b7}", "l\u{b7}l", "\u{2118}", "\u{212e}1", "\u{fb01}", "\u{ff54}",
    "\u{ff49}\u{ff46}", "\u{1d41a}", "\u{10400}\u{1d7d8}", "\u{20000}", "\u{30c6}\u{3099}\u{30fc}",
];

/// Characters that begin no name; some of them continue one.
#[rustfmt::skip]
const STRAYS: [char; 22] = [
    '\u{80}', '\u{85}', '\u{a0}', '\u{ad}', '\u{b2}', '\u{b7}', '\u{d7}', '\u{301}', '\u{37a}', '\u{661}', '\u{94d}', '\u{200b}',
    '\u{200d}', '\u{2028}', '\u{20ac}', '\u{3000}', '\u{feff}', '\u{ff0b}', '\u{ff11}', '\u{1f600}', '\u{e0100}', '\u{10ffff}',
];

/// Every character alone, and behind an `a`.
pub fn characters() -> impl Iterator<Item = Vec<u8>> {
    ('\0'..=char::MAX).flat_map(|c| [c.to_string().into_bytes(), format!("a{c}").into_bytes()])
}

/// One of the ranges' characters: often the first or the last.
fn of(random: &mut Random, ranges: &[(char, char)]) -> char {
    let (first, last) = ranges[random.below(ranges.len())];
    match random.below(4) {
        0 => first,
        1 => last,
        _ => char::from_u32(random.between(first as usize, last as usize) as u32).unwrap_or(first),
    }
}

/// The character before a range or behind it; it may belong to the other class.
fn beside(random: &mut Random, ranges: &[(char, char)]) -> char {
    let (first, last) = ranges[random.below(ranges.len())];
    let c = if random.once_in(2) { first as u32 - 1 } else { last as u32 + 1 };
    char::from_u32(c).unwrap_or(first)
}

/// Any character: at the edges of the classes, a stray, or one of all.
pub fn any(random: &mut Random) -> char {
    match random.below(8) {
        0 => of(random, &BEGIN),
        1 => of(random, &CONTINUE),
        2 => beside(random, &BEGIN),
        3 => beside(random, &CONTINUE),
        4 => char::from_u32(random.below(0x11_0000) as u32).unwrap_or('\u{e000}'),
        _ => STRAYS[random.below(STRAYS.len())],
    }
}

/// A name: one of those above, a keyword or another word with a character behind it, or any of the classes' characters.
pub fn name(random: &mut Random) -> String {
    let mut name = match random.below(6) {
        0 | 1 => return random.pick(&NAMES).to_string(),
        2 => random.pick(&TOKENS[..WORDS]).to_string(),
        3 => random.pick(&["a", "_", "t", "e", "E1"]).to_string(),
        _ => of(random, &BEGIN).to_string(),
    };
    for _ in 0..random.between(1, 4) {
        name.push(of(random, &CONTINUE));
    }
    name
}

/// A name, sometimes with any character before or behind it, or any character alone.
pub fn word(random: &mut Random) -> String {
    let c = any(random);
    match random.below(12) {
        0 => c.to_string(),
        1 => format!("{c}{}", name(random)),
        2 => format!("{}{c}", name(random)),
        _ => name(random),
    }
}

/// Names and literals with operators between, no blank where none is needed and sometimes where one is; now and then any
/// character.
pub fn names(random: &mut Random) -> Vec<u8> {
    #[rustfmt::skip]
    const JOINTS: [&str; 24] = [
        "+", "-", "*", "//", "%", "==", "!=", "<", ">=", " or ", " and ", " and not ", ".", ".", "=", ",", ";", "\n", "\r\n",
        "#\u{20ac}\n", "\t+", "", " ", "(",
    ];
    let strays = random.between(2, 30);
    let mut src = String::new();
    for number in 0..random.between(1, 7) {
        if number > 0 {
            src += random.pick(&JOINTS);
        }
        match random.below(12) {
            0 => {
                src += random.pick(&[
                    "1",
                    "-1",
                    "1.5",
                    "2.0e1",
                    "'\u{e9}'",
                    "\"\\\u{e9}\"",
                    "()",
                    "())",
                    "[]",
                    "if ",
                    "lambda:",
                    "for ",
                ])
            }
            1 => src += &format!("{}({})", name(random), name(random)),
            2 => src += &format!("[{},{}]", name(random), name(random)),
            _ => src += &name(random),
        }
        if random.once_in(strays) {
            src.push(any(random));
        }
    }
    src.into_bytes()
}
