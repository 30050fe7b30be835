//! Bytes, tokens and lines in no order.

use super::wide;
use crate::random::Random;

/// Every keyword and operator, with names, literals and what matches nothing.
#[rustfmt::skip]
pub const TOKENS: [&str; 86] = [
    "if", "elif", "else", "while", "for", "in", "def", "return", "and", "or", "not", "class", "break", "continue", "pass", "lambda", "None",
    "True", "False", "a", "b", "t", "t", "_x1", "name", "ifs", "is", "e5", "0", "1", "7", "-1", "+2", "007", "1.5", "2.0e3", "0.1E-2", "''",
    "'a'", "\"b\\n\"", "'\\q\\''", "\"\u{e9}\"", "+", "-", "*", "//", "/", "%", "==", "!=", "<", "<=", ">", ">=", "=", "(", ")", "[", "]", "{",
    "}", ":", ",", ";", ".", "(", ")", "[", "]", "{", "}", ":", ",", ",", ".", "a", "a", "1", "#c", "\r", "\t", "!", "\u{20ac}", "@", "\\", "'",
];

/// How many of them are words, which stand first, and how many may stand in a script.
pub const WORDS: usize = 28;
const PLAIN: usize = 78;

/// Openings of lines.
#[rustfmt::skip]
const STARTS: [&str; 12] = ["\n", "\n", "\n  ", "\n  ", "\n    ", "\n      ", "\n\n", "\n#c\n", "\n ", "\n   ", "\r\n", "\n\r  "];

/// Any bytes, of the telling ones or of all 256, in UTF-8 or nearly.
pub fn bytes(random: &mut Random) -> Vec<u8> {
    let length = random.between(1, 24);
    let (all, wide) = (random.once_in(4), random.once_in(8));
    let mut src = Vec::new();
    while src.len() < length {
        match random.below(8) {
            0 => src.extend(utf8(random)),
            1..=3 if wide => src.extend(wide::word(random).bytes()),
            _ if all => src.push(random.next() as u8),
            _ => src.push(random.byte_of(super::TELLING)),
        }
    }
    if random.once_in(3) {
        src.insert(0, b'"');
        src.push(b'"');
    }
    src
}

/// A sequence of two to four bytes at the borders of Unicode's table 3-7, sometimes cut off or wrong.
pub fn utf8(random: &mut Random) -> Vec<u8> {
    const LEADS: &[u8] = b"\xc0\xc1\xc2\xdf\xe0\xe1\xec\xed\xee\xef\xf0\xf1\xf3\xf4\xf5\xff";
    const TAILS: &[u8] = b"\x7f\x80\x8f\x90\x9f\xa0\xbf\xc0";
    let lead = random.byte_of(LEADS);
    let tails = if random.once_in(8) { random.below(4) } else { lead.leading_ones().saturating_sub(1).min(3) as usize };
    let inner = |random: &mut Random| if random.once_in(6) { random.byte_of(TAILS) } else { random.byte_of(&TAILS[1..7]) };
    std::iter::once(lead).chain((0..tails).map(|_| inner(random))).collect()
}

/// Tokens with blanks between or not, some line feeds among them.
pub fn tokens(random: &mut Random) -> Vec<u8> {
    let length = random.between(2, 30);
    let (blanks, feeds) = (random.between(1, 6), random.between(4, 20));
    let (plain, wide) = (random.once_in(2), random.once_in(8));
    let mut src = Vec::new();
    for _ in 0..length {
        let token = if plain { random.pick(&TOKENS[..PLAIN]) } else { random.pick(&TOKENS) };
        match random.below(6) {
            0 | 1 if wide && plain => src.extend(wide::name(random).bytes()),
            0 | 1 if wide => src.extend(wide::word(random).bytes()),
            _ => src.extend(token.bytes()),
        }
        if !random.once_in(blanks) || plain {
            src.push(b' ');
        }
        if random.once_in(feeds) {
            src.extend(random.pick(&STARTS).bytes());
        }
    }
    src
}

/// Lines of little, with every sort of opening: spaces, tabs, carriage returns, comments.
pub fn lines(random: &mut Random) -> Vec<u8> {
    #[rustfmt::skip]
    const BODIES: [&str; 20] = [
        "a", "a = 1", "if a:", "if a: b", "else:", "elif b:", "def f():", "class C:", "while a:", "for i in b:", "pass", "", "", "# c", "\r", "a;", "(",
        ")", "return a", "\"x\ny\"",
    ];
    #[rustfmt::skip]
    const WIDE: [&str; 10] = [
        "\u{ac00}", "\u{3b1} = \u{ac00}", "if \u{e9}:", "if\u{e9} = 1", "def \u{915}\u{94d}():", "for \u{627} in \u{3b1}:",
        "# \u{20ac}", "\u{feff}a", "\u{2028}", "a\u{a0}",
    ];
    const OPENINGS: [&str; 6] = ["\r", "\t", " \r ", "\r\t", "  \t", "\r  "];
    const WIDE_OPENINGS: [&str; 5] = ["\u{a0}", "\u{3000}", "\r\u{2028}", "\u{feff}", "\u{301}"];
    let wide = random.once_in(8);
    let mut src = Vec::new();
    let mut level = 0;
    for _ in 0..random.between(1, 12) {
        match random.below(16) {
            0 if wide && random.once_in(2) => src.extend(random.pick(&WIDE_OPENINGS).bytes()),
            0 => src.extend(random.pick(&OPENINGS).bytes()),
            1 => src.extend(vec![b' '; random.below(9)]),
            2..=4 if level > 0 => level -= random.between(1, level),
            _ => {}
        }
        src.extend(vec![b' '; 2 * level]);
        let body = if wide && random.once_in(2) { random.pick(&WIDE) } else { random.pick(&BODIES) };
        src.extend(body.bytes());
        if body.ends_with(':') && !random.once_in(8) {
            level += 1;
        }
        if !random.once_in(12) {
            src.push(b'\n');
        }
    }
    if random.once_in(4) {
        src.extend(vec![b' '; 2 * random.below(level + 2)]);
    }
    src
}

/// A literal or two at the borders of what is admitted, some in parentheses, some with another assigned to them.
pub fn literals(random: &mut Random) -> Vec<u8> {
    const BETWEEN: [&str; 8] = ["=", " = ", ", =", ",", ", ", "", ";", "\n"];
    const AT_THE_END: [&str; 5] = [",", ", ", "", ";", "\n"];
    let wide = random.once_in(8);
    let mut src = Vec::new();
    for left in (0..random.between(1, 3)).rev() {
        let around = if random.once_in(3) { random.between(1, 3) } else { 0 };
        src.extend((0..around).flat_map(|_| random.pick(&["(", "(", "( "]).bytes()));
        match random.below(4) {
            0 => int(random, &mut src),
            1 | 2 => float(random, &mut src),
            _ => string(random, &mut src),
        }
        src.extend((0..around).flat_map(|_| random.pick(&[")", ")", " )"]).bytes()));
        if wide {
            src.extend(random.pick(&["", "", ".", "e", "\n"]).bytes());
            src.extend(wide::word(random).bytes());
        }
        src.extend(if left == 0 { random.pick(&AT_THE_END) } else { random.pick(&BETWEEN) }.bytes());
    }
    src
}

fn digits(random: &mut Random, count: usize, src: &mut Vec<u8>) {
    src.extend((0..count).map(|_| b'0' + random.below(10) as u8));
}

fn int(random: &mut Random, src: &mut Vec<u8>) {
    src.extend(random.pick(&["", "", "-", "+", "- "]).bytes());
    src.extend(vec![b'0'; if random.once_in(6) { random.below(30) } else { 0 }]);
    match random.below(3) {
        0 => src.extend(((1u64 << 63) - 3 + random.below(6) as u64).to_string().bytes()),
        1 => src.extend((random.next() >> random.below(64)).to_string().bytes()),
        _ => {
            let count = random.between(1, 25);
            digits(random, count, src);
        }
    }
}

fn float(random: &mut Random, src: &mut Vec<u8>) {
    let places = if random.once_in(3) { random.below(26) } else { random.below(5) };
    if random.once_in(4) {
        // m near 2^53, the dot anywhere in it.
        let m = ((1u64 << 53) - 3 + random.below(6) as u64).to_string();
        let at = random.between(1, 15);
        src.extend(format!("{}.{}", &m[..at], &m[at..]).bytes());
    } else {
        let whole = random.between(1, 12);
        digits(random, whole, src);
        src.push(b'.');
        digits(random, places, src);
    }
    if random.once_in(2) {
        src.extend(random.pick(&["e", "E", "e-", "E+", "e+"]).bytes());
        let exponent = if random.once_in(8) { random.next() as usize } else { random.below(40) };
        src.extend(exponent.to_string().bytes());
    }
}

fn string(random: &mut Random, src: &mut Vec<u8>) {
    const PARTS: [&str; 18] = [
        "a",
        "bc",
        "\\n",
        "\\t",
        "\\r",
        "\\\\",
        "\\\"",
        "\\'",
        "\\q",
        "\\x41",
        "\\\u{e9}",
        "\u{20ac}",
        "\n",
        "\r",
        "#",
        "'",
        "\"",
        "\u{1f600}",
    ];
    let quote = random.byte_of(b"'\"");
    src.push(quote);
    for _ in 0..random.below(9) {
        src.extend(random.pick(&PARTS).bytes());
    }
    if random.once_in(20) {
        src.extend(b"\\\n");
    }
    src.push(quote);
}
