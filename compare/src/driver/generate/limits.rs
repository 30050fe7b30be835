//! Sources at the longest length, and slices shorter or longer than their areas.

use super::script;
use crate::random::Random;
use crate::sides::Case;
use plain::LONGEST;

/// What a long source is filled with.
#[rustfmt::skip]
const FILL: [&str; 30] = [
    " ", "\n", "a\n", "a;", "(", "a+", "- ", "not ", "a.b", "1,", "1,\n", "a,;", "a,=b,;", "'x'\n", "#", "if a: b\n", "a<", "\u{e9}", "-", "\r", "pass\n", "{a:", "f()[a]\n",
    "\u{ac00}", "\u{ac00}\n", "\u{e9}+", "\u{2118}.", "\u{10400}", "e\u{301},", "a\u{20ac}",
];

/// A source of 65,536 bytes, or a few more or less.
pub fn long(random: &mut Random) -> Vec<u8> {
    let length = match random.below(4) {
        0 => LONGEST + random.between(1, 3),
        1 => LONGEST - random.below(4),
        _ => LONGEST,
    };
    let mut src = if random.once_in(2) { scripts(random, length) } else { random.pick(&FILL).repeat(length).into_bytes() };
    src.truncate(length);
    if random.once_in(2) {
        let at = random.between(length - 3, length - 1);
        src[at] = random.byte_of(b"a\n) \"");
    }
    src
}

/// Scripts one behind another, then line feeds.
fn scripts(random: &mut Random, length: usize) -> Vec<u8> {
    let mut src = Vec::new();
    loop {
        let script = script::script(random);
        if src.len() + script.len() >= length {
            src.resize(length, b'\n');
            return src;
        }
        src.extend(script);
        src.push(b'\n');
    }
}

/// Mostly slices as long as their areas or longer; some shorter, some with no room for the answer.
pub fn with_lengths(random: &mut Random, src: Vec<u8>) -> Case {
    let mut longer = || if random.once_in(2) { 0 } else { random.below(16) as isize };
    let mut case = Case { tokens: longer(), text: longer(), tree: longer(), answer: 6 + longer() as usize, src };
    if random.once_in(48) {
        let mut shorter = || match random.below(6) {
            0 | 1 => -1,
            2 => -(random.below(case.src.len() * 16 + 20) as isize),
            _ => 0,
        };
        (case.tokens, case.text, case.tree) = (shorter(), shorter(), shorter());
    }
    if random.once_in(512) {
        case.answer = random.below(6);
    }
    case
}
