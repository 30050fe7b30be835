//! Nesting at and around the 64 that may be open at once.

use crate::random::Random;

/// What opens an E inside an E, and what closes it.
const NESTS: [(&str, &str); 14] = [
    ("(", ")"),
    ("[", "]"),
    ("{", "}"),
    ("t{", "}"),
    ("a(", ")"),
    ("a[", "]"),
    ("lambda:", ""),
    ("lambda a,b:", ""),
    ("(a,", ")"),
    ("{a:", "}"),
    ("[a,", ",]"),
    ("not(", ")"),
    ("-(", ").b"),
    ("(", ",)"),
];

/// Rows that open no E: they may be as long as they like.
const ROWS: [&str; 8] = ["not ", "- ", "+ ", "a+", "a<", "a or ", "a.b*", "a()()/"];

pub fn nested(random: &mut Random) -> Vec<u8> {
    let mut src = Vec::new();
    let total = if random.once_in(2) { random.between(60, 67) } else { random.between(1, 40) };
    let blocks = match random.below(4) {
        0 => random.below(total + 1),
        _ => 0,
    };
    for level in 0..blocks {
        src.extend(vec![b' '; 2 * level]);
        src.extend(random.pick(&["if a:\n", "while a:\n", "for a in b:\n", "def a():\n"]).bytes());
    }
    src.extend(vec![b' '; 2 * blocks]);
    if random.once_in(4) {
        src.extend(random.pick(&["if a: ", "a = ", "0.10 = ", "return ", "a; b, ", "for a in ", "a, = "]).bytes());
    }
    expression(random, &mut src, total - blocks);
    src.extend(random.pick(&["", "", "", "", ",", ", = a", ","]).bytes());
    if !random.once_in(4) {
        src.push(b'\n');
    }
    src
}

/// `depth` E inside one another, of one sort or of many.
fn expression(random: &mut Random, src: &mut Vec<u8>, depth: usize) {
    let one = random.once_in(2).then(|| random.below(NESTS.len()));
    let sorts = if random.once_in(3) { NESTS.len() } else { 6 };
    let mut closers = Vec::new();
    for _ in 0..depth {
        let (opener, closer) = NESTS[one.unwrap_or_else(|| random.below(sorts))];
        src.extend(opener.bytes());
        closers.push(closer);
    }
    if random.once_in(6) {
        let row = random.pick(&ROWS);
        src.extend(row.repeat(random.below(12)).bytes());
    }
    const LEAVES: [&str; 14] = ["a", "a", "a", "1", "0.10", "'s'", "()", "())", "[]", "{}", ")", "", "a b", "lambda: a"];
    const WIDE: [&str; 4] = ["\u{ac00}", "a\u{301}<\u{10400}", "if\u{e9}", "\u{b7}"];
    src.extend(if random.once_in(12) { random.pick(&WIDE) } else { random.pick(&LEAVES) }.bytes());
    if random.once_in(5) {
        closers.truncate(random.below(closers.len() + 1));
    }
    src.extend(closers.iter().rev().flat_map(|closer| closer.bytes()));
}
