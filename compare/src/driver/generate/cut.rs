//! Scripts that end too soon, or whose line does.

use super::{deep, script};
use crate::random::Random;
use plain::scan::scan;
use plain::token::Kind;

/// A script, mostly a short one, cut behind one of its tokens or anywhere, and what stands there then.
pub fn cut(random: &mut Random) -> Vec<u8> {
    let src = match random.below(12) {
        0 => deep::nested(random),
        1 => script::script(random),
        _ => script::short(random),
    };
    let (before, rest) = src.split_at(place(random, &src));
    let mut out = before.to_vec();
    match random.below(16) {
        0..=3 => {}
        4..=9 => out.push(b'\n'),
        10..=12 => out.extend(random.pick(&ENDS).bytes()),
        13 | 14 => out.extend([b"\n", rest].concat()),
        _ => stray_dedent(random, &mut out),
    }
    out
}

/// Behind a token, more often one that wants another, or anywhere.
fn place(random: &mut Random, src: &[u8]) -> usize {
    let tokens = std::str::from_utf8(src).ok().and_then(|text| scan(text).ok());
    match tokens {
        Some(tokens) if !random.once_in(6) => {
            let mut token = tokens[random.below(tokens.len())];
            for _ in 0..4 {
                if !wants_another(token.kind) {
                    token = tokens[random.below(tokens.len())];
                }
            }
            token.end as usize
        }
        _ => random.below(src.len() + 1),
    }
}

/// Whether it is no operand, closer or end.
fn wants_another(kind: Kind) -> bool {
    use Kind::*;
    !matches!(
        kind,
        None | Bool | Int | Str | Name | Float | RParen | RBracket | RBrace | Semicolon | Indent | Dedent | Newline | Eof
    )
}

/// What follows the cut: blanks, comments and line ends, another line, and tokens that begin no expression.
const ENDS: [&str; 16] =
    [" ", "  ", " # why", "\r", "\r\n", " # why\n", "\t\n", "\n\n", "\nb\n", "\n  b\n", "\n(", ")", " ,\n", "]\n", ":", ";"];

/// A line that begins with a carriage return: behind its first token spaces are counted, so a Dedent may stand there.
fn stray_dedent(random: &mut Random, out: &mut Vec<u8>) {
    out.extend(b"\n\r");
    out.extend(random.pick(&["-", "+", "not", "return", "if", "while", "lambda", "(", "[", "a", "pass"]).bytes());
    out.extend(random.pick(&["", "a", "(a)\n", "  a\n", "'s'", "\n", ": a"]).bytes());
}
