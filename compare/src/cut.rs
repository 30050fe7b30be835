//! A cut script told from a wrong one (02, change 4): "Where 14 was given and the token is Eof" it is 15, "where it is a Newline or
//! Dedent met where only an expression or operand could stand" 16, and "14 remains for all else".
//!
//! Which tokens could stand is found by trying each: the descent gets past it or not. There the depth has no limit, since that is
//! asked by 13 alone.

use crate::descent::descend_to;
use crate::descent::expression::{begins_expression, begins_factor};
use crate::token::{Kind, Token};

/// The number for token `at`, which does not fit behind those before it.
pub fn number(src: &[u8], tokens: &[Token], at: usize) -> u32 {
    match tokens[at].kind {
        Kind::Eof => 15,
        Kind::Newline | Kind::Dedent if only_expression(src, &tokens[..at]) => 16,
        _ => 14,
    }
}

/// Whether each token that begins an F could stand behind these, and none that begins no E.
fn only_expression(src: &[u8], before: &[Token]) -> bool {
    let every = every_token(src.len());
    let src = [src, SPELT].concat();
    let mut list = before.to_vec();
    let mut can_stand = |token: &Token| {
        list.truncate(before.len());
        list.extend([*token, Token { kind: Kind::Eof, ..*token }]);
        let read = descend_to(u32::MAX, &src, &list);
        read.program.is_ok() || read.taken > before.len()
    };
    // From the back: closers stand there, and mostly one of them is it.
    every.iter().filter(|token| begins_factor(token.kind)).all(&mut can_stand)
        && !every.iter().rev().filter(|token| !begins_expression(token.kind)).any(&mut can_stand)
}

/// What stands behind the source for tokens that are tried: a name, the name `t`, and a string.
const SPELT: &[u8] = b"at''";

/// A token of each kind, and the name `t`, behind a source of `n` bytes.
fn every_token(n: usize) -> Vec<Token> {
    let token = |kind, from, to| Token { kind, start: (n + from) as u32, end: (n + to) as u32, value: 0 };
    let of_kind = |&kind: &Kind| match kind {
        Kind::Name => token(kind, 0, 1),
        Kind::Str => token(kind, 2, 4),
        _ => token(kind, 4, 4),
    };
    Kind::ALL.iter().map(of_kind).chain([token(Kind::Name, 1, 2)]).collect()
}
