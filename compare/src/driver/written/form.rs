//! A written text judged by its tokens, without the tree or the writer: its blanks, lines and spellings by 02's sentence, and whether
//! a pair of parentheses or a trailing comma could be left out.

use crate::sides::{differ, Difference};
use plain::alike::{first_unlike, Source};
use plain::descent::expression::begins_expression;
use plain::lent::Lent;
use plain::token::{Kind, Token};

/// The most bytes that are read again for one text to try what could be left out.
const MOST_READ: usize = 1 << 14;

/// Blanks, lines and spellings.
pub fn judge(text: &[u8], tokens: &[Token]) -> Result<(), Difference> {
    let spaced = spaced(text, tokens);
    if spaced != text {
        return differ(format!("blanks, by its tokens: b\"{}\"", spaced.escape_ascii()));
    }
    for token in tokens {
        if !well_spelt(token, bytes(text, token)) {
            return differ(format!("spelling: b\"{}\"", bytes(text, token).escape_ascii()));
        }
    }
    for line in tokens.split_inclusive(|token| token.kind == Kind::Newline) {
        one_statement(line)?;
    }
    Ok(())
}

fn bytes<'a>(text: &'a [u8], token: &Token) -> &'a [u8] {
    &text[token.start as usize..token.end as usize]
}

/// The tokens with two spaces a level before each line and only the due spaces between.
fn spaced(text: &[u8], tokens: &[Token]) -> Vec<u8> {
    let mut out = Vec::new();
    let mut level = 0;
    let mut last = Kind::Newline;
    for token in tokens {
        let spaces = match (last, token.kind) {
            (_, Kind::Indent | Kind::Dedent | Kind::Eof) => 0,
            (Kind::Newline, _) => 2 * level,
            (last, next) => usize::from(space_between(last, next)),
        };
        match token.kind {
            Kind::Indent => level += 1,
            Kind::Dedent => level -= 1,
            kind => {
                out.resize(out.len() + spaces, b' ');
                out.extend(bytes(text, token));
                last = kind;
            }
        }
    }
    out
}

/// Whether a space stands between two tokens of a line.
fn space_between(last: Kind, next: Kind) -> bool {
    use Kind::*;
    match (last, next) {
        (_, Newline) | (Comma, RParen) => false,
        (Comma | Equal | Colon, _) | (_, Equal | In) => true,
        (If | Elif | While | For | In | Return | Def | Class | Lambda, next) => next != Colon,
        (last, next) => is_operator(last) || is_operator(next) && ends_operand(last),
    }
}

#[rustfmt::skip]
fn is_operator(kind: Kind) -> bool {
    use Kind::*;
    matches!(kind, And | Or | Not | Plus | Minus | Star | SlashSlash | Slash | Percent
        | EqualEqual | NotEqual | Less | LessEqual | Greater | GreaterEqual)
}

fn ends_operand(kind: Kind) -> bool {
    use Kind::*;
    matches!(kind, None | Bool | Int | Str | Name | Float | RParen | RBracket | RBrace)
}

/// "Ints the shortest digits", "Strings .. in double quotes" with five escapes, and no `;`.
fn well_spelt(token: &Token, bytes: &[u8]) -> bool {
    match token.kind {
        Kind::Int => bytes == (token.value as i64).to_string().as_bytes(),
        Kind::Semicolon => false,
        Kind::Str => {
            let mut inner = bytes[1..bytes.len() - 1].iter();
            while let Some(byte) = inner.next() {
                let good = match byte {
                    b'\\' => inner.next().is_some_and(|escaped| b"\\\"ntr".contains(escaped)),
                    byte => !b"\n\t\r".contains(byte),
                };
                if !good {
                    return false;
                }
            }
            bytes[0] == b'"'
        }
        _ => true,
    }
}

/// A line has something, is ended by a line feed, and has a block's colon only at its end.
fn one_statement(line: &[Token]) -> Result<(), Difference> {
    use Kind::*;
    let kinds: Vec<_> = line.iter().map(|token| token.kind).filter(|kind| !matches!(kind, Indent | Dedent | Eof)).collect();
    match kinds[..] {
        [] => Ok(()),
        [Newline] => differ("a line with nothing"),
        [If | Elif | Else | While | For | Def | Class, .., Colon, Newline] => Ok(()),
        [If | Elif | Else | While | For | Def | Class, ..] => differ("a block on the line of its colon"),
        [.., Newline] => Ok(()),
        _ => differ("a line without its line feed"),
    }
}

/// How many pairs of parentheses and trailing commas were left out, one at a time: the text must then be refused or have another
/// tree. None where that would be too much reading.
pub fn leave_out(written: Source, tokens: &[Token]) -> Result<Option<u64>, Difference> {
    let parts = parts(tokens);
    if parts.len() * written.src.len() > MOST_READ {
        return Ok(None);
    }
    for part in &parts {
        let left_out = |at: usize| part.iter().any(|&token| (tokens[token].start..tokens[token].end).contains(&(at as u32)));
        let shorter: Vec<u8> = (0..written.src.len()).filter(|&at| !left_out(at)).map(|at| written.src[at]).collect();
        let mut lent = Lent::of(&shorter);
        if lent.read().number == 0 && first_unlike(written, lent.source()).is_none() {
            return differ(format!("the same tree without a part of it: b\"{}\"", shorter.escape_ascii()));
        }
    }
    Ok(Some(parts.len() as u64))
}

/// The token numbers of what might be left out: parentheses around something that are no call's or def's, and trailing commas.
fn parts(tokens: &[Token]) -> Vec<Vec<usize>> {
    let kind = |at: usize| tokens[at].kind;
    let mut parts = Vec::new();
    let mut open = Vec::new();
    let mut at = 0;
    while kind(at) != Kind::Eof {
        let called = at > 0 && ends_operand(kind(at - 1));
        match (kind(at), kind(at + 1)) {
            // The empty tuple has a closer more.
            (Kind::LParen, Kind::RParen) if !called => at += 2,
            (Kind::LParen, _) => open.push((at, called)),
            (Kind::RParen, _) => {
                if let Some((opener, false)) = open.pop() {
                    parts.push(vec![opener, at]);
                }
            }
            (Kind::Comma, next) if !begins_expression(next) => parts.push(vec![at]),
            _ => {}
        }
        at += 1;
    }
    parts
}
