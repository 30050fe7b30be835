//! The scanner: a text to tokens, with Eof last. Refusals 6 to 11.

use crate::literal;
use crate::name;
use crate::token::{Kind, Token};
use crate::Refused;

pub fn scan(src: &str) -> Result<Vec<Token>, Refused> {
    let scanner = Scanner { src, at: 0, counting: true, top: 0, tokens: Vec::with_capacity(src.len() / 3 + 4) };
    scanner.run()
}

/// `counting` is 01's flag, `top` the top of the levels 0, 2, 4 ...
struct Scanner<'a> {
    src: &'a str,
    at: usize,
    counting: bool,
    top: usize,
    tokens: Vec<Token>,
}

/// What matches at a place: kind, length, value.
type Match = (Kind, usize, u64);

impl Scanner<'_> {
    fn run(mut self) -> Result<Vec<Token>, Refused> {
        loop {
            if self.counting {
                self.indentation()?;
            }
            self.skip();
            let rest = &self.src[self.at..];
            if rest.is_empty() {
                break;
            }
            let (kind, length, value) = match_token(rest).map_err(|number| Refused { number, place: self.at as u32 })?;
            self.push(kind, self.at, self.at + length, value);
            self.at += length;
            if kind == Kind::Newline {
                self.counting = true;
            }
        }
        let end = self.src.len();
        for _ in 0..self.top / 2 {
            self.push(Kind::Dedent, end, end, 0);
        }
        self.push(Kind::Eof, end, end, 0);
        Ok(self.tokens)
    }

    fn push(&mut self, kind: Kind, start: usize, end: usize, value: u64) {
        self.tokens.push(Token { kind, start: start as u32, end: end as u32, value });
    }

    /// Counts spaces. Before line feed, carriage return or `#` the flag stays set and no level changes.
    fn indentation(&mut self) -> Result<(), Refused> {
        let start = self.at;
        let count = self.src.as_bytes()[start..].iter().take_while(|&&b| b == b' ').count();
        self.at += count;
        match self.src.as_bytes().get(self.at) {
            Some(b'\t') => return Err(Refused { number: 6, place: self.at as u32 }),
            Some(b'\n' | b'\r' | b'#') => return Ok(()),
            _ => self.counting = false,
        }
        if count > self.top {
            if count != self.top + 2 {
                return Err(Refused { number: 7, place: start as u32 });
            }
            self.push(Kind::Indent, start, self.at, 0);
        } else {
            if count % 2 != 0 {
                return Err(Refused { number: 8, place: start as u32 });
            }
            for _ in 0..(self.top - count) / 2 {
                self.push(Kind::Dedent, start, self.at, 0);
            }
        }
        self.top = count;
        Ok(())
    }

    /// Passes over space, tab, carriage return, and `#` up to a line feed.
    fn skip(&mut self) {
        let bytes = self.src.as_bytes();
        while let Some(byte) = bytes.get(self.at) {
            match byte {
                b' ' | b'\t' | b'\r' => self.at += 1,
                b'#' => self.at += bytes[self.at..].iter().take_while(|&&b| b != b'\n').count(),
                _ => return,
            }
        }
    }
}

/// The longest match at the head of a text that isn't empty; else the number of the question that says no.
fn match_token(text: &str) -> Result<Match, u32> {
    let rest = text.as_bytes();
    let second = rest.get(1).copied();
    let one = |kind| Ok((kind, 1, 0));
    let with_equal = |long, short| if second == Some(b'=') { Ok((long, 2, 0)) } else { one(short) };
    match rest[0] {
        b'a'..=b'z' | b'A'..=b'Z' | b'_' | 128..=255 => match_word(text),
        b'0'..=b'9' => match_number(rest),
        b'+' | b'-' if second.is_some_and(|b| b.is_ascii_digit()) => match_int(rest, 1 + digits(&rest[1..])),
        b'"' | b'\'' => match_string(rest),
        b'+' => one(Kind::Plus),
        b'-' => one(Kind::Minus),
        b'*' => one(Kind::Star),
        b'/' if second == Some(b'/') => Ok((Kind::SlashSlash, 2, 0)),
        b'/' => one(Kind::Slash),
        b'%' => one(Kind::Percent),
        b'!' if second == Some(b'=') => Ok((Kind::NotEqual, 2, 0)),
        b'=' => with_equal(Kind::EqualEqual, Kind::Equal),
        b'<' => with_equal(Kind::LessEqual, Kind::Less),
        b'>' => with_equal(Kind::GreaterEqual, Kind::Greater),
        b'(' => one(Kind::LParen),
        b')' => one(Kind::RParen),
        b'[' => one(Kind::LBracket),
        b']' => one(Kind::RBracket),
        b'{' => one(Kind::LBrace),
        b'}' => one(Kind::RBrace),
        b':' => one(Kind::Colon),
        b',' => one(Kind::Comma),
        b';' => one(Kind::Semicolon),
        b'.' => one(Kind::Dot),
        b'\n' => one(Kind::Newline),
        _ => Err(9),
    }
}

fn digits(bytes: &[u8]) -> usize {
    bytes.iter().take_while(|b| b.is_ascii_digit()).count()
}

/// A name or a keyword; a character over 127 that begins no name is refused as any other that matches nothing.
fn match_word(text: &str) -> Result<Match, u32> {
    match name::length(text) {
        0 => Err(9),
        length => {
            let word = &text[..length];
            Ok((Kind::of_word(word), length, u64::from(word == "True")))
        }
    }
}

fn match_int(rest: &[u8], length: usize) -> Result<Match, u32> {
    let value = literal::int(&rest[..length]).ok_or(10u32)?;
    Ok((Kind::Int, length, value as u64))
}

/// Digits at the head: a Float where a dot and digits follow, else an Int.
fn match_number(rest: &[u8]) -> Result<Match, u32> {
    let dot = digits(rest);
    if rest.get(dot) != Some(&b'.') {
        return match_int(rest, dot);
    }
    let places = digits(&rest[dot + 1..]);
    if places == 0 {
        return match_int(rest, dot);
    }
    let mantissa = dot + 1 + places;
    let exponent = match_exponent(&rest[mantissa..]);
    let length = mantissa + exponent;
    let power = if exponent == 0 { &[] } else { &rest[mantissa + 1..length] };
    let value = literal::float(&rest[..dot], &rest[dot + 1..mantissa], power).ok_or(11u32)?;
    Ok((Kind::Float, length, value.to_bits()))
}

/// The length of e or E, optional sign, digits; 0 where that doesn't stand.
fn match_exponent(rest: &[u8]) -> usize {
    let sign = match rest {
        [b'e' | b'E', b'+' | b'-', ..] => 2,
        [b'e' | b'E', ..] => 1,
        _ => return 0,
    };
    match digits(&rest[sign..]) {
        0 => 0,
        count => sign + count,
    }
}

/// The same quote at both ends, a backslash with any character but a line feed.
fn match_string(rest: &[u8]) -> Result<Match, u32> {
    let mut at = 1;
    loop {
        match rest.get(at) {
            Some(&byte) if byte == rest[0] => return Ok((Kind::Str, at + 1, 0)),
            Some(b'\\') => match rest.get(at + 1) {
                None | Some(b'\n') => return Err(9),
                Some(_) => at += 2,
            },
            Some(_) => at += 1,
            None => return Err(9),
        }
    }
}
