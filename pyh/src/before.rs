//! What stands before a place of a script: the last token, the brackets that are open, and the block.
use crate::source::{in_word, tokens};
use std::ops::Range;

#[derive(Default)]
pub struct Before {
    /// The brackets that are open, the innermost last. A line feed outside of strings closes all.
    pub open: Vec<Bracket>,
    /// The last string.
    pub string: Option<Range<usize>>,
    /// The last token but for line feeds, and the first one of its line.
    pub last: Range<usize>,
    pub first: Range<usize>,
    /// The colon in that line which opens a block.
    pub colon: Option<usize>,
    /// The last token completes an empty tuple.
    tuple: bool,
    /// How many `lambda` of that line have no colon yet, those in brackets aside.
    lambdas: usize,
}

pub struct Bracket {
    pub at: usize,
    pub closer: char,
    /// It follows a value, so it is that of a call or of an index, or it has a function's parameters.
    behind_value: bool,
    /// It is `()` so far, and wants one `)` more: the empty tuple is `())`.
    pub empty: bool,
}

impl Bracket {
    /// What is said where the line ends inside of it.
    pub fn on_one_line(&self) -> String {
        format!("all up to the closing `{}` must stand on this line", self.closer)
    }
}

/// The words that open a block, and the others that are no value.
const HEADERS: [&[u8]; 7] = [b"if", b"elif", b"else", b"while", b"for", b"def", b"class"];
const OTHERS: [&[u8]; 9] = [b"in", b"return", b"and", b"or", b"not", b"break", b"continue", b"pass", b"lambda"];

/// What stands before the end of these bytes. Up to there all tokens fit, or else only the last string is told.
pub fn before(src: &[u8]) -> Before {
    let mut found = Before::default();
    let mut is_first = true;
    for at in tokens(src) {
        if src[at.start] == b'\n' {
            found.open.clear();
            is_first = true;
            continue;
        }
        if is_first {
            (found.first, found.colon, found.lambdas) = (at.clone(), None, 0);
        }
        let behind_value = !is_first && is_value(&src[found.last.clone()]);
        found.take(src, at, behind_value);
        is_first = false;
    }
    found
}

/// Where the innermost of the brackets that are open before a place is closed, if that is done in its line.
pub fn closing(src: &[u8], place: usize) -> Option<usize> {
    let mut found = before(&src[..place]);
    let depth = found.open.len();
    for at in tokens(&src[place..]) {
        let at = place + at.start..place + at.end;
        let innermost = found.open.last()?;
        match src[at.start] {
            b'\n' => return None,
            b @ (b')' | b']' | b'}') if b as char != innermost.closer => return None,
            _ => {}
        }
        let behind_value = is_value(&src[found.last.clone()]);
        found.take(src, at.clone(), behind_value);
        if found.open.len() < depth {
            return Some(at.start);
        }
    }
    None
}

/// The token is a value or the end of one.
fn is_value(token: &[u8]) -> bool {
    match token {
        [b'"' | b'\'' | b')' | b']' | b'}', ..] | [b'+' | b'-', _, ..] => true,
        [first, ..] => in_word(*first) && !HEADERS.contains(&token) && !OTHERS.contains(&token),
        [] => false,
    }
}

impl Before {
    /// Right before stands `()` or `())` where a tuple can, in brackets that are open: a `)` may be missing.
    pub fn ends_with_tuple(&self) -> bool {
        self.open.last().is_some_and(|bracket| bracket.empty || self.tuple)
    }

    fn take(&mut self, src: &[u8], at: Range<usize>, behind_value: bool) {
        self.tuple = false;
        let open = |closer| Bracket { at: at.start, closer, behind_value, empty: false };
        match &src[at.clone()] {
            b"(" => self.open.push(open(')')),
            b"[" => self.open.push(open(']')),
            b"{" => self.open.push(open('}')),
            b")" | b"]" | b"}" => self.close(),
            b"lambda" if self.open.is_empty() => self.lambdas += 1,
            b":" if self.open.is_empty() => self.colon(src, at.start),
            [b'"' | b'\'', ..] => self.string = Some(at.clone()),
            _ => {}
        }
        self.last = at;
    }

    fn close(&mut self) {
        match self.open.last_mut() {
            Some(bracket) if bracket.closer == ')' && bracket.at == self.last.start && !bracket.behind_value => bracket.empty = true,
            _ => self.tuple = self.open.pop().is_some_and(|bracket| bracket.empty),
        }
    }

    /// Outside of brackets a colon is that of the last `lambda`, or it opens the block of its line.
    fn colon(&mut self, src: &[u8], at: usize) {
        if self.lambdas > 0 {
            self.lambdas -= 1;
        } else if self.colon.is_none() && HEADERS.contains(&&src[self.first.clone()]) {
            self.colon = Some(at);
        }
    }
}
