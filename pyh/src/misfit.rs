//! Why a token does not fit: the sentences for 14, and what tries a remedy. What is said of one was tried: with it the reader comes further.
use crate::before::{before, Before};
use crate::sentence::quoted;
use crate::source::{code, indentation, line_above, line_number, line_start, token};
use std::ops::Range;
use tarbucket::{Error, Reader};

/// A token that does not fit, and what stands before it.
pub struct Misfit<'a> {
    pub src: &'a [u8],
    pub place: usize,
    /// Its line up to it, and the last line with a token before that.
    line: &'a [u8],
    above: Option<&'a [u8]>,
    pub before: Before,
}

pub fn misfit(src: &[u8], place: usize) -> String {
    let misfit = Misfit::new(src, place);
    if let Some(sentence) = misfit.no_body() {
        return sentence;
    }
    match src.get(place) {
        None => misfit.end_of_script(),
        Some(b'\n') => misfit.end_of_line(),
        Some(b' ') => misfit.indented(),
        Some(_) => {
            let token = token(&src[place..]);
            format!("{} does not fit here{}", quoted(token), misfit.hint(token))
        }
    }
}

impl<'a> Misfit<'a> {
    pub fn new(src: &'a [u8], place: usize) -> Misfit<'a> {
        let start = line_start(src, place);
        Misfit { src, place, line: &src[start..place], above: line_above(src, start), before: before(&src[..place]) }
    }

    /// Whether the reader comes further with this in place of a part.
    pub fn helps(&self, part: Range<usize>, new: &[u8]) -> bool {
        self.reach(&part, new) > Some((part.start + new.len()).max(self.place + new.len() - part.len()))
    }

    /// Whether this can stand behind the last token, whatever follows.
    pub fn fits(&self, new: &[u8]) -> bool {
        let end = self.before.last.end;
        self.reach(&(end..end), new) >= Some(end + new.len())
    }

    /// How far the reader comes with this in place of a part; none where a token is wrong then.
    pub fn reach(&self, part: &Range<usize>, new: &[u8]) -> Option<usize> {
        let mended = [&self.src[..part.start], new, &self.src[part.end..]].concat();
        match Reader::new().read(&mended) {
            Ok(_) => Some(usize::MAX),
            Err(e @ (Error::Misfit { .. } | Error::Cut { .. } | Error::Missing { .. } | Error::TooDeep { .. })) => Some(e.place()),
            Err(_) => None,
        }
    }

    /// It is the first of its line.
    fn is_first(&self) -> bool {
        self.line.iter().all(|&b| b == b' ')
    }

    /// The line above ends with a colon, and this one is not deeper.
    fn no_body(&self) -> Option<String> {
        let above = self.above.filter(|above| above.ends_with(b":") && self.is_first())?;
        let here = self.src[self.place..].first().filter(|&&b| b != b'\n')?;
        let deep = self.line.len() + if *here == b' ' { indentation(&self.src[self.place..]) } else { 0 };
        let wanted = indentation(above) + 2;
        (deep < wanted).then(|| format!("The line before it ends with `:`, so this one must begin with {wanted} spaces."))
    }

    fn indented(&self) -> String {
        match self.above {
            Some(above) if indentation(&self.src[self.place..]) <= indentation(above) => "The block ends here, but more was expected.".to_string(),
            _ => "This line is indented deeper than the one before, which opens no block with a `:` at its end.".to_string(),
        }
    }

    fn end_of_line(&self) -> String {
        let end = self.before.last.end;
        if end <= self.place - self.line.len() {
            "A blank line, or a comment alone, does not fit here: the methods of a class follow each other at once.".to_string()
        } else if self.before.ends_with_tuple() && self.fits(b")") {
            "`()` is no value: the empty tuple is written `())`.".to_string()
        } else if let Some(bracket) = self.before.open.last() {
            format!("The line ends inside brackets: {}.", bracket.on_one_line())
        } else if self.helps(end..end, b":") {
            "A `:` is missing at the end of this line.".to_string()
        } else {
            "The line ends here, but more was expected.".to_string()
        }
    }

    /// How the sentence on a word goes on.
    fn hint(&self, token: &[u8]) -> String {
        match token {
            b"else" | b"elif" => self.no_if(),
            b"if" if self.line.trim_ascii() == b"else" => ": write `elif`.".to_string(),
            b"=" => self.equal(),
            [sign @ (b'+' | b'-'), _, ..] if self.helps(self.place..self.place + 1, &[*sign, b' ']) => {
                let (sign, digits) = (*sign as char, String::from_utf8_lossy(&token[1..]));
                format!(": a sign right before digits belongs to the number, so write `{sign} {digits}` with a space.")
            }
            [b'0'..=b'9', ..] if self.signed_decimal() => {
                ": a number with a dot takes no sign right before it, so write a space between.".to_string()
            }
            _ => {
                let comma = || if token == b"," { self.comma().map(str::to_string) } else { None };
                self.quote().or_else(comma).or_else(|| self.bracket()).unwrap_or_else(|| ".".to_string())
            }
        }
    }

    /// Of an `else` or `elif`: blank lines are in the way, or there is nothing that it could belong to.
    fn no_if(&self) -> String {
        let start = self.place - self.line.len();
        let blank = |line: &&[u8]| code(line).is_empty();
        let gap: usize = self.src[..start].rsplit(|&b| b == b'\n').skip(1).take_while(blank).map(|line| line.len() + 1).sum();
        if self.is_first() && gap > 0 && self.helps(start - gap..start, b"") {
            return ": no blank line and no comment may stand between it and the line of its `if`.".to_string();
        }
        ": no `if` before it on the same level can have it.".to_string()
    }

    fn equal(&self) -> String {
        let first = token(self.line.trim_ascii_start());
        match self.line.last() {
            Some(&sign @ (b'+' | b'-' | b'*' | b'/' | b'%')) => {
                let sign = sign as char;
                format!(": there is no `{sign}=`, so write it out, as in `a = a {sign} b`.")
            }
            Some(b'=') => ": two signs are enough, `==` or `!=`.".to_string(),
            _ if matches!(first, b"if" | b"elif" | b"while") || !self.before.open.is_empty() => {
                ": `==` compares, and only a whole line can be `name = value`.".to_string()
            }
            _ => ".".to_string(),
        }
    }

    /// A sign, digits and a dot stand right before, and a space behind the sign helps.
    fn signed_decimal(&self) -> bool {
        let Some((b'.', front)) = self.line.split_last() else { return false };
        let digits = front.iter().rev().take_while(|b| b.is_ascii_digit()).count();
        let Some(&sign @ (b'+' | b'-')) = front[..front.len() - digits].last() else { return false };
        let at = self.place - 2 - digits;
        digits > 0 && self.helps(at..at + 1, &[sign, b' '])
    }

    /// A quote may be missing in an earlier line.
    fn quote(&self) -> Option<String> {
        let string = self.before.string.as_ref()?;
        let (inside, behind) = (&self.src[string.clone()], &self.src[string.end..self.place]);
        (inside.contains(&b'\n') && behind.trim_ascii().is_empty())
            .then(|| format!(": the string before it begins in line {}, where its quote may be missing.", line_number(self.src, string.start)))
    }

    /// A bracket may be missing right before.
    fn bracket(&self) -> Option<String> {
        let bracket = self.before.open.last()?;
        let closed = self.helps(self.place..self.place, &[bracket.closer as u8]);
        closed.then(|| format!(": a `{}` may be missing before it.", bracket.closer))
    }
}
