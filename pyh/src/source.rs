//! What the sentences need to know of a script's text: its lines, and the tokens around a place.
use std::ops::Range;

/// Where the line of a place begins.
pub fn line_start(src: &[u8], place: usize) -> usize {
    src[..place].iter().rposition(|&b| b == b'\n').map_or(0, |i| i + 1)
}

/// The line's number, from 1.
pub fn line_number(src: &[u8], place: usize) -> usize {
    src[..place].iter().filter(|&&b| b == b'\n').count() + 1
}

/// A line without its comment, and without the blanks at its end.
pub fn code(line: &[u8]) -> &[u8] {
    let mut i = 0;
    while i < line.len() && line[i] != b'#' {
        i += if matches!(line[i], b'"' | b'\'') { string_end(&line[i..]) } else { 1 };
    }
    line[..i.min(line.len())].trim_ascii_end()
}

/// The last line before this one that has a token, without its comment.
pub fn line_above(src: &[u8], start: usize) -> Option<&[u8]> {
    let mut lines = src[..start].rsplit(|&b| b == b'\n');
    lines.find_map(|line| (!code(line).is_empty()).then_some(code(line)))
}

/// The spaces that a line begins with.
pub fn indentation(line: &[u8]) -> usize {
    line.iter().take_while(|&&b| b == b' ').count()
}

/// Where each token stands, line feeds among them; blanks and comments are passed over.
pub fn tokens(src: &[u8]) -> impl Iterator<Item = Range<usize>> + '_ {
    let mut i = 0;
    std::iter::from_fn(move || {
        loop {
            i += match src.get(i)? {
                b' ' | b'\t' | b'\r' => 1,
                b'#' => src[i..].iter().take_while(|&&b| b != b'\n').count(),
                _ => break,
            };
        }
        let start = i;
        i += token(&src[i..]).len();
        Some(start..i)
    })
}

/// The token at the front of the bytes: a number that is refused, or any of a script whose tokens were all found, so that all bytes over 127 outside of strings
/// and comments are those of names.
pub fn token(here: &[u8]) -> &[u8] {
    let run = |from: usize, f: fn(u8) -> bool| from + here[from..].iter().take_while(|&&b| f(b)).count();
    let digit = |i: usize| here.get(i).is_some_and(u8::is_ascii_digit);
    let end = match here.first() {
        None => 0,
        Some(b'0'..=b'9') => number_end(here),
        Some(b'+' | b'-') if digit(1) => run(1, |b| b.is_ascii_digit()),
        Some(&b) if in_word(b) => run(0, in_word),
        Some(b'"' | b'\'') => string_end(here),
        Some(b'=' | b'<' | b'>' | b'!') if here.get(1) == Some(&b'=') => 2,
        Some(b'/') if here.get(1) == Some(&b'/') => 2,
        Some(_) => 1,
    };
    &here[..end]
}

pub fn in_word(b: u8) -> bool {
    b.is_ascii_alphanumeric() || b == b'_' || b > 127
}

fn number_end(here: &[u8]) -> usize {
    let digits = |from: usize| here[from..].iter().take_while(|b| b.is_ascii_digit()).count();
    let mut end = digits(0);
    if here.get(end) == Some(&b'.') && digits(end + 1) > 0 {
        end += 1 + digits(end + 1);
        if matches!(here.get(end), Some(b'e' | b'E')) {
            let sign = matches!(here.get(end + 1), Some(b'+' | b'-')) as usize;
            let more = here.get(end + 1 + sign..).map_or(0, |_| digits(end + 1 + sign));
            if more > 0 {
                end += 1 + sign + more;
            }
        }
    }
    end
}

/// Of the string at the front of the bytes; the end of the bytes where it is not closed.
fn string_end(here: &[u8]) -> usize {
    let mut i = 1;
    while i < here.len() && here[i] != here[0] {
        i += if here[i] == b'\\' { 2 } else { 1 };
    }
    (i + 1).min(here.len())
}
