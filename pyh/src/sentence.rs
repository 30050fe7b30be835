//! A short plain sentence for each number.
use crate::before::before;
use crate::character::character;
use crate::ending;
use crate::excerpt::{cut, plain};
use crate::misfit::misfit;
use crate::source::{indentation, line_number, token};
use tarbucket::Error;

/// The longest part of a script that a sentence quotes, in characters.
const QUOTED: usize = 40;

pub fn sentence(src: &[u8], error: Error) -> String {
    let place = error.place();
    let here = &src[place.min(src.len())..];
    match error {
        Error::TooLong => "The script is too long: at most 65,536 bytes are read.".to_string(),
        Error::NotUtf8 { .. } => "These bytes are no UTF-8 text: save the script as UTF-8.".to_string(),
        Error::Tab { .. } => "A tab stands in the indentation: indent with spaces, two for each level.".to_string(),
        Error::TooFar { .. } => format!("This line begins with {}: a deeper level has exactly two more than the level around it.", spaces(here)),
        Error::NoLevel { .. } => format!("This line begins with {}: that is no level of the lines above.", spaces(here)),
        Error::NoToken { .. } => no_token(src, place),
        Error::IntRange { .. } => {
            format!("{} is out of range: whole numbers go from -9223372036854775808 to 9223372036854775807.", quoted(token(here)))
        }
        Error::FloatRange { .. } => float(token(here)),
        Error::TooDeep { .. } => "This is nested too deeply: at most 64 expressions and blocks may be open at once.".to_string(),
        Error::Misfit { .. } => misfit(src, place),
        Error::Cut { .. } => ending::cut(src),
        Error::Missing { .. } => ending::missing(src, place),
        _ => format!("The reader gave the number {}.", error.number()),
    }
}

/// Of 18, with the limit for a source, since the text must be one.
pub const NO_ROOM: &str = "The standard text would be longer than 65,536 bytes, the most that is read: shorten the script, or part it in two.";

/// Of 17: whose block it is. With a `pass` the script still needs a line feed, as each block does.
pub fn empty_block(src: &[u8]) -> String {
    let header = before(src).first;
    let (word, line) = (quoted(&src[header.clone()]), line_number(src, header.start));
    format!("The block of {word} (line {line}) has no statement: write `pass` and a line break here.")
}

pub fn spaces(line: &[u8]) -> String {
    count(indentation(line), "space")
}

/// One of something, or more.
pub fn count(n: usize, what: &str) -> String {
    format!("{n} {what}{}", if n == 1 { "" } else { "s" })
}

/// A part of the script between backquotes, cut where it is long.
pub fn quoted(part: &[u8]) -> String {
    let whole = plain(part);
    match cut(&whole, QUOTED) {
        Some(front) => format!("`{front}…`"),
        None => format!("`{whole}`"),
    }
}

fn float(token: &[u8]) -> String {
    let digits = "without the dot its digits may make at most 9007199254740992";
    let exponent = "the exponent less the count of digits behind the dot goes from -22 to 22";
    format!("{} is not read: {digits}, and {exponent}.", quoted(token))
}

fn no_token(src: &[u8], place: usize) -> String {
    match src.get(place) {
        Some(b'"' | b'\'') => open_string(src, place),
        Some(b'!') => "`!` alone means nothing: write `not`, or `!=`.".to_string(),
        Some(b'&') => "`&` means nothing here: write `and`.".to_string(),
        Some(b'|') => "`|` means nothing here: write `or`.".to_string(),
        Some(b'`') => "A backquote means nothing here: strings stand in \" or '.".to_string(),
        Some(128..) => character(&String::from_utf8_lossy(&src[place..]), place == 0),
        _ => format!("{} means nothing here.", quoted(&src[place..src.len().min(place + 1)])),
    }
}

/// The string at the place is not closed; it may be that one before it is not, and that this quote was meant to close a later one.
fn open_string(src: &[u8], place: usize) -> String {
    let why = "This string is not closed: its quote is missing, or a backslash stands at the end of a line.";
    match before(&src[..place]).string {
        Some(string) if src[string.clone()].contains(&b'\n') => {
            format!("{why} Or the quote is missing of the string that begins in line {}.", line_number(src, string.start))
        }
        _ => why.to_string(),
    }
}
