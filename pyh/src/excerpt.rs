//! Lines, columns, and a line with a caret.
use crate::terminal::{Look, BLUE, RED};
use crate::widths::{NONE, UNSEEN, WIDE};

/// The widest part of a line that is shown where the output is no terminal, and the narrowest where it is one.
const WIDEST: usize = 100;
const NARROWEST: usize = 5;

/// A place of a source for people: line and column count from 1, the column in characters.
pub struct At {
    pub line: usize,
    pub column: usize,
    place: usize,
    from: usize,
    to: usize,
}

pub fn locate(src: &[u8], place: usize) -> At {
    let from = src[..place].iter().rposition(|&b| b == b'\n').map_or(0, |i| i + 1);
    let mut to = src[place..].iter().position(|&b| b == b'\n').map_or(src.len(), |i| place + i);
    // the carriage return of a line's end is no part of the line
    if to > from && src[to - 1] == b'\r' {
        to -= 1;
    }
    let line = src[..from].iter().filter(|&&b| b == b'\n').count() + 1;
    let column = String::from_utf8_lossy(&src[from..place.min(to)]).chars().count() + 1;
    At { line, column, place: place.min(to), from, to }
}

fn within(table: &[(u32, u32)], c: char) -> bool {
    let next = table.partition_point(|range| range.0 <= c as u32);
    next > 0 && c as u32 <= table[next - 1].1
}

/// Marks that no one sees, of which names can have some, or that turn the line's direction.
pub fn unseen(c: char) -> bool {
    within(&UNSEEN, c)
}

/// How many columns of a terminal a character takes.
pub fn columns(c: char) -> usize {
    match c as u32 {
        0..=0xAC => 1,
        _ if within(&NONE, c) => 0,
        _ if within(&WIDE, c) => 2,
        _ => 1,
    }
}

/// What is shown for a character, and how many columns it takes.
fn cell(c: char) -> (char, usize) {
    match c as u32 {
        9 => ('→', 1),
        n @ 0..=31 => (char::from_u32(0x2400 + n).unwrap_or('▯'), 1),
        127 => ('\u{2421}', 1),
        0x80..=0x9F => ('▯', 1),
        _ if unseen(c) => ('▯', 1),
        _ => (c, columns(c)),
    }
}

/// The text in lines of no more than so many columns, parted at spaces.
pub fn wrapped(text: &str, widest: Option<usize>) -> String {
    let Some(widest) = widest else { return text.to_string() };
    let mut out = String::new();
    let mut taken = 0;
    for word in text.split(' ') {
        let wide: usize = word.chars().map(columns).sum();
        if taken > 0 {
            let fits = taken + 1 + wide <= widest;
            out.push(if fits { ' ' } else { '\n' });
            taken = if fits { taken + 1 } else { 0 };
        }
        out.push_str(word);
        taken += wide;
    }
    out
}

/// Bytes of a script as they can be shown on a line.
pub fn plain(bytes: &[u8]) -> String {
    String::from_utf8_lossy(bytes).chars().map(|c| cell(c).0).collect()
}

/// The first characters of a text that has more; marks stay with their letter, but for more of them than that.
pub fn cut(text: &str, most: usize) -> Option<&str> {
    let starts: Vec<(usize, char)> = text.char_indices().take(most + 1).collect();
    let last = starts.get(most)?;
    let (end, _) = starts[1..].iter().rev().find(|(_, c)| columns(*c) > 0).unwrap_or(last);
    Some(&text[..*end])
}

type Cell = (char, usize);

fn width(cells: &[Cell]) -> usize {
    cells.iter().map(|c| c.1).sum()
}

/// The part of a line that is shown: no wider than this and, where the line is wider, with at most three fifths of that before the place.
fn around(cells: &[Cell], place: usize, widest: usize) -> std::ops::Range<usize> {
    if width(cells) <= widest {
        return 0..cells.len();
    }
    let fitting = |room: usize| {
        let mut wide = 0;
        move |cell: &&Cell| {
            wide += cell.1;
            wide <= room
        }
    };
    let left = place - cells[..place].iter().rev().take_while(fitting(widest * 3 / 5)).count();
    // marks whose letter is cut away
    let left = left + cells[left..place].iter().take_while(|cell| cell.1 == 0).count();
    let right = left + cells[left..].iter().take_while(fitting(widest)).count();
    left..right
}

/// The line with a caret under the place. Of a long line the part around the place is shown.
pub fn shown(src: &[u8], at: &At, look: &Look) -> String {
    let mut cells: Vec<Cell> = String::from_utf8_lossy(&src[at.from..at.to]).chars().map(cell).collect();
    let place = String::from_utf8_lossy(&src[at.from..at.place]).chars().count();
    // a mark at the place would stand on the character before it
    if cells.get(place).is_some_and(|cell| cell.1 == 0) {
        cells.insert(place, ('◌', 1));
    }
    let number = at.line.to_string();
    // beside the line stand its number, five columns and a mark at each end where it is cut; the last column stays free
    let widest = look.columns.map_or(WIDEST, |all| all.saturating_sub(number.len() + 8).max(NARROWEST));
    let part = around(&cells, place, widest);

    let cut_left = if part.start > 0 { "…" } else { "" };
    let cut_right = if part.end < cells.len() { "…" } else { "" };
    let caret = cut_left.chars().count() + width(&cells[part.start..place.min(part.end)]);
    let text: String = cells[part].iter().map(|c| c.0).collect();
    let gutter = |what: &str| look.paint(BLUE, &format!("{what:>0$} |", number.len()));
    format!("  {} {cut_left}{text}{cut_right}\n  {} {}{}\n", gutter(&number), gutter(""), " ".repeat(caret), look.paint(RED, "^"))
}
