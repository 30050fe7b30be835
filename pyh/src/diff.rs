//! What the standard text changes of a script, as a unified diff.
//!
//! Each line of the text is a statement, or the head of one, and the script has the same ones in the same order. So a line of the text is looked for in one
//! place, where its statement begins in the script. That is done in one pass, however much differs, and takes no line for that of another statement.
use crate::excerpt::plain;
use crate::names;
use crate::terminal::{Look, BLUE, BOLD, GREEN, RED};
use std::ffi::OsStr;
use std::ops::Range;
use tarbucket::{Kind, Tree};

/// So many lines are shown around a change.
const AROUND: usize = 3;

/// Lines of the script, and those that the text has in their place.
struct Change {
    old: Range<usize>,
    new: Range<usize>,
}

pub fn diff(name: &OsStr, tree: &Tree, text: &[u8], look: &Look) -> String {
    let (old, new) = (lines(tree.source()), lines(text));
    let name = names::shown(name);
    let mut out = format!("{}\n{}\n", look.paint(BOLD, &format!("--- {name}")), look.paint(BOLD, &format!("+++ {name}")));
    let changes = changes(&old, &new, &begins(tree));
    for near in changes.chunk_by(|a, b| b.old.start - a.old.end <= 2 * AROUND) {
        out += &hunk(near, &old, &new, look);
    }
    out
}

fn lines(text: &[u8]) -> Vec<&[u8]> {
    text.split_inclusive(|&b| b == b'\n').collect()
}

/// The lines of the script in which the statements begin, those that have a line of their own in the text.
fn begins(tree: &Tree) -> Vec<usize> {
    let source = tree.source();
    let mut starts: Vec<usize> = tree.nodes().filter(|node| is_line(node.kind())).map(|node| node.span().start).collect();
    starts.sort_unstable();
    let feeds: Vec<usize> = (0..source.len()).filter(|&i| source[i] == b'\n').collect();
    starts.into_iter().map(|start| feeds.partition_point(|&feed| feed < start)).collect()
}

fn is_line(kind: Kind) -> bool {
    match kind {
        Kind::If | Kind::Elif | Kind::Else | Kind::While | Kind::For | Kind::Def | Kind::Class | Kind::Method => true,
        Kind::Return | Kind::Assign | Kind::Break | Kind::Continue | Kind::Pass | Kind::Expr => true,
        _ => false,
    }
}

/// What lies between the lines that are the same in both.
fn changes(old: &[&[u8]], new: &[&[u8]], begins: &[usize]) -> Vec<Change> {
    let same = begins.iter().copied().zip(0..).filter(|&(i, j)| old.get(i) == new.get(j));
    let mut changes = Vec::new();
    let (mut i, mut j) = (0, 0);
    for (old_end, new_end) in same.chain([(old.len(), new.len())]) {
        // no line is the same as two
        if old_end < i {
            continue;
        }
        if (i, j) != (old_end, new_end) {
            changes.push(Change { old: i..old_end, new: j..new_end });
        }
        (i, j) = (old_end + 1, new_end + 1);
    }
    changes
}

/// Changes that are near one another, with the lines around them.
fn hunk(near: &[Change], old: &[&[u8]], new: &[&[u8]], look: &Look) -> String {
    let (first, last) = (&near[0], &near[near.len() - 1]);
    let before = first.old.start.min(AROUND);
    let behind = (old.len() - last.old.end).min(AROUND);
    let wide = |from: usize, to: usize| range(from - before..to + behind);
    let head = format!("@@ -{} +{} @@", wide(first.old.start, last.old.end), wide(first.new.start, last.new.end));
    let mut out = look.paint(BLUE, &head) + "\n";
    let mut at = first.old.start - before;
    for change in near {
        out.extend(old[at..change.old.start].iter().map(|l| line(' ', l, look)));
        out.extend(old[change.old.clone()].iter().map(|l| line('-', l, look)));
        out.extend(new[change.new.clone()].iter().map(|l| line('+', l, look)));
        at = change.old.end;
    }
    out.extend(old[at..at + behind].iter().map(|l| line(' ', l, look)));
    out
}

/// Lines as the format has them: the first, from 1, and how many if not one; of none the line before them.
fn range(lines: Range<usize>) -> String {
    match lines.len() {
        0 => format!("{},0", lines.start),
        1 => format!("{}", lines.start + 1),
        n => format!("{},{n}", lines.start + 1),
    }
}

/// A line behind its mark. On a terminal nothing in it moves the cursor, and a carriage return is seen.
fn line(mark: char, line: &[u8], look: &Look) -> String {
    let (line, end) = match line.strip_suffix(b"\n") {
        Some(line) => (line, "\n"),
        None => (line, "\n\\ No newline at end of file\n"),
    };
    let shown = match look.columns {
        Some(_) => format!("{mark}{}", plain(line)),
        None => format!("{mark}{}", String::from_utf8_lossy(line)),
    };
    match mark {
        '-' => look.paint(RED, &shown) + end,
        '+' => look.paint(GREEN, &shown) + end,
        _ => shown + end,
    }
}
