//! Sources whose texts are as long as can be: of 65,536 bytes and of one more, and those of sources of 65,536 bytes.

use plain::lent::Lent;
use plain::writer::standard;
use plain::LONGEST;

/// What stands before a row of one part, the part, and what stands behind.
#[rustfmt::skip]
const ROWS: [[&str; 3]; 24] = [
    ["a", "+a", ""], ["a", "*a", ""], ["a", " and a", ""], ["a", " or a", ""], ["a", "<a", ""], ["a", "==a!=b", ""], ["a", ".b", ""], ["a", "()", ""],
    ["a", "[b]", ""], ["", "-", "a"], ["", "not ", "a"], ["x=[a", ",a", ",]"], ["f(a", ",(a,)", ")"], ["a", ",a", ""], ["{a:b", ",a:b", "}"], ["t{a", ",())", "}"],
    ["lambda a", ",a", ":a"], ["def f(a", ",a", "):b"], ["a", ";a", ""], ["if a:b\n", "elif a:b\n", "else:c"], ["'", "\t", "'"], ["if a:\n  b\n", "  b;b\n", ""],
    ["class A:\n  def f():a\n", "  def f():a\n", ""], ["a-(", "b-", "c)"],
];

/// A row of so many parts, behind a line with a name of so many bytes.
fn of([before, part, behind]: [&str; 3], name: usize, count: usize) -> Vec<u8> {
    ["n".repeat(name).as_str(), "\n", before, &part.repeat(count), behind].concat().into_bytes()
}

fn text_length(src: &[u8]) -> usize {
    let mut lent = Lent::of(src);
    assert_eq!(lent.read().number, 0, "a row is accepted");
    standard(lent.source()).expect("a row has no empty block").len()
}

/// The row behind a name that takes what is over, so that its text has this length.
fn with_text(row: [&str; 3], length: usize) -> Vec<u8> {
    let (one, two) = (text_length(&of(row, 1, 1)), text_length(&of(row, 1, 2)));
    let count = 1 + (length - one) / (two - one);
    of(row, 1 + (length - one) % (two - one), count)
}

/// The row behind a name that takes what is over, so that it has 65,536 bytes itself.
fn longest(row: [&str; 3]) -> Vec<u8> {
    let least = of(row, 1, 0).len();
    of(row, 1 + (LONGEST - least) % row[1].len(), (LONGEST - least) / row[1].len())
}

/// Each row so; and a name of 65,536 bytes, with a line feed as its last byte, without one, and one byte shorter.
pub fn sources() -> impl Iterator<Item = Vec<u8>> {
    let names = [b"n".repeat(LONGEST), [b"n".repeat(LONGEST - 1), b"\n".to_vec()].concat(), b"n".repeat(LONGEST - 1)];
    let rows = ROWS.into_iter().flat_map(|row| [with_text(row, LONGEST), with_text(row, LONGEST + 1), longest(row)]);
    rows.chain(names)
}
