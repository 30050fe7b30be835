//! The writer of 02's change 6: "From an accepted source and its tree .. the one standard text".
//!
//! What is still to be written is a row of pieces. The first one is taken, and is put out or gives way to the pieces that it is
//! made of. So no function calls itself, however deep a tree nests, and each node is looked at a few times.

mod expression;
mod statement;

use crate::alike::Source;
use crate::words::{kind, Record, NEXT, NONE};
use crate::{read, Answer, LONGEST};
use expression::Rule;

/// "17 where some block has no statement", "and then 18 where the text is longer".
pub const EMPTY_BLOCK: u32 = 17;
pub const TOO_LONG: u32 = 18;

/// The reader's number and place where it refuses; else 17, 18, or 0 and the text's length: "a number without a named place has
/// place 0".
#[derive(Clone, Copy, Debug, Default, PartialEq, Eq)]
pub struct Wrote {
    pub number: u32,
    pub place: u32,
    pub length: u32,
}

/// Reads a source into the three areas and writes its text into `out`. "A refusal by the reader leaves the part's own slice"; 17 and
/// 18 "zero that slice"; behind a text it is zeroed.
pub fn write(src: &[u8], tokens: &mut [u32], text: &mut [u8], tree: &mut [u32], out: &mut [u8]) -> Wrote {
    let Answer { number, place, .. } = read(src, tokens, text, tree);
    if number != 0 {
        return Wrote { number, place, length: 0 };
    }
    out.fill(0);
    match standard(Source { src, text, tree }) {
        None => Wrote { number: EMPTY_BLOCK, ..Wrote::default() },
        Some(made) if made.len() > out.len() || made.len() > LONGEST => Wrote { number: TOO_LONG, ..Wrote::default() },
        Some(made) => {
            out[..made.len()].copy_from_slice(&made);
            Wrote { length: made.len() as u32, ..Wrote::default() }
        }
    }
}

/// The text, however long, of an accepted source; none where some block has no statement.
pub fn standard(source: Source) -> Option<Vec<u8>> {
    let nodes = source.nodes();
    if nodes.iter().any(has_empty_block) {
        return None;
    }
    let [.., program, _, _, _] = nodes[source.tree[5] as usize];
    let Source { src, text, .. } = source;
    let mut writer = Writer { src, text, nodes, out: Vec::new(), row: vec![Piece::Lines(program, 0)] };
    while let Some(piece) = writer.row.pop() {
        writer.take(piece);
    }
    Some(writer.out)
}

/// Whether a node has a Block without a statement. Program and Class have none.
fn has_empty_block(&[kind, _, _, _, p, q, _, s]: &Record) -> bool {
    match kind {
        kind::IF | kind::WHILE | kind::ELIF => q == NONE,
        kind::FOR | kind::DEF | kind::METHOD => s == NONE,
        kind::ELSE => p == NONE,
        _ => false,
    }
}

#[derive(Clone, Copy)]
enum Piece {
    Just(&'static str),
    /// So many spaces.
    Spaces(u32),
    /// The source from one place to another.
    Source(u32, u32),
    /// A node and those behind it in its list, each a statement, Method, Elif or Else with so many spaces before it.
    Lines(u32, u32),
    /// A t: a Tuple that isn't empty is bare.
    Whole(u32),
    /// An expression, in parentheses where its text would not fit the rule.
    Part(u32, Rule),
    /// A node and those behind it in its list, "parted by comma and space".
    Members(u32),
    /// A comparison or a chain.
    Compared(u32),
}

struct Writer<'a> {
    src: &'a [u8],
    text: &'a [u8],
    nodes: &'a [Record],
    out: Vec<u8>,
    /// The first piece is the last one here.
    row: Vec<Piece>,
}

impl Writer<'_> {
    fn node(&self, node: u32) -> Record {
        self.nodes[node as usize]
    }

    /// These pieces come before the rest of the row.
    fn first(&mut self, pieces: &[Piece]) {
        self.row.extend(pieces.iter().rev());
    }

    fn take(&mut self, piece: Piece) {
        match piece {
            Piece::Just(text) => self.out.extend(text.bytes()),
            Piece::Spaces(count) => self.out.resize(self.out.len() + count as usize, b' '),
            Piece::Source(start, end) => self.out.extend(&self.src[start as usize..end as usize]),
            Piece::Lines(NONE, _) | Piece::Members(NONE) => {}
            Piece::Lines(node, spaces) => {
                self.first(&[Piece::Lines(self.node(node)[NEXT], spaces)]);
                self.line(node, spaces);
            }
            Piece::Members(node) => self.member(node),
            Piece::Whole(node) => self.whole(node),
            Piece::Part(node, rule) => self.part(node, rule),
            Piece::Compared(node) => self.compared(node),
        }
    }
}
