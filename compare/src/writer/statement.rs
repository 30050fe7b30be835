//! Lines: "two-space blocks, one statement a line, each line ended by a line feed".

use super::expression::Rule;
use super::{Piece, Writer};
use crate::words::kind;
use Piece::{Just, Lines, Members, Part, Source, Spaces, Whole};

/// How many spaces more a block has.
const STEP: u32 = 2;

impl Writer<'_> {
    /// A statement, Method, Elif or Else.
    pub(super) fn line(&mut self, node: u32, spaces: u32) {
        let [kind, _, _, _, p, q, r, s] = self.node(node);
        let block = |list| Lines(list, spaces + STEP);
        let before = Spaces(spaces);
        match kind {
            kind::IF => {
                self.first(&[before, Just("if "), Part(p, Rule::E), Just(":\n"), block(q), Lines(r, spaces), Lines(s, spaces)])
            }
            kind::ELIF => self.first(&[before, Just("elif "), Part(p, Rule::E), Just(":\n"), block(q)]),
            kind::ELSE => self.first(&[before, Just("else:\n"), block(p)]),
            kind::WHILE => self.first(&[before, Just("while "), Part(p, Rule::E), Just(":\n"), block(q)]),
            kind::FOR => self.first(&[before, Just("for "), Source(p, q), Just(" in "), Part(r, Rule::E), Just(":\n"), block(s)]),
            kind::DEF | kind::METHOD => {
                self.first(&[before, Just("def "), Source(p, q), Just("("), Members(r), Just("):\n"), block(s)])
            }
            kind::CLASS => self.first(&[before, Just("class "), Source(p, q), Just(":\n"), block(r)]),
            _ => self.simple(before, [kind, p, q]),
        }
    }

    fn simple(&mut self, before: Piece, [kind, p, q]: [u32; 3]) {
        let end = Just("\n");
        match kind {
            kind::RETURN => self.first(&[before, Just("return "), Whole(p), end]),
            kind::ASSIGN => self.first(&[before, Whole(p), Just(" = "), Whole(q), end]),
            kind::BREAK => self.first(&[before, Just("break\n")]),
            kind::CONTINUE => self.first(&[before, Just("continue\n")]),
            kind::PASS => self.first(&[before, Just("pass\n")]),
            kind::EXPR => self.first(&[before, Whole(p), end]),
            _ => unreachable!("kind {kind} is no statement"),
        }
    }
}
