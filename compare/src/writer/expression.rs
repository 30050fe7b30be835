//! Expressions: "parentheses only where the tree needs them".

use super::{Piece, Writer};
use crate::tree::BinaryOp;
use crate::words::{kind, NEXT, NONE};
use Piece::{Compared, Just, Members, Part, Source};

/// 01's rules from E to F: what fits a later one fits those before it.
#[derive(Clone, Copy, PartialEq, Eq, PartialOrd, Ord)]
pub enum Rule {
    E,
    O,
    A,
    C,
    S,
    P,
    U,
    F,
}

/// The spellings of the operators, which count from 1. "A space around binary operators and after unary ones."
const BINARY: [&str; 14] =
    [" + ", " - ", " * ", " / ", " // ", " % ", " == ", " != ", " < ", " <= ", " > ", " >= ", " and ", " or "];
const UNARY: [&str; 3] = ["not ", "- ", "+ "];

const ADD: u32 = BinaryOp::Add as u32;
const SUBTRACT: u32 = BinaryOp::Subtract as u32;
const MULTIPLY: u32 = BinaryOp::Multiply as u32;
const MODULO: u32 = BinaryOp::Modulo as u32;
const EQUAL: u32 = BinaryOp::Equal as u32;
const GREATER_EQUAL: u32 = BinaryOp::GreaterEqual as u32;
const AND: u32 = BinaryOp::And as u32;
const OR: u32 = BinaryOp::Or as u32;

/// The rule that makes an operator's node, and those of its operands: all group left, comparisons in chains.
fn rules(operator: u32) -> (Rule, Rule, Rule) {
    match operator {
        OR => (Rule::O, Rule::O, Rule::A),
        AND => (Rule::A, Rule::A, Rule::C),
        EQUAL..=GREATER_EQUAL => (Rule::C, Rule::S, Rule::S),
        ADD..=SUBTRACT => (Rule::S, Rule::S, Rule::P),
        MULTIPLY..=MODULO => (Rule::P, Rule::P, Rule::U),
        _ => unreachable!("no operator has number {operator}"),
    }
}

fn binary(operator: u32) -> Piece {
    Just(BINARY[operator as usize - 1])
}

fn unary(operator: u32) -> Piece {
    Just(UNARY[operator as usize - 1])
}

impl Writer<'_> {
    /// A t: "non-empty tuples of a whole statement bare".
    pub(super) fn whole(&mut self, node: u32) {
        match self.node(node) {
            [kind::TUPLE, _, _, _, list, ..] if list != NONE => self.several(list),
            _ => self.first(&[Part(node, Rule::E)]),
        }
    }

    /// A Tuple's members: "a trailing comma only in a tuple of one".
    fn several(&mut self, list: u32) {
        let alone = self.node(list)[NEXT] == NONE;
        self.first(&[Members(list), Just(if alone { "," } else { "" })]);
    }

    pub(super) fn member(&mut self, node: u32) {
        let next = self.node(node)[NEXT];
        let between = Just(if next == NONE { "" } else { ", " });
        self.first(&[Part(node, Rule::E), between, Members(next)]);
    }

    pub(super) fn part(&mut self, node: u32, rule: Rule) {
        if self.rule(node) < rule {
            self.first(&[Just(")")]);
            self.out.push(b'(');
        }
        self.expression(node);
    }

    /// The last rule that its text fits.
    fn rule(&self, node: u32) -> Rule {
        match self.node(node) {
            [kind::LAMBDA, ..] => Rule::E,
            [kind::BINARY, ..] if self.is_chain(node) => Rule::C,
            [kind::BINARY, _, _, _, operator, ..] => rules(operator).0,
            [kind::UNARY, ..] => Rule::U,
            _ => Rule::F,
        }
    }

    /// The operands of a comparison.
    fn comparison(&self, node: u32) -> Option<(u32, u32)> {
        match self.node(node) {
            [kind::BINARY, _, _, _, EQUAL..=GREATER_EQUAL, left, right, _] => Some((left, right)),
            _ => None,
        }
    }

    /// "A shared middle": an And of a comparison whose left node is the right one of the comparison before it.
    fn is_chain(&self, node: u32) -> bool {
        let [_, _, _, _, AND, first, last, _] = self.node(node) else { return false };
        let before = match self.node(first) {
            [kind::BINARY, _, _, _, AND, _, last, _] => last,
            _ => first,
        };
        match (self.comparison(before), self.comparison(last)) {
            (Some((_, right)), Some((left, _))) => right == left,
            _ => false,
        }
    }

    /// A comparison, or a chain: what is before its last comparison, whose left operand is written there.
    pub(super) fn compared(&mut self, node: u32) {
        let [_, _, _, _, operator, left, right, _] = self.node(node);
        if operator == AND {
            let [_, _, _, _, operator, _, right, _] = self.node(right);
            self.first(&[Compared(left), binary(operator), Part(right, Rule::S)]);
        } else {
            self.first(&[Part(left, Rule::S), binary(operator), Part(right, Rule::S)]);
        }
    }

    fn expression(&mut self, node: u32) {
        let [kind, _, _, _, p, q, r, s] = self.node(node);
        match kind {
            kind::NAME | kind::VARIABLE => self.first(&[Source(p, q)]),
            kind::PAIR => self.first(&[Part(p, Rule::E), Just(": "), Part(q, Rule::E)]),
            kind::BOOL => self.first(&[Just(if p == 1 { "True" } else { "False" })]),
            kind::INT => self.int(u64::from(q) << 32 | u64::from(p)),
            kind::STRING => self.string(p as usize, q as usize),
            kind::FLOAT => self.first(&[Source(r, s)]),
            kind::NONE => self.first(&[Just("None")]),
            kind::UNARY => self.first(&[unary(p), Part(q, Rule::U)]),
            kind::BINARY if self.is_chain(node) => self.first(&[Compared(node)]),
            kind::BINARY => {
                let (_, left, right) = rules(p);
                self.first(&[Part(q, left), binary(p), Part(r, right)]);
            }
            kind::CALL => self.first(&[Part(p, Rule::F), Just("("), Members(q), Just(")")]),
            kind::ATTRIBUTE => self.first(&[Part(p, Rule::F), Just("."), Source(q, r)]),
            kind::INDEX => self.first(&[Part(p, Rule::F), Just("["), Part(q, Rule::E), Just("]")]),
            kind::LAMBDA => {
                let space = Just(if p == NONE { "" } else { " " });
                self.first(&[Just("lambda"), space, Members(p), Just(": "), Part(q, Rule::E)]);
            }
            _ => self.collection(kind, p),
        }
    }

    fn collection(&mut self, kind: u32, list: u32) {
        match kind {
            kind::LIST => self.first(&[Just("["), Members(list), Just("]")]),
            kind::DICT | kind::SET => self.first(&[Just("{"), Members(list), Just("}")]),
            kind::TREE_SET => self.first(&[Just("t{"), Members(list), Just("}")]),
            kind::TUPLE if list == NONE => self.first(&[Just("())")]),
            kind::TUPLE => {
                self.first(&[Just(")")]);
                self.several(list);
                self.out.push(b'(');
            }
            _ => unreachable!("kind {kind} is no expression"),
        }
    }

    /// "Ints the shortest digits with a minus where negative."
    fn int(&mut self, bits: u64) {
        self.out.extend((bits as i64).to_string().bytes());
    }

    /// "Strings stand in double quotes, with backslash, double quote, line feed, tab and carriage return escaped."
    fn string(&mut self, start: usize, length: usize) {
        self.out.push(b'"');
        for &byte in &self.text[start..start + length] {
            match byte {
                b'\\' => self.out.extend(b"\\\\"),
                b'"' => self.out.extend(b"\\\""),
                b'\n' => self.out.extend(b"\\n"),
                b'\t' => self.out.extend(b"\\t"),
                b'\r' => self.out.extend(b"\\r"),
                byte => self.out.push(byte),
            }
        }
        self.out.push(b'"');
    }
}
