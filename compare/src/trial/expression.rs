//! E to F, t, parentheses.

use super::Trial;
use crate::literal;
use crate::token::Kind;
use crate::words::{kind, NONE};

/// Operators with their numbers: 1 Add to 6 Modulo, 7 Equal to 12 GreaterEqual, 13 And, 14 Or.
const OR: &[(Kind, u32)] = &[(Kind::Or, 14)];
const AND: &[(Kind, u32)] = &[(Kind::And, 13)];
const COMPARISONS: &[(Kind, u32)] = &[
    (Kind::EqualEqual, 7),
    (Kind::NotEqual, 8),
    (Kind::Less, 9),
    (Kind::LessEqual, 10),
    (Kind::Greater, 11),
    (Kind::GreaterEqual, 12),
];
const SUMS: &[(Kind, u32)] = &[(Kind::Plus, 1), (Kind::Minus, 2)];
const PRODUCTS: &[(Kind, u32)] = &[(Kind::Star, 3), (Kind::SlashSlash, 5), (Kind::Slash, 4), (Kind::Percent, 6)];
const SIGNS: &[(Kind, u32)] = &[(Kind::Not, 1), (Kind::Minus, 2), (Kind::Plus, 3)];

impl Trial<'_> {
    /// t: one E alone stays that E, more make a Tuple. 02, change 5: so does a trailing comma, the alternative behind that of more.
    pub(super) fn t(&mut self) -> Option<u32> {
        let first = self.at;
        let one = self.e()?;
        let several = |t: &mut Self| {
            t.token(Kind::Comma)?;
            t.members(Self::e)
        };
        let trailing = |t: &mut Self| t.token(Kind::Comma).map(|()| Vec::new());
        let Some(others) = self.part(several).or_else(|| self.part(trailing)) else {
            return Some(one);
        };
        let list = self.link(&[vec![one], others].concat());
        Some(self.node(kind::TUPLE, first, [list, 0, 0, 0]))
    }

    /// E: lambda names : E, or O.
    pub(super) fn e(&mut self) -> Option<u32> {
        let at = self.at;
        if self.failed[at] {
            return None;
        }
        let taken = self.part(Self::lambda).or_else(|| self.part(Self::o));
        self.failed[at] = taken.is_none();
        taken
    }

    fn lambda(&mut self) -> Option<u32> {
        let first = self.at;
        self.token(Kind::Lambda)?;
        let names = self.names();
        self.token(Kind::Colon)?;
        let body = self.e()?;
        Some(self.node(kind::LAMBDA, first, [names, body, 0, 0]))
    }

    fn grouped(&mut self, operators: &[(Kind, u32)], member: fn(&mut Self) -> Option<u32>) -> Option<u32> {
        let first = self.at;
        let mut left = member(self)?;
        while let Some((operator, right)) = self.part(|t| Some((t.one_of(operators)?, member(t)?))) {
            left = self.node(kind::BINARY, first, [operator, left, right, 0]);
        }
        Some(left)
    }

    fn o(&mut self) -> Option<u32> {
        self.grouped(OR, Self::a)
    }

    fn a(&mut self) -> Option<u32> {
        self.grouped(AND, Self::c)
    }

    /// C: a chain `a<b<c` is And(a<b, b<c), the middle node referred to twice.
    fn c(&mut self) -> Option<u32> {
        let first = self.at;
        let mut operand_first = first;
        let mut operand = self.s()?;
        let mut whole = NONE;
        loop {
            let taken = self.part(|t| {
                let operator = t.one_of(COMPARISONS)?;
                Some((operator, t.at, t.s()?))
            });
            let Some((operator, right_first, right)) = taken else { break };
            let comparison = self.node(kind::BINARY, operand_first, [operator, operand, right, 0]);
            let chained = whole != NONE;
            whole = if chained { self.node(kind::BINARY, first, [13, whole, comparison, 0]) } else { comparison };
            (operand_first, operand) = (right_first, right);
        }
        Some(if whole == NONE { operand } else { whole })
    }

    fn s(&mut self) -> Option<u32> {
        self.grouped(SUMS, Self::p)
    }

    fn p(&mut self) -> Option<u32> {
        self.grouped(PRODUCTS, Self::u)
    }

    /// U: any of not - +, then F.
    fn u(&mut self) -> Option<u32> {
        let signs = self.repeated(|t| Some((t.at, t.one_of(SIGNS)?)));
        let mut operand = self.f()?;
        for (first, sign) in signs.into_iter().rev() {
            operand = self.node(kind::UNARY, first, [sign, operand, 0, 0]);
        }
        Some(operand)
    }

    /// F: literal; [list]; t{list}; {} as Dict, {pairs}, {list}; parentheses; name; then .name (list) [E] repeated.
    fn f(&mut self) -> Option<u32> {
        let first = self.at;
        let alternatives: [fn(&mut Self) -> Option<u32>; 8] = [
            Self::literal,
            |t| t.enclosed(kind::LIST, Kind::LBracket, Kind::RBracket, Self::e),
            Self::tree_set,
            Self::empty_dict,
            |t| t.enclosed(kind::DICT, Kind::LBrace, Kind::RBrace, Self::pair),
            |t| t.enclosed(kind::SET, Kind::LBrace, Kind::RBrace, Self::e),
            Self::parentheses,
            Self::variable,
        ];
        let mut whole = alternatives.iter().find_map(|alternative| self.part(alternative))?;
        while let Some((kind, words)) = self.part(|t| t.suffix(whole)) {
            whole = self.node(kind, first, words);
        }
        Some(whole)
    }

    /// What stands behind `object`: the kind and words of the node it makes.
    fn suffix(&mut self, object: u32) -> Option<(u32, [u32; 4])> {
        let attribute = |t: &mut Self| {
            t.token(Kind::Dot)?;
            let (start, end) = t.name()?;
            Some((kind::ATTRIBUTE, [object, start, end, 0]))
        };
        let call = |t: &mut Self| {
            t.token(Kind::LParen)?;
            let arguments = t.list(Self::e);
            t.token(Kind::RParen)?;
            Some((kind::CALL, [object, arguments, 0, 0]))
        };
        let index = |t: &mut Self| {
            t.token(Kind::LBracket)?;
            let index = t.e()?;
            t.token(Kind::RBracket)?;
            Some((kind::INDEX, [object, index, 0, 0]))
        };
        self.part(attribute).or_else(|| self.part(call)).or_else(|| self.part(index))
    }

    fn literal(&mut self) -> Option<u32> {
        let first = self.at;
        let kinds = [
            (Kind::None, kind::NONE),
            (Kind::Bool, kind::BOOL),
            (Kind::Int, kind::INT),
            (Kind::Str, kind::STRING),
            (Kind::Float, kind::FLOAT),
        ];
        let kind = self.one_of(&kinds)?;
        let token = self.tokens[first];
        let mut words = [token.value as u32, (token.value >> 32) as u32, 0, 0];
        if kind == kind::STRING {
            let decoded = literal::decode(&self.src[token.start as usize + 1..token.end as usize - 1]);
            words = [self.text.len() as u32, decoded.len() as u32, 0, 0];
            self.text.extend(decoded);
        }
        if kind == kind::FLOAT {
            [words[2], words[3]] = [token.start, token.end];
        }
        Some(self.node(kind, first, words))
    }

    fn variable(&mut self) -> Option<u32> {
        let first = self.at;
        let (start, end) = self.name()?;
        Some(self.node(kind::VARIABLE, first, [start, end, 0, 0]))
    }

    /// A node that is a list between two tokens.
    fn enclosed(&mut self, kind: u32, opener: Kind, closer: Kind, member: fn(&mut Self) -> Option<u32>) -> Option<u32> {
        let first = self.at;
        self.token(opener)?;
        let list = self.list(member);
        self.token(closer)?;
        Some(self.node(kind, first, [list, 0, 0, 0]))
    }

    fn tree_set(&mut self) -> Option<u32> {
        let first = self.at;
        let (start, end) = self.name()?;
        if &self.src[start as usize..end as usize] != b"t" {
            return None;
        }
        let set = self.enclosed(kind::TREE_SET, Kind::LBrace, Kind::RBrace, Self::e)?;
        self.widen(set, first);
        Some(set)
    }

    fn empty_dict(&mut self) -> Option<u32> {
        let first = self.at;
        self.token(Kind::LBrace)?;
        self.token(Kind::RBrace)?;
        Some(self.node(kind::DICT, first, [NONE, 0, 0, 0]))
    }

    fn pair(&mut self) -> Option<u32> {
        let first = self.at;
        let key = self.e()?;
        self.token(Kind::Colon)?;
        let value = self.e()?;
        Some(self.node(kind::PAIR, first, [key, value, 0, 0]))
    }

    /// Parentheses are tried as (E), (E, list), `())`.
    fn parentheses(&mut self) -> Option<u32> {
        let first = self.at;
        let around = |t: &mut Self| {
            t.token(Kind::LParen)?;
            let inner = t.e()?;
            t.token(Kind::RParen)?;
            t.widen(inner, first);
            Some(inner)
        };
        let tuple = |t: &mut Self| {
            t.token(Kind::LParen)?;
            let head = t.e()?;
            t.token(Kind::Comma)?;
            let tail = t.list(Self::e);
            t.nodes[head as usize][crate::words::NEXT] = tail;
            t.token(Kind::RParen)?;
            Some(t.node(kind::TUPLE, first, [head, 0, 0, 0]))
        };
        let empty = |t: &mut Self| {
            t.token(Kind::LParen)?;
            t.token(Kind::RParen)?;
            t.token(Kind::RParen)?;
            Some(t.node(kind::TUPLE, first, [NONE, 0, 0, 0]))
        };
        self.part(around).or_else(|| self.part(tuple)).or_else(|| self.part(empty))
    }
}
