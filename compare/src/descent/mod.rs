//! The predictive reading: a rule is opened only on a token that can begin it, and the next token decides. Refusals 13 and 14.

pub mod expression;
mod statement;

use crate::token::{Kind, Token};
use crate::tree::{Span, Stmt};
use crate::Refused;

/// At most so many E and Block are open at once.
const DEPTH: u32 = 64;

/// What the descent hands back, in a refusal as well: its openings, its nodes written, and how many tokens it took.
pub struct Descended {
    pub openings: u32,
    pub written: u32,
    pub taken: usize,
    pub program: Result<Vec<Stmt>, Refused>,
}

/// Reads `tokens`, the scanner's for `src`.
pub fn descend(src: &[u8], tokens: &[Token]) -> Descended {
    descend_to(DEPTH, src, tokens)
}

/// The same, with at most `limit` E and Block open at once.
pub fn descend_to(limit: u32, src: &[u8], tokens: &[Token]) -> Descended {
    let mut reader = Descent { src, tokens, limit, at: 0, depth: 0, openings: 0, written: 0 };
    let program = reader.program();
    Descended { openings: reader.openings, written: reader.written, taken: reader.at, program }
}

struct Descent<'a> {
    src: &'a [u8],
    tokens: &'a [Token],
    limit: u32,
    at: usize,
    depth: u32,
    openings: u32,
    written: u32,
}

type Read<T> = Result<T, Refused>;

impl Descent<'_> {
    fn token(&self) -> Token {
        self.tokens[self.at]
    }

    fn kind(&self) -> Kind {
        self.tokens[self.at].kind
    }

    /// Takes the next token, which is not Eof.
    fn take(&mut self) -> Token {
        let token = self.token();
        self.at += 1;
        token
    }

    fn take_if(&mut self, kind: Kind) -> bool {
        let fits = self.kind() == kind;
        if fits {
            self.at += 1;
        }
        fits
    }

    fn expect(&mut self, kind: Kind) -> Read<Token> {
        if self.kind() == kind {
            Ok(self.take())
        } else {
            Err(self.refused(14))
        }
    }

    fn name(&mut self) -> Read<Span> {
        let token = self.expect(Kind::Name)?;
        Ok(Span { start: token.start, end: token.end })
    }

    fn refused(&self, number: u32) -> Refused {
        Refused { number, place: self.token().start }
    }

    /// Opens a rule, if the next token can begin it.
    fn open(&mut self, begins: impl Fn(Kind) -> bool) -> Read<()> {
        if !begins(self.kind()) {
            return Err(self.refused(14));
        }
        self.openings += 1;
        Ok(())
    }

    /// Opens E or Block: these count towards the depth too, and an opening that 13 refuses isn't counted.
    fn open_deeper(&mut self, begins: impl Fn(Kind) -> bool) -> Read<()> {
        if self.depth == self.limit && begins(self.kind()) {
            return Err(self.refused(13));
        }
        self.open(begins)?;
        self.depth += 1;
        Ok(())
    }

    /// From `start` to the last token taken.
    fn span_from(&self, start: u32) -> Span {
        Span { start, end: self.tokens[self.at - 1].end }
    }

    /// Members with commas between, one trailing allowed; none where the next token can't begin one.
    fn members<T>(&mut self, begins: impl Fn(Kind) -> bool, member: impl Fn(&mut Self) -> Read<T>) -> Read<Vec<T>> {
        let mut members = Vec::new();
        while begins(self.kind()) {
            members.push(member(self)?);
            if !self.take_if(Kind::Comma) {
                break;
            }
        }
        Ok(members)
    }

    /// Names, each of them a node, up to `closer`.
    fn parameters(&mut self, closer: Kind) -> Read<Vec<Span>> {
        let names = self.members(
            |kind| kind == Kind::Name,
            |reader| {
                reader.written += 1;
                reader.name()
            },
        )?;
        self.expect(closer)?;
        Ok(names)
    }
}
