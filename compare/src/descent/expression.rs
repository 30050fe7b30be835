//! E, O, A, C, S, P, U, F, and t, lists and parentheses, which are no rules.

use super::{Descent, Read};
use crate::literal;
use crate::token::Kind;
use crate::tree::{BinaryOp, Expr, ExprKind, Span, UnaryOp};

/// What can begin F.
pub fn begins_factor(kind: Kind) -> bool {
    matches!(
        kind,
        Kind::None | Kind::Bool | Kind::Int | Kind::Str | Kind::Name | Kind::Float | Kind::LParen | Kind::LBracket | Kind::LBrace
    )
}

/// What can begin O, A, C, S, P and U.
fn begins_operation(kind: Kind) -> bool {
    begins_factor(kind) || sign(kind).is_some()
}

/// What can begin E.
pub fn begins_expression(kind: Kind) -> bool {
    begins_operation(kind) || kind == Kind::Lambda
}

fn sign(kind: Kind) -> Option<UnaryOp> {
    match kind {
        Kind::Not => Some(UnaryOp::Not),
        Kind::Minus => Some(UnaryOp::Negate),
        Kind::Plus => Some(UnaryOp::Pos),
        _ => None,
    }
}

fn or(kind: Kind) -> Option<BinaryOp> {
    (kind == Kind::Or).then_some(BinaryOp::Or)
}

fn and(kind: Kind) -> Option<BinaryOp> {
    (kind == Kind::And).then_some(BinaryOp::And)
}

fn comparison(kind: Kind) -> Option<BinaryOp> {
    match kind {
        Kind::EqualEqual => Some(BinaryOp::Equal),
        Kind::NotEqual => Some(BinaryOp::NotEqual),
        Kind::Less => Some(BinaryOp::Less),
        Kind::LessEqual => Some(BinaryOp::LessEqual),
        Kind::Greater => Some(BinaryOp::Greater),
        Kind::GreaterEqual => Some(BinaryOp::GreaterEqual),
        _ => None,
    }
}

fn sum(kind: Kind) -> Option<BinaryOp> {
    match kind {
        Kind::Plus => Some(BinaryOp::Add),
        Kind::Minus => Some(BinaryOp::Subtract),
        _ => None,
    }
}

fn product(kind: Kind) -> Option<BinaryOp> {
    match kind {
        Kind::Star => Some(BinaryOp::Multiply),
        Kind::SlashSlash => Some(BinaryOp::FloorDivide),
        Kind::Slash => Some(BinaryOp::Divide),
        Kind::Percent => Some(BinaryOp::Modulo),
        _ => None,
    }
}

impl Descent<'_> {
    fn expr(&mut self, span: Span, kind: ExprKind) -> Expr {
        self.written += 1;
        Expr { span, kind }
    }

    fn binary(&mut self, op: BinaryOp, left: Expr, right: Expr) -> Expr {
        let span = Span { start: left.span.start, end: right.span.end };
        self.expr(span, ExprKind::Binary(op, Box::new(left), Box::new(right)))
    }

    /// t: E separated by commas, trailing allowed; one E alone stays that E. "One E with a trailing comma .. is now a Tuple of one
    /// whose span includes the comma" (02, change 5).
    pub(super) fn t(&mut self) -> Read<Expr> {
        let first = self.e()?;
        if !self.take_if(Kind::Comma) {
            return Ok(first);
        }
        let start = first.span.start;
        let mut members = vec![first];
        members.append(&mut self.members(begins_expression, Self::e)?);
        let span = self.span_from(start);
        Ok(self.expr(span, ExprKind::Tuple(members)))
    }

    /// E: lambda names : E, or O.
    pub(super) fn e(&mut self) -> Read<Expr> {
        self.open_deeper(begins_expression)?;
        let expr = if self.kind() == Kind::Lambda { self.lambda()? } else { self.o()? };
        self.depth -= 1;
        Ok(expr)
    }

    fn lambda(&mut self) -> Read<Expr> {
        let start = self.take().start;
        let names = self.parameters(Kind::Colon)?;
        let body = self.e()?;
        let span = self.span_from(start);
        Ok(self.expr(span, ExprKind::Lambda(names, Box::new(body))))
    }

    /// Opens a rule of members that group left.
    fn grouped(&mut self, op: impl Fn(Kind) -> Option<BinaryOp>, member: impl Fn(&mut Self) -> Read<Expr>) -> Read<Expr> {
        self.open(begins_operation)?;
        let mut left = member(self)?;
        while let Some(op) = op(self.kind()) {
            self.take();
            let right = member(self)?;
            left = self.binary(op, left, right);
        }
        Ok(left)
    }

    fn o(&mut self) -> Read<Expr> {
        self.grouped(or, Self::a)
    }

    fn a(&mut self) -> Read<Expr> {
        self.grouped(and, Self::c)
    }

    /// C: S by comparisons. One makes a Binary, more a Chain: each adds its comparison and an And.
    fn c(&mut self) -> Read<Expr> {
        self.open(begins_operation)?;
        let first = self.s()?;
        let Some(op) = comparison(self.kind()) else { return Ok(first) };
        self.take();
        let second = self.s()?;
        if comparison(self.kind()).is_none() {
            return Ok(self.binary(op, first, second));
        }
        self.written += 1;
        let start = first.span.start;
        let mut rest = vec![(op, second)];
        while let Some(op) = comparison(self.kind()) {
            self.take();
            rest.push((op, self.s()?));
            self.written += 2;
        }
        Ok(Expr { span: self.span_from(start), kind: ExprKind::Chain(Box::new(first), rest) })
    }

    fn s(&mut self) -> Read<Expr> {
        self.grouped(sum, Self::p)
    }

    fn p(&mut self) -> Read<Expr> {
        self.grouped(product, Self::u)
    }

    /// U: any of not - +, then F.
    fn u(&mut self) -> Read<Expr> {
        self.open(begins_operation)?;
        let mut signs = Vec::new();
        while let Some(op) = sign(self.kind()) {
            signs.push((op, self.take().start));
        }
        let mut expr = self.f()?;
        for (op, start) in signs.into_iter().rev() {
            let span = Span { start, end: expr.span.end };
            expr = self.expr(span, ExprKind::Unary(op, Box::new(expr)));
        }
        Ok(expr)
    }

    /// F: what stands alone, then .name (list) [E] repeated.
    fn f(&mut self) -> Read<Expr> {
        self.open(begins_factor)?;
        let mut expr = self.alone()?;
        loop {
            let start = expr.span.start;
            let kind = match self.kind() {
                Kind::Dot => {
                    self.take();
                    ExprKind::Attribute(Box::new(expr), self.name()?)
                }
                Kind::LParen => {
                    self.take();
                    ExprKind::Call(Box::new(expr), self.list(Kind::RParen)?)
                }
                Kind::LBracket => {
                    self.take();
                    let index = self.e()?;
                    self.expect(Kind::RBracket)?;
                    ExprKind::Index(Box::new(expr), Box::new(index))
                }
                _ => return Ok(expr),
            };
            let span = self.span_from(start);
            expr = self.expr(span, kind);
        }
    }

    fn alone(&mut self) -> Read<Expr> {
        let token = self.take();
        let start = token.start;
        let kind = match token.kind {
            Kind::None => ExprKind::None,
            Kind::Bool => ExprKind::Bool(token.value == 1),
            Kind::Int => ExprKind::Int(token.value as i64),
            Kind::Float => ExprKind::Float(f64::from_bits(token.value), Span { start, end: token.end }),
            Kind::Str => ExprKind::Str(literal::decode(&self.src[start as usize + 1..token.end as usize - 1])),
            Kind::Name if self.kind() == Kind::LBrace && &self.src[start as usize..token.end as usize] == b"t" => {
                self.take();
                ExprKind::TreeSet(self.list(Kind::RBrace)?)
            }
            Kind::Name => ExprKind::Variable(Span { start, end: token.end }),
            Kind::LBracket => ExprKind::List(self.list(Kind::RBracket)?),
            Kind::LBrace => self.braces()?,
            _ => return self.parentheses(start),
        };
        let span = self.span_from(start);
        Ok(self.expr(span, kind))
    }

    /// A list of E and its closer.
    fn list(&mut self, closer: Kind) -> Read<Vec<Expr>> {
        let members = self.members(begins_expression, Self::e)?;
        self.expect(closer)?;
        Ok(members)
    }

    /// Behind `{`: {} is a Dict, else the first E decides, a colon for pairs.
    fn braces(&mut self) -> Read<ExprKind> {
        if self.take_if(Kind::RBrace) {
            return Ok(ExprKind::Dict(Vec::new()));
        }
        let first = self.e()?;
        if self.kind() != Kind::Colon {
            let members = self.behind(first, Self::e)?;
            return Ok(ExprKind::Set(members));
        }
        let first = self.value_of(first)?;
        let pairs = self.behind(first, |reader| {
            let key = reader.e()?;
            reader.value_of(key)
        })?;
        Ok(ExprKind::Dict(pairs))
    }

    /// The rest of a list in braces, whose first member is read.
    fn behind<T>(&mut self, first: T, member: impl Fn(&mut Self) -> Read<T>) -> Read<Vec<T>> {
        let mut members = vec![first];
        if self.take_if(Kind::Comma) {
            members.append(&mut self.members(begins_expression, member)?);
        }
        self.expect(Kind::RBrace)?;
        Ok(members)
    }

    /// A Pair whose key is read.
    fn value_of(&mut self, key: Expr) -> Read<(Expr, Expr)> {
        self.expect(Kind::Colon)?;
        let value = self.e()?;
        self.written += 1;
        Ok((key, value))
    }

    /// Behind `(`: (E) is E with the wider span; (E, list) is a Tuple; `())` is the empty Tuple.
    fn parentheses(&mut self, start: u32) -> Read<Expr> {
        let mut members = Vec::new();
        if self.take_if(Kind::RParen) {
            self.expect(Kind::RParen)?;
        } else {
            let first = self.e()?;
            if self.take_if(Kind::RParen) {
                return Ok(Expr { span: self.span_from(start), kind: first.kind });
            }
            self.expect(Kind::Comma)?;
            members.push(first);
            members.append(&mut self.list(Kind::RParen)?);
        }
        let span = self.span_from(start);
        Ok(self.expr(span, ExprKind::Tuple(members)))
    }
}
