//! Program, Line, Simple, Block, Class.

use super::expression::begins_expression;
use super::{Descent, Read};
use crate::token::Kind;
use crate::tree::{Elif, Else, Function, Method, Span, Stmt, StmtKind};

/// What can begin Simple.
fn begins_simple(kind: Kind) -> bool {
    begins_expression(kind) || matches!(kind, Kind::Return | Kind::Break | Kind::Continue | Kind::Pass)
}

/// What can begin Line.
fn begins_line(kind: Kind) -> bool {
    begins_simple(kind) || matches!(kind, Kind::Class | Kind::Def | Kind::If | Kind::While | Kind::For)
}

impl Descent<'_> {
    /// Program: Lines each with Newlines around, end. Opened once, always.
    pub(super) fn program(&mut self) -> Read<Vec<Stmt>> {
        self.openings += 1;
        let lines = self.lines()?;
        self.expect(Kind::Eof)?;
        self.written += 1;
        Ok(lines)
    }

    fn newlines(&mut self) {
        while self.take_if(Kind::Newline) {}
    }

    fn lines(&mut self) -> Read<Vec<Stmt>> {
        let mut lines = Vec::new();
        self.newlines();
        while begins_line(self.kind()) {
            self.line(&mut lines)?;
            self.newlines();
        }
        Ok(lines)
    }

    /// Line: class, def, if, while, for, or simples.
    fn line(&mut self, lines: &mut Vec<Stmt>) -> Read<()> {
        self.open(begins_line)?;
        let start = self.token().start;
        let kind = match self.kind() {
            Kind::Class => self.class()?,
            Kind::Def => {
                self.take();
                StmtKind::Def(self.function()?)
            }
            Kind::If => self.branches()?,
            Kind::While => {
                self.take();
                StmtKind::While(self.e()?, self.block()?)
            }
            Kind::For => {
                self.take();
                let name = self.name()?;
                self.expect(Kind::In)?;
                StmtKind::For(name, self.e()?, self.block()?)
            }
            _ => return self.simples(lines),
        };
        let stmt = self.stmt(start, kind);
        lines.push(stmt);
        Ok(())
    }

    fn stmt(&mut self, start: u32, kind: StmtKind) -> Stmt {
        self.written += 1;
        Stmt { span: self.span_from(start), kind }
    }

    /// Simples: Simple separated by `;`, one trailing allowed, then Newline or end.
    fn simples(&mut self, lines: &mut Vec<Stmt>) -> Read<()> {
        loop {
            let simple = self.simple()?;
            lines.push(simple);
            if !self.take_if(Kind::Semicolon) || !begins_simple(self.kind()) {
                break;
            }
        }
        if self.kind() != Kind::Eof {
            self.expect(Kind::Newline)?;
        }
        Ok(())
    }

    /// Simple: return t; t = t; t; break; continue; pass.
    fn simple(&mut self) -> Read<Stmt> {
        self.open(begins_simple)?;
        let start = self.token().start;
        let kind = match self.kind() {
            Kind::Return => {
                self.take();
                StmtKind::Return(self.t()?)
            }
            Kind::Break => self.word(StmtKind::Break),
            Kind::Continue => self.word(StmtKind::Continue),
            Kind::Pass => self.word(StmtKind::Pass),
            _ => return self.assignment(start),
        };
        Ok(self.stmt(start, kind))
    }

    fn word(&mut self, kind: StmtKind) -> StmtKind {
        self.take();
        kind
    }

    /// t = t or t. An Assign target takes the statement's span.
    fn assignment(&mut self, start: u32) -> Read<Stmt> {
        let mut target = self.t()?;
        if !self.take_if(Kind::Equal) {
            return Ok(self.stmt(start, StmtKind::Expr(target)));
        }
        let value = self.t()?;
        target.span = self.span_from(start);
        Ok(self.stmt(start, StmtKind::Assign(target, value)))
    }

    /// Block, opened at its colon: one or more Newlines, Indent, Lines, Dedent; or simples.
    fn block(&mut self) -> Read<Vec<Stmt>> {
        self.open_deeper(|kind| kind == Kind::Colon)?;
        self.take();
        let mut body = Vec::new();
        if self.kind() == Kind::Newline {
            self.newlines();
            self.expect(Kind::Indent)?;
            body = self.lines()?;
            self.expect(Kind::Dedent)?;
        } else {
            self.simples(&mut body)?;
        }
        self.depth -= 1;
        Ok(body)
    }

    /// if E, Block; then any elif E, Block, and else Block, which must follow at once.
    fn branches(&mut self) -> Read<StmtKind> {
        self.take();
        let condition = self.e()?;
        let body = self.block()?;
        let mut elifs = Vec::new();
        while self.kind() == Kind::Elif {
            let start = self.take().start;
            let condition = self.e()?;
            let body = self.block()?;
            elifs.push(Elif { span: self.span_from(start), condition, body });
            self.written += 1;
        }
        let mut otherwise = None;
        if self.kind() == Kind::Else {
            let start = self.take().start;
            let body = self.block()?;
            otherwise = Some(Else { span: self.span_from(start), body });
            self.written += 1;
        }
        Ok(StmtKind::If { condition, body, elifs, otherwise })
    }

    /// Behind def: name, (names), Block.
    fn function(&mut self) -> Read<Function> {
        let name = self.name()?;
        self.expect(Kind::LParen)?;
        let parameters = self.parameters(Kind::RParen)?;
        let body = self.block()?;
        Ok(Function { name, parameters, body })
    }

    /// Class, opened at its keyword: name, colon, one or more Newlines, Indent, one or more Methods, Dedent.
    fn class(&mut self) -> Read<StmtKind> {
        self.open(|kind| kind == Kind::Class)?;
        self.take();
        let name: Span = self.name()?;
        self.expect(Kind::Colon)?;
        self.expect(Kind::Newline)?;
        self.newlines();
        self.expect(Kind::Indent)?;
        let mut methods = vec![self.method()?];
        while self.kind() == Kind::Def {
            methods.push(self.method()?);
        }
        self.expect(Kind::Dedent)?;
        Ok(StmtKind::Class(name, methods))
    }

    fn method(&mut self) -> Read<Method> {
        let start = self.expect(Kind::Def)?.start;
        let function = self.function()?;
        self.written += 1;
        Ok(Method { span: self.span_from(start), function })
    }
}
