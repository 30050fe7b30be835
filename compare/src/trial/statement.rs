//! Program, Line, Simple, Block, Class.

use super::Trial;
use crate::token::Kind;
use crate::words::{kind, NONE};

impl Trial<'_> {
    /// Program: Newlines, Lines each with Newlines around, end; 0 to n.
    pub(super) fn program(&mut self) -> Option<u32> {
        self.newlines();
        let list = self.lines();
        self.token(Kind::Eof)?;
        self.nodes.push([kind::PROGRAM, 0, self.src.len() as u32, NONE, list, 0, 0, 0]);
        Some(self.nodes.len() as u32 - 1)
    }

    fn newlines(&mut self) {
        self.repeated(|t| t.token(Kind::Newline));
    }

    fn one_or_more_newlines(&mut self) -> Option<()> {
        self.token(Kind::Newline)?;
        self.newlines();
        Some(())
    }

    fn lines(&mut self) -> u32 {
        let lines = self.repeated(|t| {
            t.newlines();
            let line = t.line()?;
            t.newlines();
            Some(line)
        });
        self.link(&lines.concat())
    }

    /// Line: class, def, if, while, for, or simples.
    fn line(&mut self) -> Option<Vec<u32>> {
        let alternatives: [fn(&mut Self) -> Option<u32>; 5] =
            [Self::class, |t| t.function(kind::DEF), Self::branches, Self::while_loop, Self::for_loop];
        let compound = alternatives.iter().find_map(|alternative| self.part(alternative));
        compound.map(|node| vec![node]).or_else(|| self.part(Self::simples))
    }

    /// Simple separated by `;`, one trailing allowed, then Newline or end.
    fn simples(&mut self) -> Option<Vec<u32>> {
        let mut simples = vec![self.simple()?];
        simples.extend(self.repeated(|t| {
            t.token(Kind::Semicolon)?;
            t.simple()
        }));
        self.part(|t| t.token(Kind::Semicolon));
        self.token(Kind::Newline).or_else(|| self.token(Kind::Eof))?;
        Some(simples)
    }

    /// Simple: return t; t = t; t; break; continue; pass.
    fn simple(&mut self) -> Option<u32> {
        let words = [(Kind::Break, kind::BREAK), (Kind::Continue, kind::CONTINUE), (Kind::Pass, kind::PASS)];
        let first = self.at;
        let returned = |t: &mut Self| {
            t.token(Kind::Return)?;
            let value = t.t()?;
            Some(t.node(kind::RETURN, first, [value, 0, 0, 0]))
        };
        let assigned = |t: &mut Self| {
            let target = t.t()?;
            t.token(Kind::Equal)?;
            let value = t.t()?;
            t.widen(target, first);
            Some(t.node(kind::ASSIGN, first, [target, value, 0, 0]))
        };
        let alone = |t: &mut Self| {
            let value = t.t()?;
            Some(t.node(kind::EXPR, first, [value, 0, 0, 0]))
        };
        let word = |t: &mut Self| {
            let kind = t.one_of(&words)?;
            Some(t.node(kind, first, [0; 4]))
        };
        let begun = self.part(returned).or_else(|| self.part(assigned));
        begun.or_else(|| self.part(alone)).or_else(|| self.part(word))
    }

    /// Block: colon, then one or more Newlines, Indent, Lines, Dedent; or simples.
    fn block(&mut self) -> Option<u32> {
        self.token(Kind::Colon)?;
        let indented = |t: &mut Self| {
            t.one_or_more_newlines()?;
            t.token(Kind::Indent)?;
            let list = t.lines();
            t.token(Kind::Dedent)?;
            Some(list)
        };
        self.part(indented).or_else(|| {
            self.part(|t| {
                let simples = t.simples()?;
                Some(t.link(&simples))
            })
        })
    }

    /// A keyword, E, Block: condition and list.
    fn conditional(&mut self, keyword: Kind) -> Option<(u32, u32)> {
        self.token(keyword)?;
        Some((self.e()?, self.block()?))
    }

    fn branches(&mut self) -> Option<u32> {
        let first = self.at;
        let (condition, body) = self.conditional(Kind::If)?;
        let elifs = self.repeated(|t| {
            let first = t.at;
            let (condition, body) = t.conditional(Kind::Elif)?;
            Some(t.node(kind::ELIF, first, [condition, body, 0, 0]))
        });
        let elifs = self.link(&elifs);
        let otherwise = self.part(|t| {
            let first = t.at;
            t.token(Kind::Else)?;
            let body = t.block()?;
            Some(t.node(kind::ELSE, first, [body, 0, 0, 0]))
        });
        Some(self.node(kind::IF, first, [condition, body, elifs, otherwise.unwrap_or(NONE)]))
    }

    fn while_loop(&mut self) -> Option<u32> {
        let first = self.at;
        let (condition, body) = self.conditional(Kind::While)?;
        Some(self.node(kind::WHILE, first, [condition, body, 0, 0]))
    }

    fn for_loop(&mut self) -> Option<u32> {
        let first = self.at;
        self.token(Kind::For)?;
        let (start, end) = self.name()?;
        let (iterable, body) = self.conditional(Kind::In)?;
        Some(self.node(kind::FOR, first, [start, end, iterable, body]))
    }

    /// def and Method: name, (names), Block.
    fn function(&mut self, kind: u32) -> Option<u32> {
        let first = self.at;
        self.token(Kind::Def)?;
        let (start, end) = self.name()?;
        self.token(Kind::LParen)?;
        let names = self.names();
        self.token(Kind::RParen)?;
        let body = self.block()?;
        Some(self.node(kind, first, [start, end, names, body]))
    }

    /// Class: name, colon, one or more Newlines, Indent, one or more Methods with no Newline between, Dedent.
    fn class(&mut self) -> Option<u32> {
        let first = self.at;
        self.token(Kind::Class)?;
        let (start, end) = self.name()?;
        self.token(Kind::Colon)?;
        self.one_or_more_newlines()?;
        self.token(Kind::Indent)?;
        let methods = self.repeated(|t| t.function(kind::METHOD));
        if methods.is_empty() {
            return None;
        }
        self.token(Kind::Dedent)?;
        let list = self.link(&methods);
        Some(self.node(kind::CLASS, first, [start, end, list, 0]))
    }
}
