//! The tree in words: a node is written when its last part is read, so parts come before their owner, in source order.

use crate::tree::{BinaryOp, Elif, Else, Expr, ExprKind, Function, Method, Span, Stmt, StmtKind};
use crate::words::{kind, Record, NEXT, NONE};

/// The records, and the text that the decoded strings fill.
#[derive(Default)]
pub struct Layout {
    pub nodes: Vec<Record>,
    pub text: Vec<u8>,
}

/// Lays out a program of `n` bytes.
pub fn lay_out(program: &[Stmt], n: u32) -> Layout {
    let mut out = Layout::default();
    let first = out.list(program, Layout::stmt);
    out.node(kind::PROGRAM, Span { start: 0, end: n }, [first, 0, 0, 0]);
    out
}

/// The low half and the high half of 64 bits.
fn halves(bits: u64) -> [u32; 2] {
    [bits as u32, (bits >> 32) as u32]
}

impl Layout {
    fn node(&mut self, kind: u32, span: Span, [p, q, r, s]: [u32; 4]) -> u32 {
        self.nodes.push([kind, span.start, span.end, NONE, p, q, r, s]);
        self.nodes.len() as u32 - 1
    }

    /// A list is its first node or none, then next.
    fn list<T>(&mut self, members: &[T], lay: fn(&mut Self, &T) -> u32) -> u32 {
        let mut first = NONE;
        let mut last = NONE;
        for member in members {
            let node = lay(self, member);
            match last {
                NONE => first = node,
                _ => self.nodes[last as usize][NEXT] = node,
            }
            last = node;
        }
        first
    }

    fn name(&mut self, name: &Span) -> u32 {
        self.node(kind::NAME, *name, [name.start, name.end, 0, 0])
    }

    fn pair(&mut self, (key, value): &(Expr, Expr)) -> u32 {
        let parts = [self.expr(key), self.expr(value), 0, 0];
        self.node(kind::PAIR, Span { start: key.span.start, end: value.span.end }, parts)
    }

    fn expr(&mut self, expr: &Expr) -> u32 {
        let (kind, words) = match &expr.kind {
            ExprKind::Bool(value) => (kind::BOOL, [u32::from(*value), 0, 0, 0]),
            ExprKind::Int(value) => {
                let [p, q] = halves(*value as u64);
                (kind::INT, [p, q, 0, 0])
            }
            ExprKind::Float(value, token) => {
                let [p, q] = halves(value.to_bits());
                (kind::FLOAT, [p, q, token.start, token.end])
            }
            ExprKind::Str(bytes) => (kind::STRING, self.string(bytes)),
            ExprKind::None => (kind::NONE, [0; 4]),
            ExprKind::Variable(name) => (kind::VARIABLE, [name.start, name.end, 0, 0]),
            ExprKind::Unary(op, part) => (kind::UNARY, [*op as u32, self.expr(part), 0, 0]),
            ExprKind::Binary(op, left, right) => (kind::BINARY, [*op as u32, self.expr(left), self.expr(right), 0]),
            ExprKind::Chain(first, rest) => return self.chain(expr.span, first, rest),
            ExprKind::Call(callee, args) => (kind::CALL, [self.expr(callee), self.list(args, Self::expr), 0, 0]),
            ExprKind::Attribute(object, name) => (kind::ATTRIBUTE, [self.expr(object), name.start, name.end, 0]),
            ExprKind::List(members) => (kind::LIST, [self.list(members, Self::expr), 0, 0, 0]),
            ExprKind::Dict(pairs) => (kind::DICT, [self.list(pairs, Self::pair), 0, 0, 0]),
            ExprKind::Tuple(members) => (kind::TUPLE, [self.list(members, Self::expr), 0, 0, 0]),
            ExprKind::Set(members) => (kind::SET, [self.list(members, Self::expr), 0, 0, 0]),
            ExprKind::TreeSet(members) => (kind::TREE_SET, [self.list(members, Self::expr), 0, 0, 0]),
            ExprKind::Index(object, index) => (kind::INDEX, [self.expr(object), self.expr(index), 0, 0]),
            ExprKind::Lambda(names, body) => (kind::LAMBDA, [self.list(names, Self::name), self.expr(body), 0, 0]),
        };
        self.node(kind, expr.span, words)
    }

    fn string(&mut self, bytes: &[u8]) -> [u32; 4] {
        let offset = self.text.len() as u32;
        self.text.extend_from_slice(bytes);
        [offset, bytes.len() as u32, 0, 0]
    }

    /// Each comparison right after its right operand, then its And; the last And has the chain's own span.
    fn chain(&mut self, span: Span, first: &Expr, rest: &[(BinaryOp, Expr)]) -> u32 {
        let mut whole = NONE;
        let mut left = self.expr(first);
        let mut left_start = first.span.start;
        for (op, operand) in rest {
            let right = self.expr(operand);
            let end = operand.span.end;
            let comparison = self.node(kind::BINARY, Span { start: left_start, end }, [*op as u32, left, right, 0]);
            whole = match whole {
                NONE => comparison,
                _ => self.node(kind::BINARY, Span { start: first.span.start, end }, [BinaryOp::And as u32, whole, comparison, 0]),
            };
            left = right;
            left_start = operand.span.start;
        }
        let record = &mut self.nodes[whole as usize];
        (record[1], record[2]) = (span.start, span.end);
        whole
    }

    fn body(&mut self, body: &[Stmt]) -> u32 {
        self.list(body, Self::stmt)
    }

    fn stmt(&mut self, stmt: &Stmt) -> u32 {
        let (kind, words) = match &stmt.kind {
            StmtKind::If { condition, body, elifs, otherwise } => {
                let condition = self.expr(condition);
                let body = self.body(body);
                let elifs = self.list(elifs, Self::elif);
                let otherwise = otherwise.as_ref().map_or(NONE, |part| self.otherwise(part));
                (kind::IF, [condition, body, elifs, otherwise])
            }
            StmtKind::While(condition, body) => (kind::WHILE, [self.expr(condition), self.body(body), 0, 0]),
            StmtKind::For(name, iterable, body) => (kind::FOR, [name.start, name.end, self.expr(iterable), self.body(body)]),
            StmtKind::Def(function) => (kind::DEF, self.function(function)),
            StmtKind::Return(value) => (kind::RETURN, [self.expr(value), 0, 0, 0]),
            StmtKind::Assign(target, value) => (kind::ASSIGN, [self.expr(target), self.expr(value), 0, 0]),
            StmtKind::Class(name, methods) => (kind::CLASS, [name.start, name.end, self.list(methods, Self::method), 0]),
            StmtKind::Break => (kind::BREAK, [0; 4]),
            StmtKind::Continue => (kind::CONTINUE, [0; 4]),
            StmtKind::Pass => (kind::PASS, [0; 4]),
            StmtKind::Expr(value) => (kind::EXPR, [self.expr(value), 0, 0, 0]),
        };
        self.node(kind, stmt.span, words)
    }

    fn elif(&mut self, elif: &Elif) -> u32 {
        let words = [self.expr(&elif.condition), self.body(&elif.body), 0, 0];
        self.node(kind::ELIF, elif.span, words)
    }

    fn otherwise(&mut self, otherwise: &Else) -> u32 {
        let words = [self.body(&otherwise.body), 0, 0, 0];
        self.node(kind::ELSE, otherwise.span, words)
    }

    fn function(&mut self, function: &Function) -> [u32; 4] {
        let Span { start, end } = function.name;
        [start, end, self.list(&function.parameters, Self::name), self.body(&function.body)]
    }

    fn method(&mut self, method: &Method) -> u32 {
        let words = self.function(&method.function);
        self.node(kind::METHOD, method.span, words)
    }
}
