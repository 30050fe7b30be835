//! The tree, with Box and Vec.

#[derive(Clone, Copy, Debug, PartialEq, Eq)]
pub struct Span {
    pub start: u32,
    pub end: u32,
}

/// Operators count from 1 in the order of the Rust's enums.
#[derive(Clone, Copy, Debug, PartialEq, Eq)]
pub enum UnaryOp {
    Not = 1,
    Negate,
    Pos,
}

#[derive(Clone, Copy, Debug, PartialEq, Eq)]
pub enum BinaryOp {
    Add = 1,
    Subtract,
    Multiply,
    Divide,
    FloorDivide,
    Modulo,
    Equal,
    NotEqual,
    Less,
    LessEqual,
    Greater,
    GreaterEqual,
    And,
    Or,
}

#[derive(Debug)]
pub struct Expr {
    pub span: Span,
    pub kind: ExprKind,
}

/// A name is its span in the source. A Float has its token's span beside its value, which stays where the node's grows. A Chain
/// has two comparisons or more: `a<b<c` is And(a<b, b<c) in the words.
#[derive(Debug)]
pub enum ExprKind {
    Bool(bool),
    Int(i64),
    Str(Vec<u8>),
    Float(f64, Span),
    None,
    Variable(Span),
    Unary(UnaryOp, Box<Expr>),
    Binary(BinaryOp, Box<Expr>, Box<Expr>),
    Chain(Box<Expr>, Vec<(BinaryOp, Expr)>),
    Call(Box<Expr>, Vec<Expr>),
    Attribute(Box<Expr>, Span),
    List(Vec<Expr>),
    Dict(Vec<(Expr, Expr)>),
    Tuple(Vec<Expr>),
    Set(Vec<Expr>),
    TreeSet(Vec<Expr>),
    Index(Box<Expr>, Box<Expr>),
    Lambda(Vec<Span>, Box<Expr>),
}

#[derive(Debug)]
pub struct Stmt {
    pub span: Span,
    pub kind: StmtKind,
}

#[derive(Debug)]
pub enum StmtKind {
    If { condition: Expr, body: Vec<Stmt>, elifs: Vec<Elif>, otherwise: Option<Else> },
    While(Expr, Vec<Stmt>),
    For(Span, Expr, Vec<Stmt>),
    Def(Function),
    Return(Expr),
    Assign(Expr, Expr),
    Class(Span, Vec<Method>),
    Break,
    Continue,
    Pass,
    Expr(Expr),
}

#[derive(Debug)]
pub struct Elif {
    pub span: Span,
    pub condition: Expr,
    pub body: Vec<Stmt>,
}

#[derive(Debug)]
pub struct Else {
    pub span: Span,
    pub body: Vec<Stmt>,
}

#[derive(Debug)]
pub struct Function {
    pub name: Span,
    pub parameters: Vec<Span>,
    pub body: Vec<Stmt>,
}

#[derive(Debug)]
pub struct Method {
    pub span: Span,
    pub function: Function,
}
