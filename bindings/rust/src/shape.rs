use crate::kind::{BinaryOp, Kind, UnaryOp};
use crate::tree::{List, Node};
use std::ops::Range;

/// A node by its kind, with its parts. Names are bytes of the source, UTF-8 in any script and not normalised: two are the same where their bytes are. A
/// String's value is the decoded bytes; a Float's is the double nearest to what is written, which [`Node::spelling`] has. A Tuple may have one member,
/// and a comma is enough for it in a return, on either side of an assignment, and as a statement: `1,` is a Tuple as `(1,)` is.
///
/// ```
/// use tarbucket::{Reader, Shape};
///
/// let mut reader = Reader::new();
/// let tree = reader.read(b"lifts = 1,").unwrap();
/// let line = tree.root().children().next().unwrap();
/// let Shape::Assign { value, .. } = line.shape() else { panic!() };
/// let Shape::Tuple { mut members } = value.shape() else { panic!() };
/// assert_eq!(value.text(), b"1,"); // the comma is in its span
/// assert!(matches!(members.next().unwrap().shape(), Shape::Int(1)) && members.next().is_none());
/// ```
#[derive(Clone, Debug)]
pub enum Shape<'a> {
    Program { lines: List<'a> },
    If { condition: Node<'a>, body: List<'a>, elifs: List<'a>, otherwise: Option<Node<'a>> },
    While { condition: Node<'a>, body: List<'a> },
    For { name: &'a [u8], over: Node<'a>, body: List<'a> },
    Def { name: &'a [u8], parameters: List<'a>, body: List<'a> },
    Return { value: Node<'a> },
    Assign { target: Node<'a>, value: Node<'a> },
    Class { name: &'a [u8], methods: List<'a> },
    Break,
    Continue,
    Pass,
    Expr { value: Node<'a> },
    Method { name: &'a [u8], parameters: List<'a>, body: List<'a> },
    Elif { condition: Node<'a>, body: List<'a> },
    Else { body: List<'a> },
    Name { name: &'a [u8] },
    Pair { key: Node<'a>, value: Node<'a> },
    Bool(bool),
    Int(i64),
    String(&'a [u8]),
    Float(f64),
    None,
    Variable { name: &'a [u8] },
    Unary { operator: UnaryOp, operand: Node<'a> },
    Binary { operator: BinaryOp, left: Node<'a>, right: Node<'a> },
    Call { callee: Node<'a>, arguments: List<'a> },
    Attribute { object: Node<'a>, name: &'a [u8] },
    List { members: List<'a> },
    Dict { pairs: List<'a> },
    Tuple { members: List<'a> },
    Set { members: List<'a> },
    TreeSet { members: List<'a> },
    Index { object: Node<'a>, index: Node<'a> },
    Lambda { parameters: List<'a>, value: Node<'a> },
}

impl<'a> Node<'a> {
    /// The node with its parts.
    pub fn shape(&self) -> Shape<'a> {
        let w = self.words();
        let (p, q, r, s) = (w[4], w[5], w[6], w[7]);
        let bits = p as u64 | (q as u64) << 32;
        match self.kind() {
            Kind::Program => Shape::Program { lines: self.list(p) },
            Kind::If => Shape::If { condition: self.part(p), body: self.list(q), elifs: self.list(r), otherwise: self.maybe(s) },
            Kind::While => Shape::While { condition: self.part(p), body: self.list(q) },
            Kind::For => Shape::For { name: self.bytes(p, q), over: self.part(r), body: self.list(s) },
            Kind::Def => Shape::Def { name: self.bytes(p, q), parameters: self.list(r), body: self.list(s) },
            Kind::Return => Shape::Return { value: self.part(p) },
            Kind::Assign => Shape::Assign { target: self.part(p), value: self.part(q) },
            Kind::Class => Shape::Class { name: self.bytes(p, q), methods: self.list(r) },
            Kind::Break => Shape::Break,
            Kind::Continue => Shape::Continue,
            Kind::Pass => Shape::Pass,
            Kind::Expr => Shape::Expr { value: self.part(p) },
            Kind::Method => Shape::Method { name: self.bytes(p, q), parameters: self.list(r), body: self.list(s) },
            Kind::Elif => Shape::Elif { condition: self.part(p), body: self.list(q) },
            Kind::Else => Shape::Else { body: self.list(p) },
            Kind::Name => Shape::Name { name: self.bytes(p, q) },
            Kind::Pair => Shape::Pair { key: self.part(p), value: self.part(q) },
            Kind::Bool => Shape::Bool(p == 1),
            Kind::Int => Shape::Int(bits as i64),
            Kind::String => Shape::String(&self.tree().text()[p as usize..p as usize + q as usize]),
            Kind::Float => Shape::Float(f64::from_bits(bits)),
            Kind::None => Shape::None,
            Kind::Variable => Shape::Variable { name: self.bytes(p, q) },
            Kind::Unary => Shape::Unary { operator: UnaryOp::of(p).expect("a checked tree"), operand: self.part(q) },
            Kind::Binary => Shape::Binary { operator: BinaryOp::of(p).expect("a checked tree"), left: self.part(q), right: self.part(r) },
            Kind::Call => Shape::Call { callee: self.part(p), arguments: self.list(q) },
            Kind::Attribute => Shape::Attribute { object: self.part(p), name: self.bytes(q, r) },
            Kind::List => Shape::List { members: self.list(p) },
            Kind::Dict => Shape::Dict { pairs: self.list(p) },
            Kind::Tuple => Shape::Tuple { members: self.list(p) },
            Kind::Set => Shape::Set { members: self.list(p) },
            Kind::TreeSet => Shape::TreeSet { members: self.list(p) },
            Kind::Index => Shape::Index { object: self.part(p), index: self.part(q) },
            Kind::Lambda => Shape::Lambda { parameters: self.list(p), value: self.part(q) },
        }
    }

    /// A Float as it is written: the bytes of its token. The node's own span is wider in parentheses, and as the target of an Assign it is the statement's.
    /// None where the node is no Float.
    ///
    /// ```
    /// use tarbucket::{Reader, Shape};
    ///
    /// let mut reader = Reader::new();
    /// let tree = reader.read(b"(0.10)").unwrap();
    /// let node = tree.node(0).unwrap();
    /// assert!(matches!(node.shape(), Shape::Float(value) if value == 0.1));
    /// assert_eq!(node.spelling(), Some(&b"0.10"[..]));
    /// assert_eq!(node.text(), b"(0.10)");
    /// ```
    pub fn spelling(&self) -> Option<&'a [u8]> {
        Some(&self.tree().source()[self.spelling_span()?])
    }

    /// The bytes of the source in which a Float is written. None where the node is no Float.
    pub fn spelling_span(&self) -> Option<Range<usize>> {
        let w = self.words();
        (self.kind() == Kind::Float).then(|| w[6] as usize..w[7] as usize)
    }
}
