use crate::kind::{BinaryOp, Field, Kind, UnaryOp};
use crate::{NONE, VERSION};
use std::fmt::{self, Write};
use std::ops::Range;

/// An accepted source's tree: a checked view of a header and N records of eight words.
#[derive(Clone, Copy, Debug)]
pub struct Tree<'a> {
    src: &'a [u8],
    text: &'a [u8],
    words: &'a [u32],
}

/// Why words are no tree.
#[derive(Clone, Copy, Debug, PartialEq, Eq)]
pub enum BadTree {
    /// The header has this version, and not [`VERSION`].
    Version(u32),
    /// The header does not fit the source, the text and the number of words.
    Header,
    /// This node is the first with a wrong field, or the root, which is no Program.
    Node(u32),
}

impl fmt::Display for BadTree {
    fn fmt(&self, f: &mut fmt::Formatter<'_>) -> fmt::Result {
        match self {
            BadTree::Version(version) => write!(f, "the words of the tree are of version {version}, not of {VERSION}"),
            BadTree::Header => write!(f, "the tree's header is wrong"),
            BadTree::Node(k) => write!(f, "node {k} of the tree is wrong"),
        }
    }
}

impl std::error::Error for BadTree {}

impl<'a> Tree<'a> {
    /// A view of a source, its decoded strings, and the words of its tree. Every field of every node is checked once, so that no later look at the tree
    /// can fail; among other things, that a field's node has a lower number than the node itself and a next node a higher one, which no law says yet.
    pub fn new(src: &'a [u8], text: &'a [u8], words: &'a [u32]) -> Result<Tree<'a>, BadTree> {
        let tree = Tree { src, text, words };
        if let Some(&version) = words.first().filter(|&&version| version != VERSION) {
            return Err(BadTree::Version(version));
        }
        if words.len() < 16 || words.len() % 8 != 0 {
            return Err(BadTree::Header);
        }
        let nodes = (words.len() / 8 - 1) as u32;
        let header = [words[0], nodes, words[2], text.len() as u32, 8, nodes - 1, words[6], src.len() as u32];
        if words[..8] != header {
            return Err(BadTree::Header);
        }
        match (0..nodes).find(|&k| !tree.fits(k)) {
            Some(k) => Err(BadTree::Node(k)),
            None if tree.root().kind() != Kind::Program => Err(BadTree::Node(nodes - 1)),
            None => Ok(tree),
        }
    }

    fn fits(&self, k: u32) -> bool {
        let w = self.record(k);
        let Some(kind) = Kind::of(w[0]) else { return false };
        let fields = kind.fields().iter().zip(&w[4..]).all(|(field, &x)| match field {
            Field::Unused => x == 0,
            Field::Word => true,
            Field::Node => x < k,
            Field::Maybe | Field::List => x < k || x == NONE,
        });
        let words = match kind {
            Kind::For | Kind::Def | Kind::Method | Kind::Class | Kind::Name | Kind::Variable => self.is_span(w[4], w[5]),
            Kind::Attribute => self.is_span(w[5], w[6]),
            Kind::Float => self.is_span(w[6], w[7]),
            Kind::String => w[4] as usize + w[5] as usize <= self.text.len(),
            Kind::Bool => w[4] < 2,
            Kind::Unary => UnaryOp::of(w[4]).is_some(),
            Kind::Binary => BinaryOp::of(w[4]).is_some(),
            _ => true,
        };
        let next = w[3] == NONE || (k < w[3] && w[3] < self.len() as u32);
        fields && words && next && self.is_span(w[1], w[2])
    }

    fn is_span(&self, start: u32, end: u32) -> bool {
        start <= end && end as usize <= self.src.len()
    }

    fn record(&self, k: u32) -> &'a [u32] {
        let at = 8 + 8 * k as usize;
        &self.words[at..at + 8]
    }

    /// N, the number of nodes.
    pub fn len(&self) -> usize {
        self.words.len() / 8 - 1
    }

    /// A tree has a node, its Program.
    pub fn is_empty(&self) -> bool {
        false
    }

    pub fn source(&self) -> &'a [u8] {
        self.src
    }

    /// The decoded strings, one after the other.
    pub fn text(&self) -> &'a [u8] {
        self.text
    }

    /// The header's eight words: [`VERSION`], N, T, text bytes, 8, N - 1, rules opened, n.
    pub fn header(&self) -> &'a [u32] {
        &self.words[..8]
    }

    /// The Program.
    pub fn root(&self) -> Node<'a> {
        Node { tree: *self, number: self.len() as u32 - 1 }
    }

    pub fn node(&self, number: u32) -> Option<Node<'a>> {
        ((number as usize) < self.len()).then_some(Node { tree: *self, number })
    }

    /// All nodes, in the order in which they were written: a node's parts before the node.
    pub fn nodes(&self) -> impl DoubleEndedIterator<Item = Node<'a>> + 'a {
        let tree = *self;
        (0..self.len() as u32).map(move |number| Node { tree, number })
    }

    /// The nodes from the root down, each once, with its depth. The middle of a chain of comparisons, which is held twice, comes where it is met first.
    pub fn walk(&self) -> Walk<'a> {
        Walk { stack: vec![(0, self.root())], seen: vec![false; self.len()] }
    }

    /// What the program `tarbucket` prints: the header, then number and words of each node, none as `-`.
    pub fn listing(&self) -> String {
        let mut out = String::new();
        for (i, w) in self.header().iter().enumerate() {
            let _ = write!(out, "{}{w}", if i == 0 { "" } else { " " });
        }
        out.push('\n');
        for node in self.nodes() {
            let w = node.words();
            let _ = write!(out, "{} {} {} {}", node.number, w[0], w[1], w[2]);
            let [p, q, r, s] = node.kind().fields().map(Field::holds_node);
            for (link, &x) in [true, p, q, r, s].iter().zip(&w[3..]) {
                let _ = if *link && x == NONE { write!(out, " -") } else { write!(out, " {x}") };
            }
            out.push('\n');
        }
        out
    }
}

/// A node of a tree.
#[derive(Clone, Copy)]
pub struct Node<'a> {
    tree: Tree<'a>,
    number: u32,
}

impl<'a> Node<'a> {
    pub fn number(&self) -> u32 {
        self.number
    }

    pub fn tree(&self) -> Tree<'a> {
        self.tree
    }

    /// The eight words: kind, start, end, next, p, q, r, s.
    pub fn words(&self) -> &'a [u32] {
        self.tree.record(self.number)
    }

    pub fn kind(&self) -> Kind {
        Kind::of(self.words()[0]).expect("a checked tree")
    }

    /// The bytes of the source from the node's first token to its last.
    pub fn span(&self) -> Range<usize> {
        let w = self.words();
        w[1] as usize..w[2] as usize
    }

    /// The source in its span.
    pub fn text(&self) -> &'a [u8] {
        &self.tree.src[self.span()]
    }

    /// The next member of the list that the node is in.
    pub fn next(&self) -> Option<Node<'a>> {
        self.maybe(self.words()[3])
    }

    /// The nodes that it holds, in the order of its fields, a list's members one after the other.
    pub fn children(&self) -> impl Iterator<Item = Node<'a>> {
        let node = *self;
        (0..4).flat_map(move |i| {
            let x = node.words()[4 + i];
            match node.kind().fields()[i] {
                Field::Unused | Field::Word => List { next: None },
                Field::Node | Field::Maybe => List { next: node.maybe(x).map(|n| (n, false)) },
                Field::List => node.list(x),
            }
        })
    }

    pub(crate) fn maybe(&self, number: u32) -> Option<Node<'a>> {
        self.tree.node(number)
    }

    pub(crate) fn part(&self, number: u32) -> Node<'a> {
        self.tree.node(number).expect("a checked tree")
    }

    pub(crate) fn list(&self, number: u32) -> List<'a> {
        List { next: self.maybe(number).map(|n| (n, true)) }
    }

    pub(crate) fn bytes(&self, start: u32, end: u32) -> &'a [u8] {
        &self.tree.src[start as usize..end as usize]
    }
}

impl fmt::Debug for Node<'_> {
    fn fmt(&self, f: &mut fmt::Formatter<'_>) -> fmt::Result {
        write!(f, "{} {:?} {:?}", self.number, self.kind(), self.span())
    }
}

/// The members of a list.
#[derive(Clone, Debug)]
pub struct List<'a> {
    // the member that comes next, and whether more may follow it
    next: Option<(Node<'a>, bool)>,
}

impl<'a> Iterator for List<'a> {
    type Item = Node<'a>;

    fn next(&mut self) -> Option<Node<'a>> {
        let (node, more) = self.next?;
        self.next = if more { node.next().map(|n| (n, true)) } else { None };
        Some(node)
    }
}

/// The nodes from the root down, each once, with its depth.
#[derive(Clone, Debug)]
pub struct Walk<'a> {
    stack: Vec<(usize, Node<'a>)>,
    seen: Vec<bool>,
}

impl<'a> Iterator for Walk<'a> {
    type Item = (usize, Node<'a>);

    fn next(&mut self) -> Option<(usize, Node<'a>)> {
        loop {
            let (depth, node) = self.stack.pop()?;
            if std::mem::replace(&mut self.seen[node.number as usize], true) {
                continue;
            }
            let from = self.stack.len();
            self.stack.extend(node.children().map(|c| (depth + 1, c)));
            self.stack[from..].reverse();
            return Some((depth, node));
        }
    }
}
