//! A verified reader and writer of kiosk scripts.
//!
//! ```
//! use tarbucket::{Error, Reader, Shape};
//!
//! let mut reader = Reader::new();
//! let tree = reader.read(b"lift = 3\n").unwrap();
//! for line in tree.root().children() {
//!     if let Shape::Assign { target, value } = line.shape() {
//!         assert_eq!(target.text(), b"lift = 3"); // an Assign's target has the statement's span
//!         assert!(matches!(target.shape(), Shape::Variable { name: b"lift" }));
//!         assert!(matches!(value.shape(), Shape::Int(3)));
//!     }
//! }
//!
//! let error = reader.read(b"a-1").unwrap_err();
//! assert_eq!((error.number(), error.place()), (14, 1));
//! assert!(matches!(reader.read(b"a ="), Err(Error::Cut { place: 3, .. })));
//! assert!(matches!(reader.read(b"a =\nb = 1\n"), Err(Error::Missing { place: 3, .. })));
//! ```
//!
//! The reader is one function without state, [`parse_source`], over slices that the caller lends. [`Reader`] owns such slices and grows them as a source
//! asks; [`Tree`] is a checked view of what they hold. The writer, [`write_source`] and [`Reader::write`], gives a source's standard text. [`utf8_error`] is the
//! reader's check of UTF-8 alone.

mod error;
mod kind;
mod shape;
mod tree;
mod utf8;
mod write;

pub use error::Error;
pub use kind::{BinaryOp, Kind, UnaryOp};
pub use shape::Shape;
pub use tree::{BadTree, List, Node, Tree, Walk};
pub use utf8::{utf8_error, Utf8};
pub use write::{write_source, WriteError, Written};

/// The longest source that is read, in bytes.
pub const LONGEST: usize = 65536;

/// A call needs at most so many bytes of stack, the caller's own frames and signal handlers aside. Measured by stack/run.sh, not proved.
pub const STACK: usize = 65536;

/// The same for a call that writes a text.
pub const WRITE_STACK: usize = 131072;

/// The version of a tree's words, which its header has. Since 2 a Float has the span of its token, see [`Node::spelling`].
pub const VERSION: u32 = 2;

/// No node, where a word holds a node number.
pub const NONE: u32 = u32::MAX;

/// Words of tokens for a source of n bytes: code, start and end of each.
pub const fn token_words(n: usize) -> usize {
    3 * (n + 1)
}

/// Bytes of text for a source of n bytes.
pub const fn text_bytes(n: usize) -> usize {
    n
}

/// Words of tree for a source of n bytes: a header of 8, then 8 for each node.
pub const fn tree_words(n: usize) -> usize {
    16 * n + 16
}

extern "C" {
    fn tarbucket_parse_source(
        src: *const u8,
        src_len: usize,
        tokens: *mut u32,
        tokens_len: usize,
        text: *mut u8,
        text_len: usize,
        tree: *mut u32,
        tree_len: usize,
        answer: *mut u32,
        answer_len: usize,
    ) -> u32;
    fn tarbucket_write_source(
        src: *const u8,
        src_len: usize,
        tokens: *mut u32,
        tokens_len: usize,
        text: *mut u8,
        text_len: usize,
        tree: *mut u32,
        tree_len: usize,
        out: *mut u8,
        out_len: usize,
        answer: *mut u32,
        answer_len: usize,
    ) -> u32;
    fn tarbucket_utf8_error(src: *const u8, src_len: usize, answer: *mut u64, answer_len: usize) -> u32;
}

/// What the reader counted of an accepted source.
#[derive(Clone, Copy, Debug, PartialEq, Eq)]
pub struct Counts {
    /// T, the tokens without Eof.
    pub tokens: u32,
    /// N, the nodes.
    pub nodes: u32,
    /// Bytes of decoded strings.
    pub text: u32,
    /// Rules opened.
    pub openings: u32,
}

/// Reads a source into lent slices of any length. One that is shorter than its area is refused by 2, 3 or 4, and nothing is written then. It needs at
/// most [`STACK`] bytes of stack, which a thread of [`std::thread`] has unless it is given less.
pub fn parse_source(src: &[u8], tokens: &mut [u32], text: &mut [u8], tree: &mut [u32]) -> Result<Counts, Error> {
    let mut answer = [0u32; 6];
    // The lengths are those of the slices, and no two of them overlap, since all but the source are borrowed as `&mut`. The function is proved to write
    // inside the slices only and to end, whatever they hold.
    let number = unsafe {
        tarbucket_parse_source(
            src.as_ptr(),
            src.len(),
            tokens.as_mut_ptr(),
            tokens.len(),
            text.as_mut_ptr(),
            text.len(),
            tree.as_mut_ptr(),
            tree.len(),
            answer.as_mut_ptr(),
            answer.len(),
        )
    };
    let [_, place, tokens, nodes, text, openings] = answer;
    match number {
        0 => Ok(Counts { tokens, nodes, text, openings }),
        _ => Err(Error::of(number, place, tokens, openings)),
    }
}

/// A reader with slices of its own, which it keeps from one source to the next.
#[derive(Clone, Debug, Default)]
pub struct Reader {
    tokens: Vec<u32>,
    text: Vec<u8>,
    tree: Vec<u32>,
    out: Vec<u8>,
    // words of tokens that belong to the source read last
    filled: usize,
}

impl Reader {
    pub fn new() -> Reader {
        Reader::default()
    }

    /// Reads a source. The tree borrows the reader and the source.
    ///
    /// # Panics
    ///
    /// Where the static library that was linked writes what [`Tree::new`] refuses, such as trees of another version than [`VERSION`].
    pub fn read<'a>(&'a mut self, src: &'a [u8]) -> Result<Tree<'a>, Error> {
        self.filled = 0;
        if src.len() > LONGEST {
            return Err(Error::TooLong);
        }
        let n = src.len();
        grow(&mut self.tokens, token_words(n));
        grow(&mut self.text, text_bytes(n));
        grow(&mut self.tree, tree_words(n));
        let counts = parse_source(src, &mut self.tokens, &mut self.text, &mut self.tree)?;
        self.filled = token_words(counts.tokens as usize);
        let text = &self.text[..counts.text as usize];
        let words = &self.tree[..8 + 8 * counts.nodes as usize];
        Ok(Tree::new(src, text, words).unwrap_or_else(|bad| panic!("the static library does not fit these bindings: {bad}")))
    }

    /// Code, start and end of each token of the source that was read last, to write it too, Eof last. Empty where it was refused, but not where the writer
    /// refuses what was read.
    pub fn tokens(&self) -> impl Iterator<Item = (u32, u32, u32)> + '_ {
        self.tokens[..self.filled].chunks_exact(3).map(|t| (t[0], t[1], t[2]))
    }
}

fn grow<T: Clone + Default>(v: &mut Vec<T>, len: usize) {
    if v.len() < len {
        v.resize(len, T::default());
    }
}

/// What the program `tarbucket` prints of a source: the header and a line for each node, or `no`, number and place.
pub fn listing(read: &Result<Tree<'_>, Error>) -> String {
    match read {
        Ok(tree) => tree.listing(),
        Err(e) => format!("no {} {}\n", e.number(), e.place()),
    }
}

#[cfg(test)]
mod tests;
