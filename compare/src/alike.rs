//! Trees that are equal "apart from places, with names and strings compared by bytes" (02, change 6).

use crate::words::{kind, Record, HEADER};

/// A source, the text of its strings, and its tree in words.
#[derive(Clone, Copy)]
pub struct Source<'a> {
    pub src: &'a [u8],
    pub text: &'a [u8],
    pub tree: &'a [u32],
}

impl<'a> Source<'a> {
    pub fn nodes(&self) -> &'a [Record] {
        let nodes = self.tree[1] as usize;
        self.tree[HEADER..HEADER + 8 * nodes].as_chunks().0
    }

    /// A record without its places, and the bytes of its name, string or Float.
    fn apart(&self, &[kind, _, _, next, p, q, r, s]: &Record) -> (Record, &'a [u8]) {
        let of = |bytes: &'a [u8], start: u32, end: u32| &bytes[start as usize..end as usize];
        match kind {
            kind::NAME | kind::VARIABLE => ([kind, 0, 0, next, 0, 0, r, s], of(self.src, p, q)),
            kind::FOR | kind::DEF | kind::METHOD | kind::CLASS => ([kind, 0, 0, next, 0, 0, r, s], of(self.src, p, q)),
            kind::ATTRIBUTE => ([kind, 0, 0, next, p, 0, 0, s], of(self.src, q, r)),
            kind::FLOAT => ([kind, 0, 0, next, p, q, 0, 0], of(self.src, r, s)),
            kind::STRING => ([kind, 0, 0, next, p, q, r, s], of(self.text, p, p + q)),
            _ => ([kind, 0, 0, next, p, q, r, s], &[]),
        }
    }
}

/// The first node in which the two differ; where one ends before, its number of nodes.
pub fn first_unlike(one: Source, other: Source) -> Option<usize> {
    let (ours, theirs) = (one.nodes(), other.nodes());
    let unlike = ours.iter().zip(theirs).position(|(our, their)| one.apart(our) != other.apart(their));
    unlike.or_else(|| (ours.len() != theirs.len()).then_some(ours.len().min(theirs.len())))
}
