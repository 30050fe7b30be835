use crate::{grow, text_bytes, token_words, tree_words, Counts, Error, Reader, LONGEST};
use std::fmt;

/// What was counted of a source whose standard text was written.
#[derive(Clone, Copy, Debug, PartialEq, Eq)]
pub struct Written {
    /// Of the source, as [`parse_source`](crate::parse_source) has them.
    pub counts: Counts,
    /// Bytes of the text, at the start of the slice that was lent for it.
    pub length: usize,
}

/// Why no text is written.
#[derive(Clone, Copy, Debug, PartialEq, Eq)]
pub enum WriteError {
    /// 1 to 16: the source is refused, as [`parse_source`](crate::parse_source) refuses it.
    Read(Error),
    /// 17: some block has no statement.
    EmptyBlock,
    /// 18: the text is longer than the slice that was lent for it, or than 65,536 bytes.
    NoRoom,
}

impl WriteError {
    pub(crate) fn of(number: u32, place: u32, tokens: u32, openings: u32) -> WriteError {
        match number {
            17 => WriteError::EmptyBlock,
            18 => WriteError::NoRoom,
            _ => WriteError::Read(Error::of(number, place, tokens, openings)),
        }
    }

    pub fn number(&self) -> u32 {
        match self {
            WriteError::Read(error) => error.number(),
            WriteError::EmptyBlock => 17,
            WriteError::NoRoom => 18,
        }
    }

    /// The byte of the source where it is refused; 0 for 1 to 4, 17 and 18.
    pub fn place(&self) -> usize {
        match self {
            WriteError::Read(error) => error.place(),
            WriteError::EmptyBlock | WriteError::NoRoom => 0,
        }
    }
}

impl fmt::Display for WriteError {
    fn fmt(&self, f: &mut fmt::Formatter<'_>) -> fmt::Result {
        match self {
            WriteError::Read(error) => error.fmt(f),
            WriteError::EmptyBlock => f.write_str("not written, by 17: a block has no statement"),
            WriteError::NoRoom => f.write_str("not written, by 18: the text is longer than its slice or than 65,536 bytes"),
        }
    }
}

impl std::error::Error for WriteError {
    fn source(&self) -> Option<&(dyn std::error::Error + 'static)> {
        match self {
            WriteError::Read(error) => Some(error),
            WriteError::EmptyBlock | WriteError::NoRoom => None,
        }
    }
}

/// Reads a source as [`parse_source`](crate::parse_source) does, and writes its standard text to the start of `out`. Two sources with the same tree, places
/// aside, with names, strings and the spellings of Floats compared by bytes, have the same text: comments, blank lines and needless parentheses are not in it.
///
/// Bytes of `out` behind the text are 0. Where the source is refused, `out` is as it was; where the writer refuses, by 17 or 18, all of it is 0. `tokens`,
/// `text` and `tree` are in every case as [`parse_source`](crate::parse_source) leaves them. The text, read with room for its areas, is accepted with the same
/// tree, places aside, and its own standard text is itself.
///
/// It needs at most [`WRITE_STACK`](crate::WRITE_STACK) bytes of stack, which a thread of [`std::thread`] has unless it is given less.
///
/// ```
/// use tarbucket::{text_bytes, token_words, tree_words, write_source, WriteError};
///
/// let src = b"lift=[ 1,2 ]  # floors\n";
/// let n = src.len();
/// let (mut tokens, mut text, mut tree) = (vec![0; token_words(n)], vec![0; text_bytes(n)], vec![0; tree_words(n)]);
/// let mut out = [0xff; 20];
/// let written = write_source(src, &mut tokens, &mut text, &mut tree, &mut out).unwrap();
/// assert_eq!(&out[..written.length], b"lift = [1, 2]\n");
/// assert_eq!(out[written.length..], [0; 6]);
///
/// let refused = write_source(src, &mut tokens, &mut text, &mut tree, &mut out[..13]);
/// assert_eq!(refused, Err(WriteError::NoRoom));
/// ```
pub fn write_source(src: &[u8], tokens: &mut [u32], text: &mut [u8], tree: &mut [u32], out: &mut [u8]) -> Result<Written, WriteError> {
    let mut answer = [0u32; 7];
    // The lengths are those of the slices, and no two of them overlap, since all but the source are borrowed as `&mut`. The function is proved to write
    // inside the slices only and to end, whatever they hold.
    let number = unsafe {
        crate::tarbucket_write_source(
            src.as_ptr(),
            src.len(),
            tokens.as_mut_ptr(),
            tokens.len(),
            text.as_mut_ptr(),
            text.len(),
            tree.as_mut_ptr(),
            tree.len(),
            out.as_mut_ptr(),
            out.len(),
            answer.as_mut_ptr(),
            answer.len(),
        )
    };
    let [_, place, tokens, nodes, text, openings, length] = answer;
    match number {
        0 => Ok(Written { counts: Counts { tokens, nodes, text, openings }, length: length as usize }),
        _ => Err(WriteError::of(number, place, tokens, openings)),
    }
}

impl Reader {
    /// The standard text of a source, see [`write_source`]. The reader's own slice has room for every text that is not too long, so [`WriteError::NoRoom`] is a
    /// text of more than 65,536 bytes.
    ///
    /// ```
    /// use tarbucket::{Reader, WriteError};
    ///
    /// let mut reader = Reader::new();
    /// assert_eq!(reader.write(b"if (a) : b ; c\n"), Ok(&b"if a:\n  b\n  c\n"[..]));
    /// assert_eq!(reader.write(b"if a:\n  "), Err(WriteError::EmptyBlock));
    /// assert_eq!(reader.write(b"a-1").unwrap_err().place(), 1);
    /// ```
    pub fn write(&mut self, src: &[u8]) -> Result<&[u8], WriteError> {
        self.filled = 0;
        if src.len() > LONGEST {
            return Err(WriteError::Read(Error::TooLong));
        }
        let n = src.len();
        grow(&mut self.tokens, token_words(n));
        grow(&mut self.text, text_bytes(n));
        grow(&mut self.tree, tree_words(n));
        grow(&mut self.out, LONGEST);
        let wrote = write_source(src, &mut self.tokens, &mut self.text, &mut self.tree, &mut self.out);
        if !matches!(wrote, Err(WriteError::Read(_))) {
            // T, in the header of the accepted tree
            self.filled = token_words(self.tree[2] as usize);
        }
        wrote.map(|written| &self.out[..written.length])
    }
}
