use std::fmt;

/// Why a source is refused. Each case has a number, from 1 to 16, and all from 5 on a place: the byte of the source where it is refused. The number 12 is
/// reserved, and no source gets it. A token that does not fit the grammar is one of three cases: [`Error::Misfit`], [`Error::Cut`] and [`Error::Missing`].
#[derive(Clone, Copy, Debug, PartialEq, Eq)]
#[non_exhaustive]
pub enum Error {
    /// 1: more than 65,536 bytes.
    TooLong,
    /// 2: the token slice is shorter than its area.
    TokensTooSmall,
    /// 3: the text slice is.
    TextTooSmall,
    /// 4: the tree slice is.
    TreeTooSmall,
    /// 5: not UTF-8, at the first byte of the bad sequence.
    NotUtf8 { place: u32 },
    /// 6: a tab in the indentation.
    Tab { place: u32 },
    /// 7: indented by other than exactly two spaces more, where the line starts.
    TooFar { place: u32 },
    /// 8: back on no open level, where the line starts.
    NoLevel { place: u32 },
    /// 9: no token matches; a character over 127 that begins no name is such a place.
    NoToken { place: u32 },
    /// 10: an Int out of the range of 64 bits.
    IntRange { place: u32 },
    /// 11: a Float that is not admitted.
    FloatRange { place: u32 },
    /// 13: more than 64 expressions and blocks open at once; with T and the rules opened till then.
    TooDeep { place: u32, tokens: u32, openings: u32 },
    /// 14: a token that does not fit the grammar, at its start; with T and the rules opened till then.
    Misfit { place: u32, tokens: u32, openings: u32 },
    /// 15: the source ends too early, at its end; with T and the rules opened till then.
    Cut { place: u32, tokens: u32, openings: u32 },
    /// 16: an expression or operand is missing where a line or block ends, at the start of its Newline or Dedent; with T and the rules opened till then.
    Missing { place: u32, tokens: u32, openings: u32 },
    /// A number that this version does not know, 12 among them.
    Unknown { number: u32, place: u32 },
}

impl Error {
    pub(crate) fn of(number: u32, place: u32, tokens: u32, openings: u32) -> Error {
        match number {
            1 => Error::TooLong,
            2 => Error::TokensTooSmall,
            3 => Error::TextTooSmall,
            4 => Error::TreeTooSmall,
            5 => Error::NotUtf8 { place },
            6 => Error::Tab { place },
            7 => Error::TooFar { place },
            8 => Error::NoLevel { place },
            9 => Error::NoToken { place },
            10 => Error::IntRange { place },
            11 => Error::FloatRange { place },
            13 => Error::TooDeep { place, tokens, openings },
            14 => Error::Misfit { place, tokens, openings },
            15 => Error::Cut { place, tokens, openings },
            16 => Error::Missing { place, tokens, openings },
            _ => Error::Unknown { number, place },
        }
    }

    pub fn number(&self) -> u32 {
        match *self {
            Error::TooLong => 1,
            Error::TokensTooSmall => 2,
            Error::TextTooSmall => 3,
            Error::TreeTooSmall => 4,
            Error::NotUtf8 { .. } => 5,
            Error::Tab { .. } => 6,
            Error::TooFar { .. } => 7,
            Error::NoLevel { .. } => 8,
            Error::NoToken { .. } => 9,
            Error::IntRange { .. } => 10,
            Error::FloatRange { .. } => 11,
            Error::TooDeep { .. } => 13,
            Error::Misfit { .. } => 14,
            Error::Cut { .. } => 15,
            Error::Missing { .. } => 16,
            Error::Unknown { number, .. } => number,
        }
    }

    /// The byte of the source where it is refused; 0 for 1 to 4.
    pub fn place(&self) -> usize {
        let place = match *self {
            Error::TooLong | Error::TokensTooSmall | Error::TextTooSmall | Error::TreeTooSmall => 0,
            Error::NotUtf8 { place }
            | Error::Tab { place }
            | Error::TooFar { place }
            | Error::NoLevel { place }
            | Error::NoToken { place }
            | Error::IntRange { place }
            | Error::FloatRange { place }
            | Error::TooDeep { place, .. }
            | Error::Misfit { place, .. }
            | Error::Cut { place, .. }
            | Error::Missing { place, .. }
            | Error::Unknown { place, .. } => place,
        };
        place as usize
    }
}

impl fmt::Display for Error {
    fn fmt(&self, f: &mut fmt::Formatter<'_>) -> fmt::Result {
        write!(f, "refused by {} at byte {}", self.number(), self.place())
    }
}

impl std::error::Error for Error {}
