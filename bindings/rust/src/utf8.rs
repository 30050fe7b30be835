/// What the check of UTF-8 found, and in how many rounds.
#[derive(Clone, Copy, Debug, PartialEq, Eq)]
pub struct Utf8 {
    /// The first byte of the first bad sequence; none where the text is UTF-8.
    pub place: Option<usize>,
    /// The rounds of the check, see [`utf8_error`].
    pub rounds: usize,
}

/// Tells whether a text of any length is UTF-8. This is the check by which a source is refused by 5, with the same promise: table 3-7 of the Unicode
/// Standard.
///
/// The check goes in rounds, from the first byte on: a round takes the next eight bytes if so many are left and all are under 128, else one sequence, good
/// or bad. A bad one ends the check, and its round is counted. So n bytes under 128 are n / 8 rounds, rounded down, and one for each byte left; an empty
/// text is none. The number of rounds is proved to be this one, in a refusal as well.
///
/// ```
/// use tarbucket::{utf8_error, Utf8};
///
/// // eight bytes, then three of one each
/// assert_eq!(utf8_error(b"lift = hall"), Utf8 { place: None, rounds: 4 });
/// // one character, then eight bytes
/// assert_eq!(utf8_error("홀 = lift\n".as_bytes()), Utf8 { place: None, rounds: 2 });
/// // eight bytes, then a bad sequence
/// assert_eq!(utf8_error(b"lift = 3\xff3\n"), Utf8 { place: Some(8), rounds: 2 });
/// ```
pub fn utf8_error(source: &[u8]) -> Utf8 {
    let mut answer = [0u64; 2];
    // The lengths are those of the slices, which do not overlap. The function is proved to write inside the answer only and to end, whatever they hold.
    let number = unsafe { crate::tarbucket_utf8_error(source.as_ptr(), source.len(), answer.as_mut_ptr(), answer.len()) };
    let [place, rounds] = answer.map(|word| word as usize);
    Utf8 { place: (number != 0).then_some(place), rounds }
}
