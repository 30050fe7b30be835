//! The function that is called, with its words.
use super::super::number_behind;
use crate::*;

const HEADER: &str = include_str!("../../../../../include/tarbucket.h");

#[test]
fn numbers_of_the_writers_errors() {
    for number in 1..22 {
        let error = WriteError::of(number, 7, 8, 9);
        let place = if number < 5 || number == 17 || number == 18 { 0 } else { 7 };
        assert_eq!((error.number(), error.place()), (number, place));
        let read = matches!(error, WriteError::Read(e) if e == Error::of(number, 7, 8, 9));
        assert_eq!(read, number != 17 && number != 18);
        let said = match number {
            17 => "not written, by 17: a block has no statement".to_string(),
            18 => "not written, by 18: the text is longer than its slice or than 65,536 bytes".to_string(),
            _ => format!("refused by {number} at byte {place}"),
        };
        assert_eq!(error.to_string(), said);
        assert_eq!(std::error::Error::source(&error).is_some(), read);
    }
    assert_eq!((WriteError::of(17, 0, 1, 2), WriteError::of(18, 0, 1, 2)), (WriteError::EmptyBlock, WriteError::NoRoom));
}

#[test]
fn numbers_of_the_writer_in_the_header() {
    let numbers = ["EMPTY_BLOCK", "NO_ROOM", "ANSWER_LENGTH", "WRITE_WORDS"].map(|name| number_behind(HEADER, &format!("    TARBUCKET_{name} = ")));
    assert_eq!(numbers, [WriteError::EmptyBlock.number(), WriteError::NoRoom.number(), 6, 7]);
}

/// A source, the bytes lent, the seven words, and how many bytes in front of the slice are not as they were. The rules opened: Program, then Line and Simple for a
/// statement on one line, eight, E to F, for `a`, and three for `+a`; Block for a body.
const CALLS: [(&[u8], usize, [u32; 7], usize); 7] = [
    (b"a+a", 9, [0, 0, 3, 5, 0, 14, 6], 9),
    (b"'b'", 4, [0, 0, 1, 3, 1, 11, 4], 4),
    (b"'b'", 3, [18, 0, 1, 3, 1, 11, 0], 3),
    (b"if a:\n  ", 9, [17, 0, 6, 3, 0, 11, 0], 9),
    (b"a a", 9, [14, 2, 2, 0, 0, 11, 0], 0),
    (b"a $", 9, [9, 2, 0, 0, 0, 0, 0], 0),
    (b"\xff", 9, [5, 0, 0, 0, 0, 0, 0], 0),
];

#[test]
fn words_of_the_call() {
    for (src, bytes, words, changed) in CALLS {
        for len in 0..10 {
            let (mut tokens, mut text, mut tree, mut out, mut answer) = ([7u32; 40], [7u8; 20], [7u32; 200], [7u8; 20], [7u32; 10]);
            let (t, x, r, o, a) = (tokens.as_mut_ptr(), text.as_mut_ptr(), tree.as_mut_ptr(), out.as_mut_ptr(), answer.as_mut_ptr());
            let returned = unsafe { tarbucket_write_source(src.as_ptr(), src.len(), t, 40, x, 20, r, 200, o, bytes, a, len) };
            let mut due = [7; 10];
            if len < 7 {
                assert!(tokens == [7; 40] && text == [7; 20] && tree == [7; 200] && out == [7; 20], "{len} words");
                assert_eq!((returned, answer), (u32::MAX, due), "{len} words");
            } else {
                due[..7].copy_from_slice(&words);
                assert_eq!((returned, answer), (words[0], due), "{}, {len} words", src.escape_ascii());
                assert_eq!(out.iter().take_while(|&&byte| byte != 7).count(), changed, "{}", src.escape_ascii());
                assert!(out[changed..].iter().all(|&byte| byte == 7));
            }
        }
    }
}
