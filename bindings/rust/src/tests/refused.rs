use super::number_behind;
use crate::*;

#[test]
fn numbers_of_errors() {
    for number in 1..22 {
        let error = Error::of(number, 7, 8, 9);
        let place = if number < 5 { 0 } else { 7 };
        assert_eq!((error.number(), error.place()), (number, place));
        assert_eq!(error.to_string(), format!("refused by {number} at byte {place}"));
        assert_eq!(matches!(error, Error::Unknown { .. }), number == 12 || number > 16);
    }
    assert_eq!(Error::of(15, 7, 8, 9), Error::Cut { place: 7, tokens: 8, openings: 9 });
    assert_eq!(Error::of(16, 7, 8, 9), Error::Missing { place: 7, tokens: 8, openings: 9 });
}

/// The header file has the same names, in capitals, and the same numbers.
#[test]
fn numbers_of_the_header() {
    let header = include_str!("../../../../include/tarbucket.h");
    for number in (1..=16).filter(|&number| number != 12) {
        let case = format!("{:?}", Error::of(number, 0, 0, 0));
        let parted = |c: char| if c.is_uppercase() { format!("_{c}") } else { c.to_uppercase().to_string() };
        let name: String = case.chars().take_while(char::is_ascii_alphanumeric).map(parted).collect();
        assert_eq!(number_behind(header, &format!("    TARBUCKET{name} = ")), number);
    }
}

/// A source, its number and place, T and the rules opened: Program, then Line and Simple for a statement on one line, and eight, E to F, for `x`.
const CUT: [(&str, u32, u32, u32, u32); 27] = [
    ("x =", 15, 3, 2, 11),
    ("x =\n", 16, 3, 3, 11),
    ("()", 15, 2, 2, 11),
    ("()\n", 14, 2, 3, 11),
    ("f(\n", 14, 2, 3, 11),
    ("[1,\n", 14, 3, 4, 19),
    ("(\n", 14, 1, 2, 11),
    ("{\n", 14, 1, 2, 11),
    ("x[\n", 16, 2, 3, 11),
    ("{1:\n", 16, 3, 4, 19),
    ("not\n", 16, 3, 2, 10),
    ("return\n", 16, 6, 2, 3),
    ("return", 15, 6, 1, 3),
    ("lambda:\n", 16, 7, 3, 4),
    ("lambda\n", 14, 6, 2, 4),
    ("a.\n", 14, 2, 3, 11),
    ("def f(\n", 14, 6, 4, 2),
    ("def f(", 15, 6, 3, 2),
    ("class A:\n", 15, 9, 4, 3),
    ("if a:\n", 15, 6, 4, 11),
    ("if a\n", 14, 4, 3, 10),
    ("if a:\n  x =", 16, 11, 8, 21),
    ("if a:\n  x =\n", 16, 11, 9, 21),
    ("if a:\n  if b:", 14, 13, 9, 21),
    ("if a:\n  b", 14, 9, 7, 21),
    ("a-1", 14, 1, 2, 11),
    ("for a in\n", 16, 8, 4, 2),
];

#[test]
fn cut_scripts_and_wrong_ones() {
    for (src, number, place, tokens, openings) in CUT {
        assert_eq!(Reader::new().read(src.as_bytes()).unwrap_err(), Error::of(number, place, tokens, openings), "{src:?}");
    }
}

#[test]
fn a_refusal_by_the_grammar_leaves_the_areas_zero() {
    for src in ["a-1", "x =", "x =\n", "if a:\n  x =", "if a:\n  b"] {
        let n = src.len();
        let (mut tokens, mut text, mut tree) = ([7u32; 100], [7u8; 100], [7u32; 400]);
        assert!(parse_source(src.as_bytes(), &mut tokens, &mut text, &mut tree).is_err());
        let words = |all: &[u32], area: usize| all.iter().enumerate().all(|(i, &w)| w == if i < area { 0 } else { 7 });
        assert!(words(&tokens, token_words(n)) && words(&tree, tree_words(n)), "{src:?}");
        assert!(text.iter().enumerate().all(|(i, &b)| b == if i < text_bytes(n) { 0 } else { 7 }), "{src:?}");
    }
}
