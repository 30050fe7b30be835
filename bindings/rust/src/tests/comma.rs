//! A trailing comma: a Tuple of one in a return, on either side of an assignment and as a statement, and nothing elsewhere.
use super::number_and_place;
use crate::*;

/// Each node of a source from the root down: its kind and its span.
fn nodes(src: &str) -> Vec<(Kind, usize, usize)> {
    let mut reader = Reader::new();
    let tree = reader.read(src.as_bytes()).unwrap();
    let walked = tree.walk().map(|(_, node)| (node.kind(), node.span().start, node.span().end));
    walked.collect()
}

#[test]
fn one_value_and_a_comma_are_a_tuple() {
    use Kind::{Assign, Call, Expr, Float, Int, Lambda, Program, Return, Tuple, Variable};
    let cases = [
        ("1,", vec![(Expr, 0, 2), (Tuple, 0, 2), (Int, 0, 1)]),
        ("return 1,", vec![(Return, 0, 9), (Tuple, 7, 9), (Int, 7, 8)]),
        // as a target it has the statement's span, its member does not
        ("a, = b", vec![(Assign, 0, 6), (Tuple, 0, 6), (Variable, 0, 1), (Variable, 5, 6)]),
        ("a = b,", vec![(Assign, 0, 6), (Variable, 0, 6), (Tuple, 4, 6), (Variable, 4, 5)]),
        ("a, = b,", vec![(Assign, 0, 7), (Tuple, 0, 7), (Variable, 0, 1), (Tuple, 5, 7), (Variable, 5, 6)]),
        ("0.10, = 1", vec![(Assign, 0, 9), (Tuple, 0, 9), (Float, 0, 4), (Int, 8, 9)]),
        // beside parentheses, which are in the span of what stands in them
        ("(1) ,", vec![(Expr, 0, 5), (Tuple, 0, 5), (Int, 0, 3)]),
        ("(1,)", vec![(Expr, 0, 4), (Tuple, 0, 4), (Int, 1, 2)]),
        ("(1,),", vec![(Expr, 0, 5), (Tuple, 0, 5), (Tuple, 0, 4), (Int, 1, 2)]),
        ("()),", vec![(Expr, 0, 4), (Tuple, 0, 4), (Tuple, 0, 3)]),
        ("f(1,),", vec![(Expr, 0, 6), (Tuple, 0, 6), (Call, 0, 5), (Variable, 0, 1), (Int, 2, 3)]),
        ("lambda: 1,", vec![(Expr, 0, 10), (Tuple, 0, 10), (Lambda, 0, 9), (Int, 8, 9)]),
        // one of many, as it was
        ("1, 2,", vec![(Expr, 0, 5), (Tuple, 0, 5), (Int, 0, 1), (Int, 3, 4)]),
        ("1", vec![(Expr, 0, 1), (Int, 0, 1)]),
    ];
    for (src, mut expected) in cases {
        expected.insert(0, (Program, 0, src.len()));
        assert_eq!(nodes(src), expected, "{src}");
    }
}

#[test]
fn a_tuple_of_one_on_each_line() {
    let src = "if a:\n  1, # one\nelse: return 2,; x, = 3\n";
    let tuples: Vec<_> = nodes(src).into_iter().filter(|node| node.0 == Kind::Tuple).collect();
    // the target has the span of `x, = 3`
    assert_eq!(tuples, [(Kind::Tuple, 8, 10), (Kind::Tuple, 30, 32), (Kind::Tuple, 34, 40)]);
}

#[test]
fn elsewhere_a_trailing_comma_makes_no_tuple() {
    for src in ["[1,]", "f(1,)", "{1,}", "t{1,}", "{1: 2,}", "lambda a,: 1", "def f(a,): pass", "(1)"] {
        assert!(nodes(src).iter().all(|node| node.0 != Kind::Tuple), "{src}");
    }
}

#[test]
fn the_words_of_a_tuple_of_one() {
    let mut reader = Reader::new();
    let expected = "2 4 2 0 8 3 11 2\n0 19 0 1 - 1 0 0 0\n1 30 0 2 - 0 0 0 0\n2 12 0 2 - 1 0 0 0\n3 1 0 2 - 2 0 0 0\n";
    assert_eq!(listing(&reader.read(b"1,")), expected);
}

#[test]
fn commas_that_do_not_fit() {
    let cases = [
        ("1,,", 14, 2),
        ("return 1,,", 14, 9),
        ("a,, = b", 14, 2),
        (",", 14, 0),
        ("if a,: b", 14, 4),
        ("x[a,]", 14, 3),
        ("for a, in b: c", 14, 5),
        ("for a in b,: c", 14, 10),
        ("a, =", 15, 4),
        ("a, =\n", 16, 4),
    ];
    for (src, number, place) in cases {
        assert_eq!(number_and_place(src.as_bytes()), (number, place), "{src}");
    }
}
