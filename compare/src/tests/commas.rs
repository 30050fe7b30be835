//! 02, change 5: "One E with a trailing comma in return, assignment or expression is now a Tuple of one whose span includes the
//! comma." Spans are by hand.

use super::{kinds, nodes, refusal};
use crate::descent::descend;
use crate::scan::scan;
use crate::words::kind::{
    ASSIGN, CALL, DICT, EXPR, FLOAT, INDEX, INT, LAMBDA, LIST, NAME, PROGRAM, RETURN, SET, TREE_SET, TUPLE, VARIABLE,
};

/// Kind, start and end of each node but the last, which is Program from 0 to n.
fn spans(src: &str) -> Vec<[u32; 3]> {
    let mut spans: Vec<_> = nodes(src).iter().map(|&[kind, start, end, ..]| [kind, start, end]).collect();
    assert_eq!(spans.pop(), Some([PROGRAM, 0, src.len() as u32]), "{src:?}");
    spans
}

#[test]
fn in_each_place() {
    let cases: [(&str, &[[u32; 3]]); 16] = [
        ("1,", &[[INT, 0, 1], [TUPLE, 0, 2], [EXPR, 0, 2]]),
        ("a  , # b\n", &[[VARIABLE, 0, 1], [TUPLE, 0, 4], [EXPR, 0, 4]]),
        ("return 1,", &[[INT, 7, 8], [TUPLE, 7, 9], [RETURN, 0, 9]]),
        ("a, = b", &[[VARIABLE, 0, 1], [TUPLE, 0, 6], [VARIABLE, 5, 6], [ASSIGN, 0, 6]]),
        ("a = b,", &[[VARIABLE, 0, 6], [VARIABLE, 4, 5], [TUPLE, 4, 6], [ASSIGN, 0, 6]]),
        ("a, = b,", &[[VARIABLE, 0, 1], [TUPLE, 0, 7], [VARIABLE, 5, 6], [TUPLE, 5, 7], [ASSIGN, 0, 7]]),
        ("a, b, = c,", &[[VARIABLE, 0, 1], [VARIABLE, 3, 4], [TUPLE, 0, 10], [VARIABLE, 8, 9], [TUPLE, 8, 10], [ASSIGN, 0, 10]]),
        ("1.5, = a", &[[FLOAT, 0, 3], [TUPLE, 0, 8], [VARIABLE, 7, 8], [ASSIGN, 0, 8]]),
        ("a,; b,", &[[VARIABLE, 0, 1], [TUPLE, 0, 2], [EXPR, 0, 2], [VARIABLE, 4, 5], [TUPLE, 4, 6], [EXPR, 4, 6]]),
        ("lambda: 1,", &[[INT, 8, 9], [LAMBDA, 0, 9], [TUPLE, 0, 10], [EXPR, 0, 10]]),
        ("\u{e9},", &[[VARIABLE, 0, 2], [TUPLE, 0, 3], [EXPR, 0, 3]]),
        // Parentheses have their own Tuple, and widen what they hold.
        ("(a),", &[[VARIABLE, 0, 3], [TUPLE, 0, 4], [EXPR, 0, 4]]),
        ("(a,),", &[[VARIABLE, 1, 2], [TUPLE, 0, 4], [TUPLE, 0, 5], [EXPR, 0, 5]]),
        ("((a,),)", &[[VARIABLE, 2, 3], [TUPLE, 1, 5], [TUPLE, 0, 7], [EXPR, 0, 7]]),
        ("((a,)), = b", &[[VARIABLE, 2, 3], [TUPLE, 0, 6], [TUPLE, 0, 11], [VARIABLE, 10, 11], [ASSIGN, 0, 11]]),
        ("()),", &[[TUPLE, 0, 3], [TUPLE, 0, 4], [EXPR, 0, 4]]),
    ];
    for (src, due) in cases {
        assert_eq!(spans(src), due, "{src:?}");
    }
    assert_eq!(spans("if a: b,")[1..3], [[VARIABLE, 6, 7], [TUPLE, 6, 8]]);
    assert_eq!(spans("if a:\n  b,\n")[1..3], [[VARIABLE, 8, 9], [TUPLE, 8, 10]]);
}

#[test]
fn and_in_no_other() {
    assert_eq!(kinds("(a)"), [VARIABLE, EXPR, PROGRAM]);
    assert_eq!(spans("(a,)"), [[VARIABLE, 1, 2], [TUPLE, 0, 4], [EXPR, 0, 4]]);
    assert_eq!(spans("a, b,"), [[VARIABLE, 0, 1], [VARIABLE, 3, 4], [TUPLE, 0, 5], [EXPR, 0, 5]]);
    assert_eq!(kinds("[a,]"), [VARIABLE, LIST, EXPR, PROGRAM]);
    assert_eq!(kinds("{a,}"), [VARIABLE, SET, EXPR, PROGRAM]);
    assert_eq!(kinds("t{a,}"), [VARIABLE, TREE_SET, EXPR, PROGRAM]);
    assert_eq!(kinds("{a: b,}")[3..], [DICT, EXPR, PROGRAM]);
    assert_eq!(kinds("f(a,)"), [VARIABLE, VARIABLE, CALL, EXPR, PROGRAM]);
    assert_eq!(kinds("lambda a,: b"), [NAME, VARIABLE, LAMBDA, EXPR, PROGRAM]);
    assert_eq!(kinds("x[(a,)]"), [VARIABLE, VARIABLE, TUPLE, INDEX, EXPR, PROGRAM]);
}

#[test]
fn refused() {
    let cases = [
        ("1,,", 14, 2),
        (",", 14, 0),
        ("return ,", 14, 7),
        ("a,, = b", 14, 2),
        ("a = b,,", 14, 6),
        ("a, = b, = c", 14, 8),
        ("a, =", 15, 4),
        ("a, =\n", 16, 4),
        ("a, or b", 14, 3),
        ("x[a,]", 14, 3),
        ("for a, in b: c", 14, 5),
        ("for a in b,: c", 14, 10),
        ("if a,: b", 14, 4),
        ("while a,: b", 14, 7),
        ("f(a,,)", 14, 4),
        ("if a:\n  b,", 14, 10),
    ];
    for (src, number, place) in cases {
        assert_eq!(refusal(src), (number, place), "{src:?}");
    }
}

/// Nodes are at most 2 T + 1, in a refusal as well.
#[test]
fn limit_on_nodes() {
    for src in ["a", "a,", "a,,", "-a,", "a, =", "a, = b,", "a,=b,;".repeat(99).as_str(), "a<b<c,;".repeat(99).as_str()] {
        let tokens = scan(src).unwrap();
        assert!(descend(src.as_bytes(), &tokens).written as usize <= 2 * (tokens.len() - 1) + 1, "{src:?}");
    }
}
