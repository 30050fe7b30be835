//! 02, change 4: 15 where the token that does not fit is Eof, 16 where it is a Newline or Dedent and only an expression or operand
//! could stand. Numbers and places are by hand.

use super::refusal;

/// At the end of a script, and before a line feed, which stands at the same place.
#[test]
fn at_the_end_of_a_line() {
    #[rustfmt::skip]
    let only_an_expression = [
        "x =", "a, =", "return", "if", "while", "for a in", "if a: b\nelif", "lambda:", "lambda a, b:", "x = lambda a:", "x[", "x[y[", "{1:",
        "{1: 2, 3:", "not", "-", "+", "not not", "a or", "a and", "a ==", "a !=", "a <", "a < b <=", "a >", "a >=", "a +", "a -", "a *", "a //",
        "a /", "a %", "a * -", "(a +", "[a, not", "f(a, b or", "t{a <", "{a: b +", "{a: lambda:", "if a: return", "if a: x =", "a; b =", "a.b[",
        "if a:\n  b\n  c =", "def f(a): return", "class A:\n  def f():\n    return",
    ];
    for src in only_an_expression {
        let place = src.len() as u32;
        // In a body on its own lines a Dedent comes before Eof.
        let end = if src.contains("\n  ") { 16 } else { 15 };
        assert_eq!(refusal(src), (end, place), "{src:?}");
        assert_eq!(refusal(&format!("{src}\n")), (16, place), "{src:?}");
        assert_eq!(refusal(&format!("{src} # cut\n")).0, 16, "{src:?}");
    }
    #[rustfmt::skip]
    let something_else_too = [
        "(", "()", "(a", "(a,", "f(", "f(a", "f(a,", "[", "[a", "[1,", "{", "{a", "{a,", "{a: b", "{a: b,", "t{", "t{a,", "x[a", "lambda", "lambda a",
        "lambda a,", "a.", "def", "def f", "def f(", "def f(a", "def f(a,", "def f()", "class", "class A", "for", "for a", "if a", "while a",
        "for a in b", "if a: b\nelif c", "if a: b\nelse",
    ];
    for src in something_else_too {
        assert_eq!(refusal(src), (15, src.len() as u32), "{src:?}");
        assert_eq!(refusal(&format!("{src}\n")), (14, src.len() as u32), "{src:?}");
    }
}

#[test]
fn at_other_tokens() {
    let cases = [
        ("class A:\n", 15, 9),
        ("if a:", 15, 5),
        ("if a:\n", 15, 6),
        ("if a: b\nelse:\n", 15, 14),
        ("if a:\n  x =", 16, 11),
        ("if a:\n  if b:", 14, 13),
        ("if a:\n  if b:\n", 14, 14),
        ("if a:\n  (", 14, 9),
        ("if a:\n  if b:\n    not", 16, 21),
        // A carriage return before the sign: the spaces behind it are counted, so a Dedent stands before `c`.
        ("if a:\n  b\n\r-c\n", 16, 12),
        ("if a:\n  b\n\r(c\n", 14, 12),
        ("if a:\n  b\n\r(", 14, 12),
        ("if a:\n  b\n\r-", 16, 12),
        // Neither Newline nor Dedent.
        ("x = )", 14, 4),
        ("x = ,", 14, 4),
        ("x = =", 14, 4),
        ("x[]", 14, 2),
        ("{1:}", 14, 3),
        ("return;", 14, 6),
        ("not)", 14, 3),
        ("a\n  b", 14, 2),
        ("-\n", 16, 1),
        ("- #\n", 16, 3),
    ];
    for (src, number, place) in cases {
        assert_eq!(refusal(src), (number, place), "{src:?}");
    }
}

/// The depth is asked by 13 alone: where an E would be the 65th, the token that begins none is told as anywhere.
#[test]
fn at_the_depth() {
    let deep = "f[".repeat(64);
    assert_eq!(refusal(&format!("{deep}a")), (13, 128));
    assert_eq!(refusal(&format!("{deep}\n")), (16, 128));
    assert_eq!(refusal(&deep), (15, 128));
    assert_eq!(refusal(&format!("{}\n", "(".repeat(64))), (14, 64));
    assert_eq!(refusal(&format!("{deep})")), (14, 128));
}
