//! 01's "Scripts and their outcome", 02's names, Floats, cut scripts, trailing commas and standard text, read both ways; the classes of characters.

mod commas;
mod cut;
mod written;

use crate::classes::{BEGIN, CONTINUE};
use crate::name::{begins, continues, within};
use crate::token::Kind;
use crate::trial::{try_program, Verdict};
use crate::utf8::{check, Checked};
use crate::words::{kind, Record};
use crate::{parse, print, scan, Answer};

fn refusal(src: &str) -> (u32, u32) {
    let answer = parse(src.as_bytes()).err().expect("refused");
    if answer.number >= 14 {
        let tokens = scan::scan(src).unwrap();
        assert!(matches!(try_program(src.as_bytes(), &tokens, 1 << 30), Verdict::Refused), "{src:?}");
    }
    (answer.number, answer.place)
}

/// The nodes in the order of writing.
fn nodes(src: &str) -> Vec<Record> {
    let tokens = scan::scan(src).unwrap();
    let script = parse(src.as_bytes()).ok().expect("accepted");
    let layout = crate::layout::lay_out(&script.program, src.len() as u32);
    let Verdict::Accepted { nodes, text } = try_program(src.as_bytes(), &tokens, 1 << 30) else { panic!("{src:?}") };
    assert_eq!((&nodes, &text), (&layout.nodes, &layout.text), "{src:?}");
    nodes
}

fn kinds(src: &str) -> Vec<u32> {
    nodes(src).iter().map(|record| record[0]).collect()
}

#[test]
fn refused_scripts() {
    let cases = [
        ("a-1", 14, 1),
        ("-1.5", 14, 3),
        ("()", 15, 2),
        ("if a:\n  b", 14, 9),
        ("9223372036854775808", 10, 0),
        ("\t", 6, 0),
        ("if a:\n   b\n", 7, 6),
        ("1.0e24", 11, 0),
        ("1+2", 14, 1),
        ("a\n ", 7, 2),
        ("\ra = 1", 7, 2),
        ("!", 9, 0),
        ("a\u{20ac}", 9, 1),
        ("if a: b\n\nelse: c\n", 14, 9),
    ];
    for (src, number, place) in cases {
        assert_eq!(refusal(src), (number, place), "{src:?}");
    }
    assert_eq!(refusal(&("(".repeat(64) + "a" + &")".repeat(64))), (13, 64));
}

#[test]
fn accepted_scripts() {
    use kind::{ATTRIBUTE, BINARY, EXPR, IF, INT, PROGRAM, TUPLE, UNARY, VARIABLE};
    assert_eq!(kinds(""), [PROGRAM]);
    assert_eq!(kinds("1.e5"), [INT, ATTRIBUTE, EXPR, PROGRAM]);
    assert_eq!(kinds("())"), [TUPLE, EXPR, PROGRAM]);
    assert_eq!(kinds("not a == b"), [VARIABLE, UNARY, VARIABLE, BINARY, EXPR, PROGRAM]);
    assert_eq!(kinds("1,"), [INT, TUPLE, EXPR, PROGRAM]);
    assert_eq!(kinds("if a:\n  b\n"), [VARIABLE, VARIABLE, EXPR, IF, PROGRAM]);
    assert_eq!(kinds("if a:\n  "), [VARIABLE, IF, PROGRAM]);
    assert_eq!(kinds("-9223372036854775808"), [INT, EXPR, PROGRAM]);
    assert_eq!(kinds("1.0e23"), [kind::FLOAT, EXPR, PROGRAM]);
    assert_eq!(kinds(&("(".repeat(63) + "a" + &")".repeat(63))), [VARIABLE, EXPR, PROGRAM]);
}

#[test]
fn areas_and_printing() {
    let mut tree = [7; 17];
    let answer = crate::read(b"", &mut [9; 3], &mut [], &mut tree);
    assert_eq!(answer, Answer { nodes: 1, openings: 1, ..Answer::default() });
    assert_eq!(tree, [2, 1, 0, 0, 8, 0, 1, 0, 1, 0, 0, crate::words::NONE, crate::words::NONE, 0, 0, 0, 7]);
    assert_eq!(print(b"()"), "no 15 2\n");
    assert_eq!(print(&[b' '; 1024]), "no 1 0\n");
    let chain = "2 8 6 0 8 7 19 6\n0 23 0 1 - 0 1 0 0\n1 23 2 3 - 2 3 0 0\n2 25 0 3 - 9 0 1 0\n3 23 4 5 - 4 5 0 0\n\
                 4 25 2 5 - 9 1 3 0\n5 25 0 5 - 13 2 4 0\n6 12 0 5 - 5 0 0 0\n7 1 0 6 - 6 0 0 0\n";
    assert_eq!(print(b"a<b<c\n"), chain);
    // 0.1 is 3fb99999 9999999a.
    let float = "2 3 3 0 8 2 19 6\n0 21 0 6 - 2576980378 1069128089 1 5\n1 12 0 6 - 0 0 0 0\n2 1 0 6 - 1 0 0 0\n";
    assert_eq!(print(b"(0.10)"), float);
}

/// 02, change 3: "A Float record carries in r and s the start and end of its token, which differ from the node's span in
/// parentheses or as an Assign target."
#[test]
fn floats_keep_their_spelling() {
    // Of each Float: start, end, r, s.
    let cases: [(&str, &[[u32; 4]]); 19] = [
        ("0.10", &[[0, 4, 0, 4]]),
        ("(0.10)", &[[0, 6, 1, 5]]),
        ("((0.10))", &[[0, 8, 2, 6]]),
        ("( ( 0.10) )", &[[0, 11, 4, 8]]),
        ("0.10 = 1.50", &[[0, 11, 0, 4], [7, 11, 7, 11]]),
        ("(0.10) = 1", &[[0, 10, 1, 5]]),
        ("((0.10)) = (1.50)", &[[0, 17, 2, 6], [11, 17, 12, 16]]),
        ("0.10, = 1.50,", &[[0, 4, 0, 4], [8, 12, 8, 12]]),
        ("0.10, (1.50) = a", &[[0, 4, 0, 4], [6, 12, 7, 11]]),
        ("a; 0.10=1; 1.50", &[[3, 9, 3, 7], [11, 15, 11, 15]]),
        ("[0.10, (1.50)]", &[[1, 5, 1, 5], [7, 13, 8, 12]]),
        ("{(0.10): 1.50}", &[[1, 7, 2, 6], [9, 13, 9, 13]]),
        ("0.10 < (1.50) < 2.0e1", &[[0, 4, 0, 4], [7, 13, 8, 12], [16, 21, 16, 21]]),
        ("f(0.10, (1.50))", &[[2, 6, 2, 6], [8, 14, 9, 13]]),
        ("(0.10).a = -(1.50)", &[[0, 6, 1, 5], [12, 18, 13, 17]]),
        ("lambda: (0.10)", &[[8, 14, 9, 13]]),
        ("return (0.10)", &[[7, 13, 8, 12]]),
        ("if (0.10): 1.50 = 2.5\n", &[[3, 9, 4, 8], [11, 21, 11, 15], [18, 21, 18, 21]]),
        ("\u{e9}((0.10))", &[[3, 9, 4, 8]]),
    ];
    let of_float = |&[number, start, end, _, _, _, r, s]: &Record| (number == kind::FLOAT).then_some([start, end, r, s]);
    for (src, floats) in cases {
        assert_eq!(nodes(src).iter().filter_map(of_float).collect::<Vec<_>>(), floats, "{src:?}");
    }
    // "Unused words are 0": no other literal has its token's places.
    for src in ["(1) = ('s')", "(True) = (None)", "(-7) = [(1), (None)]"] {
        assert!(nodes(src).iter().all(|&[.., r, s]| [r, s] == [0, 0]), "{src:?}");
    }
}

/// The tokens of a text, each with its bytes.
fn words(src: &str) -> Vec<(Kind, &str)> {
    let tokens = scan::scan(src).unwrap();
    tokens.iter().map(|token| (token.kind, &src[token.start as usize..token.end as usize])).collect()
}

#[test]
fn names_in_any_script() {
    #[rustfmt::skip]
    let names = [
        "\u{e9}", "a\u{e9}", "_\u{b7}", "\u{2118}", "\u{ac00}\u{ac01}", "\u{3b1}\u{3b2}1", "\u{627}\u{644}", "\u{915}\u{94d}\u{937}", "e\u{301}",
        "if\u{e9}", "\u{e9}if", "None\u{301}", "\u{fb01}", "\u{ff41}\u{ff11}", "\u{10400}\u{1d7d8}", "a\u{e0100}", "\u{323af}",
    ];
    for name in names {
        assert_eq!(words(name), [(Kind::Name, name), (Kind::Eof, "")]);
        assert_eq!(kinds(name), [kind::VARIABLE, kind::EXPR, kind::PROGRAM]);
        assert_eq!(kinds(&format!("{name}.{name}({name})\n"))[..2], [kind::VARIABLE, kind::ATTRIBUTE]);
    }
    use Kind::{Dot, Eof, Float, Int, Minus, Name, Str};
    assert_eq!(words("1\u{e9}"), [(Int, "1"), (Name, "\u{e9}"), (Eof, "")]);
    assert_eq!(words("1.\u{e9}"), [(Int, "1"), (Dot, "."), (Name, "\u{e9}"), (Eof, "")]);
    assert_eq!(words("1.5e\u{e9}"), [(Float, "1.5"), (Name, "e\u{e9}"), (Eof, "")]);
    assert_eq!(words("-\u{e9}''\u{e9}"), [(Minus, "-"), (Name, "\u{e9}"), (Str, "''"), (Name, "\u{e9}"), (Eof, "")]);
    // Not normalised: a wide t is no t.
    assert_eq!(kinds("t{a}")[1], kind::TREE_SET);
    assert_eq!(refusal("\u{ff54}{a}"), (14, 3));
}

#[test]
fn no_names() {
    #[rustfmt::skip]
    let strays = [
        "\u{80}", "\u{a0}", "\u{b7}", "\u{d7}", "\u{301}", "\u{661}", "\u{94d}", "\u{200d}", "\u{2028}", "\u{20ac}", "\u{3000}", "\u{feff}",
        "\u{ff11}", "\u{1d7d8}", "\u{1f600}", "\u{e0100}", "\u{10ffff}",
    ];
    for stray in strays {
        for front in ["", "  \r ", "'\u{e9}' ", "1", "- ", "(", "\u{e9} ", "if a:\n  \u{e9}\n  ", "#\u{e9}\n"] {
            assert_eq!(refusal(&format!("{front}{stray}")), (9, front.len() as u32), "{front:?} {stray:?}");
        }
    }
    assert_eq!(refusal("a\u{20ac}"), (9, 1));
    assert_eq!(refusal("\u{e9}\u{20ac}"), (9, 2));
    assert_eq!(refusal("\u{ac00}\u{a0}a"), (9, 3));
    assert_eq!(refusal("\u{feff}a"), (9, 0));
}

#[test]
fn classes() {
    for ranges in [&BEGIN[..], &CONTINUE] {
        assert!(ranges.iter().all(|(first, last)| first <= last));
        assert!(ranges.windows(2).all(|two| two[0].1 as u32 + 1 < two[1].0 as u32));
    }
    for c in '\0'..=char::MAX {
        assert_eq!((begins(c), continues(c)), (within(&BEGIN, c), within(&CONTINUE, c)), "{c:?}");
        assert!(continues(c) || !begins(c), "{c:?}");
        // The standard library has other classes, of a later Unicode: all that begin names are letters there, but for these.
        assert!(c.is_alphabetic() || !begins(c) || ['_', '\u{2118}', '\u{212e}'].contains(&c), "{c:?}");
    }
}

/// 02's sentence of the rounds word by word, which `check` only counts.
fn in_rounds(src: &[u8]) -> Checked {
    let (mut at, mut rounds) = (0, 0);
    while at < src.len() {
        rounds += 1;
        let rest = &src[at..];
        let one = (1..=rest.len().min(4)).find(|&length| std::str::from_utf8(&rest[..length]).is_ok());
        at += match (rest.get(..8), one) {
            (Some(eight), _) if eight.iter().all(|&byte| byte < 128) => 8,
            (_, Some(length)) => length,
            (_, None) => return Checked { bad: Some(at), rounds },
        };
    }
    Checked { bad: None, rounds }
}

#[test]
fn rounds() {
    let due = [0, 1, 2, 3, 4, 5, 6, 7, 1, 2, 3, 4, 5, 6, 7, 8, 2, 3];
    for (n, rounds) in due.into_iter().enumerate() {
        assert_eq!(check(&vec![127; n]), Checked { bad: None, rounds }, "{n} bytes");
    }
    for (src, bad, rounds) in [
        ("\u{e9}".as_bytes(), None, 1),
        ("1234567\u{e9}".as_bytes(), None, 8),
        ("12345678\u{ac00}12345678".as_bytes(), None, 3),
        ("\u{10400}1234567".as_bytes(), None, 8),
        (b"\x80", Some(0), 1),
        (b"12345678\xe2\x82", Some(8), 2),
        (b"1234567\xc3(1234567", Some(7), 8),
    ] {
        assert_eq!(check(src), Checked { bad, rounds }, "{src:?}");
    }
}

#[test]
fn rounds_read_twice() {
    for length in 0..=40 {
        for at in 0..=length {
            for wide in ["\u{80}", "\u{e9}", "\u{ac00}", "\u{10400}"].map(str::as_bytes) {
                for middle in (0..=wide.len()).flat_map(|cut| [&wide[..cut], &wide[cut..]]) {
                    let src = [&vec![b'a'; at], middle, &vec![0; length - at]].concat();
                    assert_eq!(check(&src), in_rounds(&src), "{src:?}");
                }
            }
        }
    }
}
