//! The writer. The texts were written by hand from the words of include/tarbucket.h, one or more for each of them.
use super::words_of;
use crate::*;

mod call;

/// Sources and their standard texts.
const TEXTS: [(&str, &str); 55] = [
    ("", ""),
    ("\n\n", ""),
    ("a", "a\n"),
    ("a # b\n\n\nc", "a\nc\n"),
    ("a;b;c;", "a\nb\nc\n"),
    ("if a:b;c", "if a:\n  b\n  c\n"),
    ("if(a):\n  b\nelif(c) :d\nelse :\n  if e:f\n", "if a:\n  b\nelif c:\n  d\nelse:\n  if e:\n    f\n"),
    ("while(a):break;continue\n", "while a:\n  break\n  continue\n"),
    ("for a in[b]:pass", "for a in [b]:\n  pass\n"),
    ("def f( a,b, ):return(a)", "def f(a, b):\n  return a\n"),
    ("def f():\n  return a,b\n", "def f():\n  return a, b\n"),
    ("class A :\n  def f(a):b\n  def g():\n    c\n", "class A:\n  def f(a):\n    b\n  def g():\n    c\n"),
    ("a-  -1", "a - -1\n"),
    ("- 1; -1; + 5; +5; -1 .x", "- 1\n-1\n+ 5\n5\n-1.x\n"),
    ("007, -0, -9223372036854775808", "7, 0, -9223372036854775808\n"),
    ("1.e5", "1.e5\n"),
    ("0.10, (1.50e+1), 007.5", "0.10, 1.50e+1, 007.5\n"),
    ("0.10 = 2.5", "0.10 = 2.5\n"),
    ("not a==b; a==not b; not(a==b)", "not a == b\na == not b\nnot (a == b)\n"),
    ("not not-+a", "not not - + a\n"),
    ("(a+b)+c; a+(b+c)", "a + b + c\na + (b + c)\n"),
    ("a*(b+c); (a*b)+c; -(a+b); (-a)+b", "a * (b + c)\na * b + c\n- (a + b)\n- a + b\n"),
    ("a*b//c/d%e", "a * b // c / d % e\n"),
    ("a and(b and c); (a and b)and c", "a and (b and c)\na and b and c\n"),
    ("a or b and c; (a or b)and c", "a or b and c\n(a or b) and c\n"),
    ("a<b<c; (a<b)<c; a<(b<c)", "a < b < c\n(a < b) < c\na < (b < c)\n"),
    ("a<b<c and d; a<b and b<c", "a < b < c and d\na < b and b < c\n"),
    ("a==b!=c<=d>f>=g", "a == b != c <= d > f >= g\n"),
    ("(lambda:1)(); lambda a,b,:c", "(lambda: 1)()\nlambda a, b: c\n"),
    ("lambda:1,2; lambda:(1,2)", "lambda: 1, 2\nlambda: (1, 2)\n"),
    ("lambda:lambda a:a", "lambda: lambda a: a\n"),
    ("(lambda:a)or b", "(lambda: a) or b\n"),
    ("1,; (1,); x=1,; (x,)=(1,)", "1,\n1,\nx = 1,\nx, = 1,\n"),
    ("((a,),); ((a,b),c)", "(a,),\n(a, b), c\n"),
    ("()); [())]; x=())", "())\n[())]\nx = ())\n"),
    ("[]; [a,]; [a,b,c,]", "[]\n[a]\n[a, b, c]\n"),
    ("{}; {a,}; {a:b,}; { a : b, c :d }", "{}\n{a}\n{a: b}\n{a: b, c: d}\n"),
    ("t{}; t{a,}; t {a,b}; t", "t{}\nt{a}\nt{a, b}\nt\n"),
    ("f((a,b)); f((a,)); f(a,); f[(a,b)]", "f((a, b))\nf((a,))\nf(a)\nf[(a, b)]\n"),
    ("a .b (c) [d] .f", "a.b(c)[d].f\n"),
    ("(a+b).c; (-a)[b]; -a[b]; (a,b)()", "(a + b).c\n(- a)[b]\n- a[b]\n(a, b)()\n"),
    ("None; True; False", "None\nTrue\nFalse\n"),
    ("''; \"\"; 'a'", "\"\"\n\"\"\n\"a\"\n"),
    (r#"x = 'a\'b"\n\q'"#, "x = \"a'b\\\"\\n\\\\q\"\n"),
    ("'\n\t\r'; '\\n\\t\\r\\\\'", "\"\\n\\t\\r\"\n\"\\n\\t\\r\\\\\"\n"),
    ("홀=στοα\u{301}.गलियारा+𐐷", "홀 = στοα\u{301}.गलियारा + 𐐷\n"),
    ("'홀\u{7f}\0'", "\"홀\u{7f}\0\"\n"),
    ("return a", "return a\n"),
    ("break;pass", "break\npass\n"),
    ("if a:b\nelse:c", "if a:\n  b\nelse:\n  c\n"),
    ("if a:\n  if b:c\n  else:d\n", "if a:\n  if b:\n    c\n  else:\n    d\n"),
    ("for a in(b,c):d", "for a in (b, c):\n  d\n"),
    ("return(a,b)", "return a, b\n"),
    ("return())", "return ())\n"),
    ("{(lambda:a):lambda:b}", "{lambda: a: lambda: b}\n"),
];

/// Writes a source into a slice of its own areas and three cells more. What is lent to the reader must be as `parse_source` leaves it, and the counts and the
/// reader's refusal must be its own.
fn write(src: &[u8], out: &mut [u8]) -> Result<Written, WriteError> {
    let n = src.len();
    let (mut tokens, mut text, mut tree) = (vec![7; token_words(n) + 3], vec![7; text_bytes(n) + 3], vec![7; tree_words(n) + 3]);
    let (mut tokens_due, mut text_due, mut tree_due) = (tokens.clone(), text.clone(), tree.clone());
    let wrote = write_source(src, &mut tokens, &mut text, &mut tree, out);
    let read = parse_source(src, &mut tokens_due, &mut text_due, &mut tree_due);
    assert!(tokens == tokens_due && text == text_due && tree == tree_due, "{wrote:?}");
    match wrote {
        Ok(written) => assert_eq!(read, Ok(written.counts)),
        Err(WriteError::Read(error)) => assert_eq!(read, Err(error)),
        Err(_) => assert!(read.is_ok()),
    }
    wrote
}

/// The answer and the whole slice, of so many bytes that were 7.
fn written(src: &[u8], bytes: usize) -> (Result<usize, WriteError>, Vec<u8>) {
    let mut out = vec![7; bytes + 2];
    let wrote = write(src, &mut out[..bytes]);
    assert_eq!(out.split_off(bytes), [7, 7]);
    (wrote.map(|written| written.length), out)
}

#[test]
fn the_texts() {
    for (src, text) in TEXTS {
        let length = text.len();
        let zeros = format!("{text}\0\0\0\0\0").into_bytes();
        assert_eq!(written(src.as_bytes(), length + 5), (Ok(length), zeros), "{src:?}");
        assert_eq!(written(src.as_bytes(), length), (Ok(length), text.as_bytes().to_vec()), "{src:?}");
        for less in (1..=5).chain([length]).filter(|&less| 0 < less && less <= length) {
            assert_eq!(written(src.as_bytes(), length - less), (Err(WriteError::NoRoom), vec![0; length - less]), "{src:?}");
        }
        assert_eq!(Reader::new().write(src.as_bytes()), Ok(text.as_bytes()), "{src:?}");
    }
}

/// A record of a source's tree without its places, and the bytes of its name, string or Float.
fn apart<'a>(src: &'a [u8], text: &'a [u8], record: &[u32]) -> ([u32; 6], &'a [u8]) {
    let &[kind, _, _, next, p, q, r, s] = record else { panic!("eight words") };
    let of = |bytes: &'a [u8], start: u32, end: u32| &bytes[start as usize..end as usize];
    match kind {
        4 | 5 | 8 | 13 | 16 | 23 => ([kind, next, 0, 0, r, s], of(src, p, q)),
        20 => ([kind, next, p, q, r, s], of(text, p, p + q)),
        21 => ([kind, next, p, q, 0, 0], of(src, r, s)),
        27 => ([kind, next, p, 0, 0, s], of(src, q, r)),
        _ => ([kind, next, p, q, r, s], &[]),
    }
}

#[test]
fn a_text_read_back_is_the_same_script() {
    for (src, text) in TEXTS {
        let (strings, words) = words_of(src.as_bytes());
        let (strings_back, words_back) = words_of(text.as_bytes());
        assert_eq!((&strings, words.len()), (&strings_back, words_back.len()), "{src:?}");
        for (one, back) in words[8..].chunks(8).zip(words_back[8..].chunks(8)) {
            assert_eq!(apart(src.as_bytes(), &strings, one), apart(text.as_bytes(), &strings_back, back), "{src:?}");
        }
        assert_eq!(written(text.as_bytes(), text.len()), (Ok(text.len()), text.as_bytes().to_vec()), "{src:?}");
    }
}

/// The longest text, and one of one byte more.
#[test]
fn the_longest_text() {
    let name = vec![b'a'; LONGEST];
    let source = [&name[1..], b"\n"].concat();
    assert_eq!(written(&source, LONGEST), (Ok(LONGEST), source.clone()));
    assert_eq!(written(&source, LONGEST - 1), (Err(WriteError::NoRoom), vec![0; LONGEST - 1]));
    // in a longer slice as well
    for bytes in [LONGEST, LONGEST + 1, 2 * LONGEST] {
        assert_eq!(written(&name, bytes), (Err(WriteError::NoRoom), vec![0; bytes]));
    }
    assert_eq!(written(&name[1..], LONGEST + 9), (Ok(LONGEST), [source, vec![0; 9]].concat()));
    // fewer bytes of source than of text
    let sum = format!("a{}", "+a".repeat(16_383));
    let text = format!("a{}\n", " + a".repeat(16_383));
    assert_eq!((sum.len(), text.len()), (32_767, LONGEST - 2));
    assert_eq!(Reader::new().write(sum.as_bytes()), Ok(text.as_bytes()));
    let longer = format!("{sum};b");
    assert_eq!(Reader::new().write(longer.as_bytes()).map(<[u8]>::len), Ok(LONGEST));
    assert_eq!(Reader::new().write(format!("{longer}b").as_bytes()), Err(WriteError::NoRoom));
}

/// A block with no statement is at the end of the source, its line holding spaces alone.
const EMPTY: [&str; 9] = [
    "if a:\n  ",
    "if a:b\nelif c:\n  ",
    "if a:b\nelif c:d\nelse:\n  ",
    "while a:\n  ",
    "for a in b:\n  ",
    "def f():\n  ",
    "class A:\n  def f():\n    ",
    "a\nif b:\n  c\n  while d:\n    ",
    "x = 'a'\nif a:\n\n  ",
];

#[test]
fn an_empty_block_is_not_written() {
    for src in EMPTY {
        // before the room is asked for
        for bytes in [0, 1, 9, LONGEST] {
            assert_eq!(written(src.as_bytes(), bytes), (Err(WriteError::EmptyBlock), vec![0; bytes]), "{src:?}");
        }
        assert_eq!(Reader::new().write(src.as_bytes()), Err(WriteError::EmptyBlock), "{src:?}");
    }
}

/// A source for each number from 5 on.
const REFUSED: [(&[u8], u32, usize); 12] = [
    (b"'a\xff'", 5, 2),
    (b"if a:\n\tb", 6, 6),
    (b"if a:\n   b\n", 7, 6),
    (b"if a:\n  b\n c\n", 8, 10),
    (b"a $", 9, 2),
    (b"9223372036854775808", 10, 0),
    (b"a = 1.0e24", 11, 4),
    (b"((((((((((((((((((((((((((((((((((((((((((((((((((((((((((((((((a", 13, 64),
    (b"a-1", 14, 1),
    (b"a =", 15, 3),
    (b"a =\n", 16, 3),
    (b"if a:\n", 15, 6),
];

#[test]
fn a_refusal_by_the_reader_leaves_the_slice() {
    for (src, number, place) in REFUSED {
        for bytes in [0, 1, 9, 2 * src.len()] {
            let (wrote, out) = written(src, bytes);
            let error = wrote.unwrap_err();
            assert_eq!((error.number(), error.place(), out), (number, place, vec![7; bytes]), "{}", src.escape_ascii());
            assert!(matches!(error, WriteError::Read(_)));
        }
    }
    let long = vec![b'a'; LONGEST + 1];
    assert_eq!(written(&long, 9), (Err(WriteError::Read(Error::TooLong)), vec![7; 9]));
    assert_eq!(Reader::new().write(&long), Err(WriteError::Read(Error::TooLong)));
    let (mut tokens, mut text, mut tree, mut out) = ([7; 40], [7; 20], [7; 200], [7; 20]);
    let mut lent = |words: usize, bytes: usize, nodes: usize| {
        let refused = write_source(b"a = 1\n", &mut tokens[..words], &mut text[..bytes], &mut tree[..nodes], &mut out);
        assert!(tokens == [7; 40] && text == [7; 20] && tree == [7; 200] && out == [7; 20]);
        refused
    };
    assert_eq!(lent(20, 20, 200), Err(WriteError::Read(Error::TokensTooSmall)));
    assert_eq!(lent(40, 5, 200), Err(WriteError::Read(Error::TextTooSmall)));
    assert_eq!(lent(40, 20, 111), Err(WriteError::Read(Error::TreeTooSmall)));
}

#[test]
fn tokens_of_what_was_written_last() {
    let mut reader = Reader::new();
    reader.write(b"a=1\n").unwrap();
    assert_eq!(reader.tokens().collect::<Vec<_>>(), [(21, 0, 1), (35, 1, 2), (19, 2, 3), (48, 3, 4), (49, 4, 4)]);
    // the writer refuses what was read
    reader.write(b"if a:\n  ").unwrap_err();
    assert_eq!(reader.tokens().last(), Some((49, 8, 8)));
    for refused in [&b";"[..], b"\xff", &[b'a'; LONGEST + 1]] {
        reader.write(b"a\n").unwrap();
        assert!(reader.write(refused).is_err() && reader.tokens().count() == 0);
    }
    // a long text, then a short one
    assert_eq!(reader.write(b"[1,2,3]").unwrap(), b"[1, 2, 3]\n");
    assert_eq!(reader.write(b"b").unwrap(), b"b\n");
    assert_eq!(reader.read(b"c\n").unwrap().root().children().count(), 1);
}
