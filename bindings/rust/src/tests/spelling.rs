//! A Float's own token.
use super::words_of;
use crate::*;
use std::ops::Range;

#[test]
fn spellings_outside_the_source() {
    // the Float's number, and where its node starts
    for (src, float, start) in [(&b"x, (0.10)"[..], 1, 3), (b"(0.10)", 0, 0)] {
        let (text, words) = words_of(src);
        let at = 8 + 8 * float as usize;
        let n = src.len() as u32;
        let (r, s) = (start + 1, n - 1);
        assert_eq!(words[at..at + 8], [21, start, n, NONE, 0x9999999a, 0x3fb99999, r, s]);
        for bad in [[r, r - 1], [n, s], [r, n + 1], [n + 1, n + 1], [r, NONE], [NONE, s], [NONE, NONE]] {
            let mut other = words.clone();
            other[at + 6..at + 8].copy_from_slice(&bad);
            assert_eq!(Tree::new(src, &text, &other).unwrap_err(), BadTree::Node(float), "{bad:?}");
        }
    }
}

/// Each Float of a source from the root down: its spelling, where that stands, and the node's span.
fn spellings(src: &str) -> Vec<(String, Range<usize>, Range<usize>)> {
    let mut reader = Reader::new();
    let tree = reader.read(src.as_bytes()).unwrap();
    let spelled = |node: Node| {
        let spelling = std::str::from_utf8(node.spelling()?).unwrap();
        // Rust's own reading of the same digits
        assert!(matches!(node.shape(), Shape::Float(x) if spelling.parse() == Ok(x)), "{spelling}");
        Some((spelling.to_string(), node.spelling_span()?, node.span()))
    };
    tree.walk().filter_map(|(_, node)| spelled(node)).collect()
}

#[test]
fn a_float_keeps_its_spelling() {
    let cases = [
        ("0.10", vec![("0.10", 0, 0..4)]),
        ("(0.10)", vec![("0.10", 1, 0..6)]),
        ("( (0.10) )", vec![("0.10", 3, 0..10)]),
        // the target of an Assign has the statement's span
        ("0.10 = 2.5", vec![("0.10", 0, 0..10), ("2.5", 7, 7..10)]),
        ("(0.10) = (2.50)", vec![("0.10", 1, 0..15), ("2.50", 10, 9..15)]),
        // places count bytes
        ("거리 = (0.10)", vec![("0.10", 10, 9..15)]),
        ("\"홀\", 0.10 # 홀\n", vec![("0.10", 7, 7..11)]),
        // no sign is a part of it, and it may have zeros in front, an exponent, and others of its value beside it
        ("- 0.10", vec![("0.10", 2, 2..6)]),
        ("007.5", vec![("007.5", 0, 0..5)]),
        ("[1.50e+1, 15.0, 150.0E-1]", vec![("1.50e+1", 1, 1..8), ("15.0", 10, 10..14), ("150.0E-1", 16, 16..24)]),
        // held twice, met once
        ("a < (0.10) < b", vec![("0.10", 5, 4..10)]),
        ("x = [True, 10, '0.10', None, y.z]", vec![]),
    ];
    for (src, expected) in cases {
        let spelled = |(spelling, start, span): (&str, usize, _)| (spelling.to_string(), start..start + spelling.len(), span);
        let expected: Vec<_> = expected.into_iter().map(spelled).collect();
        assert_eq!(spellings(src), expected, "{src}");
    }
}

#[test]
fn no_other_node_has_a_spelling() {
    let src = b"\
if a and not b:
  pass
elif c:
  d
else:
  e = -1
while True:
  break
for i in x[0]:
  continue
def f(g, h):
  return g.h
class C:
  def m(self):
    None
k = lambda a, b: {1: 'one', a: [b, 1.x(2)]}, {3, 4}, t{5}
";
    let mut reader = Reader::new();
    let tree = reader.read(src).unwrap();
    for kind in (1..=34).filter(|&number| number != 21) {
        assert!(tree.nodes().any(|node| node.words()[0] == kind), "no node of kind {kind}");
    }
    for node in tree.nodes() {
        assert_eq!((node.spelling(), node.spelling_span()), (None, None), "{node:?}");
    }
}
