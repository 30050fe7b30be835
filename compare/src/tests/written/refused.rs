//! 17, 18, and what each answer leaves in the slices; trees that nest as deep as a source is long.

use crate::lent::{Lent, DIRT};
use crate::writer::{standard, Wrote};
use crate::LONGEST;

fn lent(src: &[u8], bytes: usize) -> (Wrote, Vec<u8>) {
    Lent::of(src).write(bytes)
}

fn number(number: u32, place: u32) -> Wrote {
    Wrote { number, place, length: 0 }
}

/// A body of spaces only is accepted by the reader, and empty.
#[test]
fn blocks_without_a_statement() {
    let empty = [
        "if a:\n  ",
        "while a:\n  ",
        "for a in b:\n  ",
        "def f():\n  ",
        "if a:b\nelif c:\n  ",
        "if a:b\nelse:\n  ",
        "if a:b\nelif c:d\nelse:\n  ",
        "def f():\n  a\n  for b in c:\n    d\n    if e:\n      ",
        "class A:\n  def f():\n    ",
        "if a:\n  if b:\n    ",
        "if a:\n  b\n  while c:\n    ",
        "if a:\n\n\n  ",
    ];
    for src in empty {
        if crate::parse(src.as_bytes()).is_err() {
            panic!("{src:?} is refused");
        }
        for bytes in [0, 1, 99] {
            assert_eq!(lent(src.as_bytes(), bytes), (number(17, 0), vec![0; bytes]), "{src:?}");
        }
    }
    // Program is no Block.
    assert_eq!(lent(b"\n", 2), (Wrote::default(), vec![0; 2]));
}

#[test]
fn too_long() {
    assert_eq!(lent(b"a+b", 5), (number(18, 0), vec![0; 5]));
    assert_eq!(lent(b"a+b", 6), (Wrote { number: 0, place: 0, length: 6 }, b"a + b\n".to_vec()));
    assert_eq!(lent(b"a", 0), (number(18, 0), vec![]));
    assert_eq!(lent(b"", 0), (Wrote::default(), vec![]));
    // Of 65,536 bytes, and of two more, however much is lent.
    let longest = "a\n".repeat(LONGEST / 2);
    let (wrote, out) = lent(longest.as_bytes(), LONGEST + 9);
    assert_eq!(wrote, Wrote { number: 0, place: 0, length: LONGEST as u32 });
    assert_eq!(out, [longest.as_bytes(), &[0; 9]].concat());
    assert_eq!(lent(longest.as_bytes(), LONGEST - 1), (number(18, 0), vec![0; LONGEST - 1]));
    let longer = "a\n".repeat(LONGEST / 2 - 1) + "a,";
    assert_eq!(lent(longer.as_bytes(), LONGEST + 9), (number(18, 0), vec![0; LONGEST + 9]));
    // 17 before 18.
    let both = "a+a\n".repeat(LONGEST / 5) + "if a:\n  ";
    assert_eq!(lent(both.as_bytes(), 3), (number(17, 0), vec![0; 3]));
}

#[test]
fn what_is_left() {
    for (src, refusal) in [("a-1", number(14, 1)), ("x =", number(15, 3)), ("\u{20ac}", number(9, 0)), ("\t", number(6, 0))] {
        assert_eq!(lent(src.as_bytes(), 9), (refusal, vec![DIRT; 9]));
    }
    assert_eq!(lent(b"\xff", 4), (number(5, 0), vec![DIRT; 4]));
    // "A part's refusal leaves the accepted tree."
    for (src, due) in [("if 'a':\n  ", 17), ("'a'", 18)] {
        let (mut read, mut written) = (Lent::of(src.as_bytes()), Lent::of(src.as_bytes()));
        read.read();
        assert_eq!(written.write(3).0, number(due, 0));
        assert_eq!((written.tokens, written.text, written.tree), (read.tokens, read.text, read.tree));
    }
}

/// Runs with a stack of so many bytes.
fn with_stack<T: Send>(bytes: usize, work: impl FnOnce() -> T + Send) -> T {
    std::thread::scope(|scope| {
        std::thread::Builder::new().stack_size(bytes).spawn_scoped(scope, work).expect("a thread").join().expect("no panic")
    })
}

/// The reader's tree of Box needs a deep stack, the writer none: 65,536 bytes of each, in which tens of thousands of nodes stand
/// within one another.
#[test]
fn deep_trees() {
    let rows = [
        ("a+", "a", "a + "),
        ("- ", "a", "- "),
        ("not ", "a", "not "),
        ("a<", "a", "a < "),
        ("a and ", "a", "a and "),
        ("a or ", "a", "a or "),
        ("a,", "a", "a, "),
        ("a%", "a", "a % "),
    ];
    for (row, last, due) in rows {
        let times = (LONGEST - 1) / row.len();
        deep(row.repeat(times) + last, due.repeat(times) + last + "\n");
    }
    let times = (LONGEST - 1) / 2;
    deep("a".to_string() + &"()".repeat(times), "a".to_string() + &"()".repeat(times) + "\n");
    deep("a".to_string() + &".b".repeat(times), "a".to_string() + &".b".repeat(times) + "\n");
    deep("a".to_string() + &"[b]".repeat(times / 2), "a".to_string() + &"[b]".repeat(times / 2) + "\n");
}

fn deep(src: String, due: String) {
    let mut lent = Lent::of(src.as_bytes());
    let answer = with_stack(1 << 28, || lent.read());
    assert_eq!(answer.number, 0, "{:?}", &src[..8]);
    let made = with_stack(1 << 16, || standard(lent.source()));
    assert!(made == Some(due.into_bytes()), "{:?}", &src[..8]);
}
