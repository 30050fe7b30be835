//! Refusals behind a source that is long or deep.

use crate::call::LONGEST;
use crate::nest::{nest, shown, DEEPEST};
use crate::source::Source;

/// What stands behind, its number, and its place from there on.
const ENDS: [(&[u8], u32, usize); 17] = [
    (b"'a\xff'", 5, 2),
    (b"\ta", 6, 0),
    (b" a", 7, 0),
    (b"if a:\n   a", 7, 6),
    (b"if a:\n  a\n a", 8, 10),
    (b"!", 9, 0),
    (b"'a", 9, 0),
    (b"9223372036854775808", 10, 0),
    (b"1.0e24", 11, 0),
    ("€".as_bytes(), 9, 0),
    ("역_4€".as_bytes(), 9, 5),
    (b"a b", 14, 2),
    (b"a=", 15, 2),
    (b"a=\n", 16, 2),
    (b"if a:\n  a", 14, 9),
    (b"if a:\n  a=", 16, 10),
    (b"(a", 15, 2),
];

/// Leaves at which the grammar says no at once.
const MISFITS: [&str; 4] = ["=", "else", ";", ":"];

pub fn each(visit: &mut dyn FnMut(Source)) {
    for shape in ["pass\nif |a:\n  $", "pass\nclass A:\n  def a()|:pass\n  def a():\n    $"] {
        let deep = nest(&vec![shape; DEEPEST], "pass").text + "pass\n";
        behind(&format!("{DEEPEST} of {}", shown(shape)), &deep, visit);
        MISFITS.iter().for_each(|leaf| misfit(&vec![shape; DEEPEST], leaf, visit));
    }
    for shape in ["($)", "[|a,$]", "{|a:$}", "a($)", "lambda:$"] {
        let mut chain = vec!["$"];
        chain.resize(DEEPEST, shape);
        MISFITS.iter().for_each(|leaf| misfit(&chain, leaf, visit));
    }
    behind("lines", &"a=a+a\n".repeat(10_000), visit);
    behind("a sum", &format!("a{}\n", "+a".repeat(32_000)), visit);
    let text = vec![b'a'; LONGEST + 1];
    visit(Source { sort: "refusals", name: "a name one longer than all sources".to_string(), text, answer: (1, 0), levels: 0 });
}

/// Each end behind the text, and parentheses that are too deep.
fn behind(what: &str, text: &str, visit: &mut dyn FnMut(Source)) {
    let deep = format!("{}a", "(".repeat(DEEPEST)).into_bytes();
    for (end, number, place) in ENDS.into_iter().chain([(&deep[..], 13, DEEPEST)]) {
        let name = format!("{number} at {} behind {what}", shown(&end.escape_ascii().to_string()));
        let text = [text.as_bytes(), end].concat();
        let answer = (number, (text.len() - end.len() + place) as u32);
        visit(Source { sort: "refusals", name, text, answer, levels: 0 });
    }
}

/// The innermost hole has a token that does not fit there.
fn misfit(chain: &[&str], leaf: &str, visit: &mut dyn FnMut(Source)) {
    let nested = nest(chain, leaf);
    let name = format!("14 at {} in {} of {}", shown(leaf), chain.len(), shown(chain[chain.len() - 1]));
    visit(Source { sort: "refusals", name, answer: (14, nested.leaf as u32), text: nested.text.into_bytes(), levels: 0 });
}
