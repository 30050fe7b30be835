//! Sources that are their own standard text, so that the writer must give them back, byte for byte: long ones, and deep ones.

use crate::call::LONGEST;
use crate::nest::{nest, shown, DEEPEST};
use crate::source::Source;

/// Head, what is repeated, tail: as long as the longest text.
const LONG: [(&str, &str, &str, &str); 38] = [
    ("sums", "a", " + a", ""),
    ("sums", "a", " - 역", ""),
    ("products", "a", " * a", ""),
    ("products", "a", " // a / a % a", ""),
    ("chains", "a", " < a", ""),
    ("chains", "a", " == a != a <= a > a >= a", ""),
    ("and, or", "a", " and a", ""),
    ("and, or", "a", " or a", ""),
    ("and, or", "a", " or a and a < a + a * - a", ""),
    ("attributes", "a", ".a", ""),
    ("calls", "a", "()", ""),
    ("calls", "a", "(a, a)", ""),
    ("many indices", "a", "[0]", ""),
    ("parts", "a", ".a()[a](a)", ""),
    ("many signs", "", "- ", "a"),
    ("many signs", "", "+ ", "a"),
    ("many signs", "", "not ", "a"),
    ("many signs", "", "not - + ", "(a, a)"),
    ("members", "[", "a, ", "a]"),
    ("members", "{", "a, ", "a}"),
    ("members", "t{", "a, ", "a}"),
    ("members", "{", "a: a, ", "a: a}"),
    ("members", "a = ", "a, ", "a"),
    ("members", "a(", "\"\\n\", ", "()))"),
    ("members", "[", "lambda: a, ", "a]"),
    ("members", "lambda ", "a, ", "a: a"),
    ("one token", "", "a", ""),
    ("one token", "", "0", ".0"),
    ("one token", "\"", "\\n", "\""),
    ("one token", "\"", "é", "\""),
    ("lines", "pass\n", "a = 1.5, -1\n", "pass"),
    ("lines", "pass\n", "return a,\n", "pass"),
    ("lines", "", "while a:\n  pass\n", "pass"),
    ("lines", "", "for a in a:\n  pass\n", "pass"),
    ("lines", "", "def a(a, a):\n  pass\n", "pass"),
    ("elifs", "if a:\n  pass\n", "elif a:\n  pass\n", "else:\n  pass"),
    ("methods", "class A:\n", "  def a():\n    pass\n", "  def a():\n    pass"),
    ("ifs", "", "if a:\n  pass\nelse:\n  pass\n", "pass"),
];

/// E within E. In the last ones each level has every rule before it.
const BRACKETS: [&str; 17] = [
    "a + ($ + a)",
    "a * ($ + a)",
    "- ($ + a)",
    "($ + a).a",
    "a + (a, $)",
    "[a, $]",
    "{a, $}",
    "t{$, a}",
    "{a: a, a: $}",
    "{$: a}",
    "a(a, $)",
    "a[$]",
    "lambda a: $",
    "a < ($ < a) < a",
    "a or a and a < a < a + a * - a($)",
    "a or a and a < a + a * not - [a, $]",
    "a or a and a < a + a * - {a: a, a: $}",
];

/// Statements with a Block.
const BLOCKS: [&str; 7] = [
    "if a:\n  $",
    "if a:\n  pass\nelif a:\n  $",
    "if a:\n  pass\nelse:\n  $",
    "while a:\n  $",
    "for a in a:\n  $",
    "def a(a):\n  $",
    "class A:\n  def a():\n    $",
];

pub fn each(visit: &mut dyn FnMut(Source)) {
    for (sort, head, unit, tail) in LONG {
        let times = (LONGEST - head.len() - tail.len() - 1) / unit.len();
        let text = [head, unit.repeat(times).as_str(), tail, "\n"].concat();
        visit(itself(sort, format!("{times} of {}", shown(unit)), text));
    }
    for shape in BRACKETS {
        let mut chain = vec!["$"];
        chain.resize(DEEPEST, shape);
        visit(itself("brackets", format!("{} of {}", DEEPEST - 1, shown(shape)), nest(&chain, "a").text));
    }
    for shape in BLOCKS {
        visit(itself("blocks", format!("{DEEPEST} of {}", shown(shape)), nest(&[shape; DEEPEST], "pass").text));
        for bracket in BRACKETS {
            let mut chain = vec![shape; DEEPEST / 2];
            chain.push("a = $");
            chain.resize(DEEPEST, bracket);
            let name = format!("{} of {}, then {}", DEEPEST / 2, shown(shape), shown(bracket));
            visit(itself("blocks, then brackets", name, nest(&chain, "a").text));
        }
    }
}

fn itself(sort: &'static str, name: String, text: String) -> Source {
    Source { sort, name, text: text.into_bytes(), answer: (0, 0), levels: 0 }
}
