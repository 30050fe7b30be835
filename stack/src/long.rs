//! Repetition up to the longest source: alone, and within the deepest nesting.

use crate::call::LONGEST;
use crate::deep::filled;
use crate::nest::{nest, shown, DEEPEST};
use crate::source::Source;

/// Head, what is repeated, tail; and whether it opens a level within the statement's own.
struct Long(&'static str, &'static str, &'static str, &'static str, usize);

/// Expressions.
const EXPRESSIONS: [Long; 48] = [
    Long("sums", "a", "+a", "", 0),
    Long("sums", "a", "-a", "", 0),
    Long("sums", "역", "+역", "", 0),
    Long("products", "a", "*a", "", 0),
    Long("products", "a", "//a", "", 0),
    Long("products", "a", "/a", "", 0),
    Long("products", "a", "%a", "", 0),
    Long("chains", "a", "==a", "", 0),
    Long("chains", "a", "!=a", "", 0),
    Long("chains", "a", "<a", "", 0),
    Long("chains", "a", "<=a", "", 0),
    Long("chains", "a", ">a", "", 0),
    Long("chains", "a", ">=a", "", 0),
    Long("and, or", "a", " and a", "", 0),
    Long("and, or", "a", " or a", "", 0),
    Long("and, or", "a", " or a and a<a+a*-a", "", 0),
    Long("attributes", "a", ".a", "", 0),
    Long("calls", "a", "()", "", 0),
    Long("calls", "a", "(a)", "", 1),
    Long("calls", "a", "(a,a)", "", 1),
    Long("many indices", "a", "[a]", "", 1),
    Long("many signs", "", "-", "a", 0),
    Long("many signs", "", "+", "a", 0),
    Long("many signs", "", "not ", "a", 0),
    Long("members", "[", "a,", "]", 1),
    Long("members", "{", "a,", "}", 1),
    Long("members", "t{", "a,", "}", 1),
    Long("members", "{", "a:a,", "}", 1),
    Long("members", "(", "a,", ")", 1),
    Long("members", "[", "'\\n',", "]", 1),
    Long("members", "[", "1.5,", "]", 1),
    Long("members", "[", "()),", "]", 1),
    Long("bare tuples", "a", ",a", "", 0),
    Long("many arguments", "a(", "a,", ")", 1),
    Long("many lambdas", "[", "lambda:a,", "]", 2),
    Long("parameters", "lambda ", "a,", ":a", 1),
    Long("one token", "a", "a", "", 0),
    Long("one token", "é", "역", "", 0),
    Long("one token", "a", "\u{e0100}", "", 0),
    Long("one token", "0", "0", "", 0),
    Long("one token", "-0", "0", "", 0),
    Long("one token", "0", "0", ".0", 0),
    Long("one token", "1.0e0", "0", "", 0),
    Long("one token", "'", "a", "'", 0),
    Long("one token", "'", "\\n", "'", 0),
    Long("one token", "\"", "é", "\"", 0),
    Long("spaces and comments", "a", " ", "", 0),
    Long("spaces and comments", "a", "\t\r", "", 0),
];

/// Statements.
const STATEMENTS: [Long; 24] = [
    Long("parameters", "def a(", "a,", "):pass", 1),
    Long("spaces and comments", "a #", "#", "", 1),
    Long("semicolons", "pass", ";pass", "", 0),
    Long("semicolons", "a", ";a", ";", 1),
    Long("lines", "pass", "\npass", "", 0),
    Long("lines", "a", "\na", "", 1),
    Long("lines", "a", "\na=a,a", "", 1),
    Long("lines", "a", "\na,=a,", "", 1),
    Long("lines", "a", "\nreturn a", "", 1),
    Long("lines", "break", "\ncontinue", "", 0),
    Long("blank lines", "pass", "\n", "", 0),
    Long("blank lines", "pass", "\r\n", "", 0),
    Long("blank lines", "pass", "\n#", "", 0),
    Long("elifs", "if a:pass", "\nelif a:pass", "\nelse:pass", 1),
    Long("elifs", "if a:pass", "\nelif a:\n  pass", "\nelse:\n  pass", 1),
    Long("methods", "class A:\n  def a():pass", "\n  def a():pass", "", 1),
    Long("methods", "class A:\n  def a():pass", "\n  def a():\n    pass", "", 1),
    Long("statements", "pass", "\ndef a():pass", "", 1),
    Long("statements", "pass", "\nif a:pass", "", 1),
    Long("statements", "pass", "\nif a:\n  pass", "", 1),
    Long("statements", "pass", "\nif a:pass\nelse:pass", "", 1),
    Long("statements", "pass", "\nwhile a:pass", "", 1),
    Long("statements", "pass", "\nfor a in a:pass", "", 1),
    Long("statements", "pass", "\nclass A:\n  def a():pass", "", 1),
];

/// What the repetition is put into, where it is put deep: a block for the outer levels, and a bracket for the inner ones of an expression.
const OUTER: [&str; 3] =
    ["if |a:\n  $", "pass\nif |a:pass\nelif a:pass\nelif a:\n  $", "pass\nclass A:\n  def a()|:pass\n  def a():\n    $"];
const INNER: [&str; 4] = ["($)", "a(|a,$)", "a or a and a<a<a+a*-(|a,a,$)", "lambda:$"];

pub fn each(visit: &mut dyn FnMut(Source)) {
    for long in &EXPRESSIONS {
        visit(repeated(long.0, long, &["$"]));
    }
    for long in &STATEMENTS {
        visit(repeated(long.0, long, &[]));
    }
    for long in &STATEMENTS {
        OUTER.iter().for_each(|outer| visit(repeated("repetition, deep", long, &vec![*outer; DEEPEST - long.4])));
    }
    for long in &EXPRESSIONS {
        within(long, visit);
    }
}

/// In blocks alone, and in brackets alone.
fn within(long: &Long, visit: &mut dyn FnMut(Source)) {
    let room = DEEPEST - 1 - long.4;
    for outer in OUTER {
        let mut chain = vec![outer; room];
        chain.push("$");
        visit(repeated("repetition, deep", long, &chain));
    }
    for inner in INNER {
        let mut chain = vec!["$"];
        chain.resize(1 + room, inner);
        visit(repeated("repetition, deep", long, &chain));
    }
}

/// As often as the longest source has room for it, and a comment behind.
fn repeated(sort: &'static str, long: &Long, chain: &[&str]) -> Source {
    let Long(_, head, unit, tail, _) = long;
    let leaf = |times: usize| [head, unit.repeat(times).as_str(), tail].concat();
    let size = |times: usize| nest(chain, &leaf(times)).text.len();
    let times = (LONGEST - size(0)) / (size(1) - size(0));
    let around = chain.first().map_or(String::new(), |shape| format!(" in {} of {}", chain.len(), shown(shape)));
    filled(sort, format!("{times} of {}{around}", shown(unit)), nest(chain, &leaf(times)))
}
