//! An indented drawing of a tree.
use crate::excerpt::{cut, plain};
use crate::terminal::{Look, GREEN};
use std::fmt::Write;
use tarbucket::{List, Node, Shape, Tree};

/// Lines are indented up to this depth, on a terminal no further than half its width; a deeper line says its depth.
const DEEPEST: usize = 40;

/// The longest string or spelling of a Float that is shown whole, in characters.
const LONGEST: usize = 60;

enum Part<'a> {
    /// A node, with what it is of the node above, if that is not plain.
    Node(&'static str, Node<'a>),
    /// A heading over a list.
    List(&'static str, List<'a>),
}

pub fn drawing(tree: &Tree, look: &Look) -> String {
    let mut out = format!("{}: {} node{}\n", look.paint(GREEN, "Accepted"), tree.len(), if tree.len() == 1 { "" } else { "s" });
    let deepest = look.columns.map_or(DEEPEST, |all| DEEPEST.min(all / 4));
    let mut drawn = vec![false; tree.len()];
    let mut stack = vec![(0, Part::Node("", tree.root()))];
    while let Some((depth, part)) = stack.pop() {
        indent(&mut out, depth, deepest);
        let from = stack.len();
        match part {
            Part::List(name, list) => {
                let _ = write!(out, "{name}:");
                stack.extend(list.map(|n| (depth + 1, Part::Node("", n))));
                if stack.len() == from {
                    out.push_str(" nothing");
                }
            }
            Part::Node(name, node) => {
                if !name.is_empty() {
                    let _ = write!(out, "{name}: ");
                }
                let (text, parts) = describe(&node);
                out.push_str(&text);
                // the middle of a chain of comparisons is held twice
                if std::mem::replace(&mut drawn[node.number() as usize], true) && !parts.is_empty() {
                    out.push_str(" (as above)");
                } else {
                    stack.extend(parts.into_iter().map(|p| (depth + 1, p)));
                }
            }
        }
        stack[from..].reverse();
        out.push('\n');
    }
    out
}

fn indent(out: &mut String, depth: usize, deepest: usize) {
    let _ = write!(out, "{:1$}", "", 2 * depth.min(deepest));
    if depth > deepest {
        let _ = write!(out, "[{depth}] ");
    }
}

fn each<'a>(name: &'static str, list: List<'a>) -> impl Iterator<Item = Part<'a>> {
    list.map(move |n| Part::Node(name, n))
}

/// `name(a, b)`
fn signature(name: &[u8], parameters: List) -> String {
    let parameters: Vec<String> = parameters.map(|p| plain(p.text())).collect();
    format!("{}({})", plain(name), parameters.join(", "))
}

fn string(bytes: &[u8]) -> String {
    let text = String::from_utf8_lossy(bytes);
    match cut(&text, LONGEST) {
        Some(front) => format!("String {front:?}… ({} bytes)", bytes.len()),
        None => format!("String {text:?}"),
    }
}

/// A Float as it is written, and its value where that has another text.
fn float(spelling: &[u8], value: f64) -> String {
    let (spelling, value) = (plain(spelling), decimal(value));
    match cut(&spelling, LONGEST) {
        Some(front) => format!("Float {front}… ({value})"),
        None if spelling == value => format!("Float {value}"),
        None => format!("Float {spelling} ({value})"),
    }
}

/// The fewest digits that have this value, those of CPython's repr, with `.0` before an exponent. A script may not admit them: 10.0e23 has 1.0e24.
fn decimal(value: f64) -> String {
    let text = format!("{value:?}");
    match text.split_once('e') {
        Some((digits, power)) if !digits.contains('.') => format!("{digits}.0e{power}"),
        _ => text,
    }
}

/// A node's own line, and its parts.
fn describe<'a>(node: &Node<'a>) -> (String, Vec<Part<'a>>) {
    use Part::Node as One;
    let kind = node.kind().name();
    match node.shape() {
        Shape::Program { lines } => (kind.into(), each("", lines).collect()),
        Shape::If { condition, body, elifs, otherwise } => {
            let mut parts = vec![One("condition", condition), Part::List("then", body)];
            parts.extend(each("", elifs).chain(otherwise.map(|n| One("", n))));
            (kind.into(), parts)
        }
        Shape::Elif { condition, body } => (kind.into(), vec![One("condition", condition), Part::List("then", body)]),
        Shape::Else { body } => (kind.into(), each("", body).collect()),
        Shape::While { condition, body } => (kind.into(), vec![One("condition", condition), Part::List("do", body)]),
        Shape::For { name, over, body } => (format!("For {}", plain(name)), vec![One("in", over), Part::List("do", body)]),
        Shape::Def { name, parameters, body } | Shape::Method { name, parameters, body } => {
            (format!("{kind} {}", signature(name, parameters)), each("", body).collect())
        }
        Shape::Class { name, methods } => (format!("Class {}", plain(name)), each("", methods).collect()),
        Shape::Return { value } | Shape::Expr { value } => (kind.into(), vec![One("", value)]),
        Shape::Assign { target, value } => (kind.into(), vec![One("target", target), One("value", value)]),
        Shape::Break | Shape::Continue | Shape::Pass | Shape::None => (kind.into(), vec![]),
        Shape::Name { name } | Shape::Variable { name } => (format!("{kind} {}", plain(name)), vec![]),
        Shape::Pair { key, value } => (kind.into(), vec![One("key", key), One("value", value)]),
        Shape::Bool(b) => (format!("Bool {}", if b { "True" } else { "False" }), vec![]),
        Shape::Int(n) => (format!("Int {n}"), vec![]),
        Shape::Float(value) => (float(node.spelling().expect("a Float has one"), value), vec![]),
        Shape::String(bytes) => (string(bytes), vec![]),
        Shape::Unary { operator, operand } => (format!("Unary {}", operator.symbol()), vec![One("", operand)]),
        Shape::Binary { operator, left, right } => (format!("Binary {}", operator.symbol()), vec![One("", left), One("", right)]),
        Shape::Call { callee, arguments } => (kind.into(), std::iter::once(One("of", callee)).chain(each("argument", arguments)).collect()),
        Shape::Attribute { object, name } => (format!("Attribute .{}", plain(name)), vec![One("of", object)]),
        Shape::Index { object, index } => (kind.into(), vec![One("of", object), One("at", index)]),
        Shape::List { members } | Shape::Tuple { members } | Shape::Set { members } | Shape::TreeSet { members } => {
            (kind.into(), each("", members).collect())
        }
        Shape::Dict { pairs } => (kind.into(), each("", pairs).collect()),
        Shape::Lambda { parameters, value } => (signature(b"Lambda", parameters), vec![One("", value)]),
    }
}
