//! One shape in itself, to 64 levels and past them, for each shape and whatever lies innermost.

use crate::call::LONGEST;
use crate::nest::{nest, padded, shown, Nested, DEEPEST};
use crate::shapes::{BLOCKS, BRACKETS, HOSTS, LEAVES, STATEMENTS, STATEMENTS_WITH_ONE};
use crate::source::Source;

/// Two depths of each shape come one after the other: what they take apart is what a level takes.
pub const HALF: usize = DEEPEST / 2;

pub fn each(visit: &mut dyn FnMut(Source)) {
    for (sort, shapes) in BLOCKS {
        shapes.iter().for_each(|shape| blocks(sort, shape, visit));
    }
    for (sort, shapes) in BRACKETS {
        shapes.iter().for_each(|shape| brackets(sort, shape, visit));
    }
}

/// So many of a block's shape; where the leaf has levels of its own, fewer.
fn blocks(sort: &'static str, shape: &str, visit: &mut dyn FnMut(Source)) {
    let mut put = |levels: usize, leaf: &str| {
        let name = format!("{levels} of {}, then {}", shown(shape), shown(leaf));
        visit(Source { levels, ..of(sort, name, nest(&vec![shape; levels], leaf)) });
    };
    put(HALF, "pass");
    put(DEEPEST, "pass");
    put(DEEPEST + 1, "pass");
    STATEMENTS.iter().for_each(|leaf| put(DEEPEST, leaf));
    STATEMENTS_WITH_ONE.iter().for_each(|leaf| put(DEEPEST - 1, leaf));
    for host in HOSTS {
        let mut chain = vec![shape; DEEPEST];
        chain.push(host);
        visit(of(sort, format!("{DEEPEST} of {}, then {}", shown(shape), shown(host)), nest(&chain, "a")));
    }
    let most = (DEEPEST..).take_while(|levels| nest(&vec![shape; *levels], "pass").text.len() <= LONGEST).last();
    let most = most.expect("64 levels fit");
    let name = format!("{most} of {}, then a comment", shown(shape));
    visit(filled(sort, name, nest(&vec![shape; most], "pass")));
}

/// A statement's E is a level, and each bracket is one.
fn brackets(sort: &'static str, shape: &str, visit: &mut dyn FnMut(Source)) {
    let mut put = |host: &str, levels: usize, leaf: &str| {
        let name = format!("{} with {} of {}, then {}", shown(host), levels - 1, shown(shape), shown(leaf));
        visit(Source { levels, ..of(sort, name, expression(host, shape, levels, leaf)) });
    };
    put("$", HALF, "a");
    put("$", DEEPEST, "a");
    LEAVES.iter().for_each(|leaf| put("$", DEEPEST, leaf));
    HOSTS.iter().for_each(|host| put(host, DEEPEST, "a"));
    HOSTS.iter().for_each(|host| put(host, DEEPEST + 1, "a"));
    let size = |levels: usize| expression("$", shape, levels, "a").text.len();
    let most = 1 + (LONGEST - size(1)) / (size(2) - size(1));
    let name = format!("{} of {}, then a comment", most - 1, shown(shape));
    visit(filled(sort, name, expression("$", shape, most, "a")));
}

fn expression(host: &str, shape: &str, levels: usize, leaf: &str) -> Nested {
    let chain: Vec<&str> = std::iter::once(host).chain(std::iter::repeat_n(shape, levels - 1)).collect();
    nest(&chain, leaf)
}

pub fn of(sort: &'static str, name: String, nested: Nested) -> Source {
    let answer = nested.answer();
    Source { sort, name, text: nested.text.into_bytes(), answer, levels: 0 }
}

/// With a comment up to the longest source.
pub fn filled(sort: &'static str, name: String, nested: Nested) -> Source {
    let answer = nested.answer();
    Source { sort, name, text: padded(nested.text, LONGEST).into_bytes(), answer, levels: 0 }
}
