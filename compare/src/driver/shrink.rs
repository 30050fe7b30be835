//! The smallest input that still shows a difference, and what both sides make of it.

use crate::sides::{Case, Sides};
use plain::words::print_tree;

/// Whether a case shows a difference.
type Differs<'a> = dyn FnMut(&Case) -> bool + 'a;

/// Takes bytes away, then makes them simpler, while some difference stays: all in the turn in which it was found.
pub fn shrink(differs: &mut Differs, case: Case) -> Case {
    let mut smallest = case;
    loop {
        let before = (smallest.src.clone(), smallest.tokens, smallest.text, smallest.tree, smallest.answer);
        drop_parts(differs, &mut smallest);
        simplify_bytes(differs, &mut smallest);
        simplify_lengths(differs, &mut smallest);
        if before == (smallest.src.clone(), smallest.tokens, smallest.text, smallest.tree, smallest.answer) {
            return smallest;
        }
    }
}

fn keep_if_differs(differs: &mut Differs, smallest: &mut Case, change: impl FnOnce(&mut Case)) -> bool {
    let mut candidate = smallest.clone();
    change(&mut candidate);
    let kept = differs(&candidate);
    if kept {
        *smallest = candidate;
    }
    kept
}

/// Of a long source no part under a 512th of it is taken away: each try takes long.
fn drop_parts(differs: &mut Differs, smallest: &mut Case) {
    let mut size = smallest.src.len();
    while size > smallest.src.len() / 512 {
        let mut at = 0;
        while at < smallest.src.len() {
            let end = (at + size).min(smallest.src.len());
            let dropped = keep_if_differs(differs, smallest, |case| {
                case.src.drain(at..end);
            });
            if !dropped {
                at += size;
            }
        }
        size /= 2;
    }
}

fn simplify_bytes(differs: &mut Differs, smallest: &mut Case) {
    const SIMPLE: &[u8] = b"a 0";
    if smallest.src.len() > 300 {
        return;
    }
    for at in 0..smallest.src.len() {
        let rank = SIMPLE.iter().position(|&b| b == smallest.src[at]).unwrap_or(SIMPLE.len());
        for &simple in &SIMPLE[..rank] {
            if keep_if_differs(differs, smallest, |case| case.src[at] = simple) {
                break;
            }
        }
    }
}

fn simplify_lengths(differs: &mut Differs, smallest: &mut Case) {
    keep_if_differs(differs, smallest, |case| case.tokens = 0);
    keep_if_differs(differs, smallest, |case| case.text = 0);
    keep_if_differs(differs, smallest, |case| case.tree = 0);
    keep_if_differs(differs, smallest, |case| case.answer = 6);
}

pub fn lengths(case: &Case) -> String {
    format!("slices: tokens area{:+}, text area{:+}, tree area{:+}, answer {}", case.tokens, case.text, case.tree, case.answer)
}

/// Prints a case and both sides of it.
pub fn show(sides: &mut Sides, case: &Case) {
    let found = sides.compare(case);
    println!("input: {} bytes: b\"{}\"", case.src.len(), case.src.escape_ascii());
    println!("{}", lengths(case));
    for (name, side) in [("plain", &sides.plain), ("library", &sides.library)] {
        let [number, place, tokens, nodes, text, openings] = side.answer[..6] else { unreachable!() };
        println!("{name}: number {number}, place {place}, T {tokens}, N {nodes}, text {text}, openings {openings}");
        let areas = plain::areas(case.src.len());
        if number == 0 && (nodes as usize) < areas.2 / 8 && case.src.len() <= 200 {
            let count = (tokens as usize + 1).min(areas.0 / 3);
            let list: Vec<String> = side.tokens.chunks(3).take(count).map(|t| format!("{} {}-{}", t[0], t[1], t[2])).collect();
            println!("  tokens: {}", list.join(", "));
            println!("  text: b\"{}\"", side.text[..(text as usize).min(areas.1)].escape_ascii());
            print!("{}", print_tree(&side.tree));
        }
    }
    show_check(sides, case);
    match found {
        Ok(_) => println!("no difference"),
        Err(difference) => println!("difference: {}", difference.0),
    }
}

/// Both sides of the check, which is not asked above where the readers differ; else it is asked the same again.
fn show_check(sides: &mut Sides, case: &Case) {
    _ = sides.checks.compare(&case.src, case.check_words());
    for (name, [place, rounds, ..]) in [("plain", sides.checks.plain), ("library", sides.checks.library)] {
        println!("{name}, the check alone with {} words: place {place}, rounds {rounds}", case.check_words());
    }
}
