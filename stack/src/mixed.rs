//! Shapes of different sorts in each other.

use crate::deep::of;
use crate::nest::{nest, shown, DEEPEST};
use crate::random::Random;
use crate::shapes::{Sort, BLOCKS, BRACKETS, HOSTS, LEAVES, STATEMENTS};
use crate::source::Source;

/// How many mixes by chance there are.
const MIXES: u64 = 4_000;

pub fn each(visit: &mut dyn FnMut(Source)) {
    splits(visit);
    alternations(visit);
    (0..MIXES).for_each(|number| visit(mix(number)));
}

/// Blocks of one sort and then brackets of one sort, for every number of each.
fn splits(visit: &mut dyn FnMut(Source)) {
    for (block, bracket) in pairs(&last(&BLOCKS), &last(&BRACKETS)) {
        for blocks in 0..DEEPEST {
            let host = HOSTS[blocks % HOSTS.len()];
            let mut chain = vec![block; blocks];
            chain.push(host);
            chain.resize(DEEPEST, bracket);
            let name = format!("{blocks} of {}, {}, {} of {}", shown(block), shown(host), DEEPEST - 1 - blocks, shown(bracket));
            visit(of("blocks, then brackets", name, nest(&chain, LEAVES[blocks % LEAVES.len()])));
        }
    }
}

/// Two shapes in turn.
fn alternations(visit: &mut dyn FnMut(Source)) {
    for (one, other) in pairs(&all(&BLOCKS), &all(&BLOCKS)) {
        let chain: Vec<&str> = [one, other].into_iter().cycle().take(DEEPEST).collect();
        visit(of("blocks in turn", format!("{} and {}", shown(one), shown(other)), nest(&chain, "pass")));
    }
    for (one, other) in pairs(&all(&BRACKETS), &all(&BRACKETS)) {
        let chain: Vec<&str> = std::iter::once("$").chain([one, other].into_iter().cycle()).take(DEEPEST).collect();
        visit(of("brackets in turn", format!("{} and {}", shown(one), shown(other)), nest(&chain, "a")));
    }
}

/// Blocks by chance, then brackets by chance; one in eight is a level too deep.
fn mix(number: u64) -> Source {
    let mut random = Random::new(number);
    let (blocks, brackets, leaves) = (all(&BLOCKS), all(&BRACKETS), if number % 4 == 0 { &STATEMENTS[..] } else { &LEAVES[..] });
    let levels = DEEPEST + (number % 8 == 7) as usize;
    let outer = if number % 4 == 0 { levels } else { random.below(levels as u64) as usize };
    let mut chain: Vec<&str> = (0..outer).map(|_| random.pick(&blocks)).collect();
    if outer < levels {
        chain.push(random.pick(&HOSTS));
    }
    while chain.len() < levels {
        chain.push(random.pick(&brackets));
    }
    of("mixes", format!("mix {number}: {outer} blocks"), nest(&chain, random.pick(leaves)))
}

/// The last shape of each sort.
fn last(sorts: &[Sort]) -> Vec<&'static str> {
    sorts.iter().map(|(_, shapes)| shapes[shapes.len() - 1]).collect()
}

fn all(sorts: &[Sort]) -> Vec<&'static str> {
    sorts.iter().flat_map(|(_, shapes)| shapes.iter().copied()).collect()
}

fn pairs<'a>(ones: &[&'a str], others: &[&'a str]) -> Vec<(&'a str, &'a str)> {
    ones.iter().flat_map(|one| others.iter().map(|other| (*one, *other))).collect()
}
