//! Damaged copies of scripts.

use super::{deep, script, soup, wide};
use crate::random::Random;

/// A script, sometimes a nested one, with one to four changes.
pub fn damaged(random: &mut Random) -> Vec<u8> {
    let mut src = if random.once_in(16) { deep::nested(random) } else { script::script(random) };
    for _ in 0..random.between(1, 4) {
        if src.is_empty() {
            break;
        }
        damage(random, &mut src);
        if random.once_in(2) {
            break;
        }
    }
    src
}

fn damage(random: &mut Random, src: &mut Vec<u8>) {
    let at = random.below(src.len());
    let end = (at + random.between(1, 8)).min(src.len());
    match random.below(9) {
        0 => drop(src.remove(at)),
        1 => src.insert(at, random.byte_of(super::TELLING)),
        2 => src[at] = random.byte_of(super::TELLING),
        3 => src[at] ^= 1 << random.below(8),
        4 => src.truncate(at),
        5 => drop(src.drain(at..end)),
        6 => {
            let copy = src[at..end].to_vec();
            let to = random.below(src.len() + 1);
            src.splice(to..to, copy);
        }
        7 => {
            let other = random.below(src.len());
            src.swap(at, other);
        }
        _ => {
            let token = if random.once_in(3) { wide::word(random) } else { random.pick(&soup::TOKENS).to_string() };
            let blank = random.pick(&["", " "]);
            src.splice(at..at, format!("{blank}{token}{blank}").into_bytes());
        }
    }
}
