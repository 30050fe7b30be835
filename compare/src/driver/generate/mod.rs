//! The inputs: four classes whole, then the others in turn by their weight; or by turns one of these and one of those.

mod cut;
mod damage;
mod deep;
mod expression;
mod limits;
pub mod runs;
mod script;
mod soup;
mod wide;

use crate::random::Random;
use crate::sides::Case;

/// A class of inputs. Those of weight 0 are enumerated.
pub struct Class {
    pub name: &'static str,
    weight: usize,
    make: fn(&mut Random) -> Vec<u8>,
}

fn enumerated(_: &mut Random) -> Vec<u8> {
    unreachable!("its weight is 0")
}

pub const CLASSES: [Class; 15] = [
    Class { name: "bytes to 3", weight: 0, make: enumerated },
    Class { name: "pieces to 4", weight: 0, make: enumerated },
    Class { name: "letters to 3", weight: 0, make: enumerated },
    Class { name: "characters", weight: 0, make: enumerated },
    Class { name: "bytes", weight: 2000, make: soup::bytes },
    Class { name: "runs", weight: 2000, make: runs::runs },
    Class { name: "soups", weight: 4000, make: soup::tokens },
    Class { name: "lines", weight: 2000, make: soup::lines },
    Class { name: "literals", weight: 1500, make: soup::literals },
    Class { name: "names", weight: 2500, make: wide::names },
    Class { name: "scripts", weight: 2500, make: script::script },
    Class { name: "damaged", weight: 4000, make: damage::damaged },
    Class { name: "cut", weight: 4000, make: cut::cut },
    Class { name: "nested", weight: 1000, make: deep::nested },
    Class { name: "limits", weight: 2, make: limits::long },
];

/// Bytes that each do something in the scanner or the UTF-8 check.
const TELLING: &[u8] =
    b"ateEifnor_019.+-*/%=!<>()[]{}:,;\"'\\#@ \t\r\n\x00\x7f\x80\x8f\x90\x9f\xa0\xbf\xc1\xc2\xe0\xe1\xed\xf0\xf4\xf5";

/// Pieces that each do something in the grammar.
#[rustfmt::skip]
const PIECES: [&str; 35] = [
    "a ", "t ", "1 ", "0.10 ", "'s' ", "not ", "- ", "lambda ", "or ", "< ", "+ ", "* ", "= ", "( ", ") ", "[ ", "] ", "{ ", "} ", ": ", ", ", "; ",
    ". ", "\n", "\n  ", "if ", "elif ", "else ", "def ", "class ", "for ", "in ", "while ", "return ", "pass ",
];

pub struct Generator {
    random: Random,
    /// None where it is the others' turn.
    whole: Box<dyn Iterator<Item = Option<(usize, Vec<u8>)>>>,
}

/// All strings of letters, the shorter ones first, up to a length; `next` is the next one's letters.
struct Strings {
    letters: Vec<&'static [u8]>,
    longest: usize,
    next: Vec<usize>,
}

impl Strings {
    fn of(letters: impl Iterator<Item = &'static [u8]>, longest: usize) -> Strings {
        Strings { letters: letters.collect(), longest, next: Vec::new() }
    }

    fn step(&mut self) {
        for letter in self.next.iter_mut().rev() {
            *letter += 1;
            if *letter < self.letters.len() {
                return;
            }
            *letter = 0;
        }
        self.next.push(0);
    }
}

impl Iterator for Strings {
    type Item = Vec<u8>;

    fn next(&mut self) -> Option<Vec<u8>> {
        if self.next.len() > self.longest {
            return None;
        }
        let string = self.next.iter().flat_map(|&letter| self.letters[letter]).copied().collect();
        self.step();
        Some(string)
    }
}

impl Generator {
    pub fn new(seed: u64) -> Generator {
        Generator { random: Random::new(seed), whole: Box::new(Generator::whole().map(Some)) }
    }

    pub fn by_turns(seed: u64) -> Generator {
        Generator { random: Random::new(seed), whole: Box::new(Generator::whole().flat_map(|input| [Some(input), None])) }
    }

    /// The classes of weight 0.
    fn whole() -> impl Iterator<Item = (usize, Vec<u8>)> {
        let bytes = Strings::of(TELLING.chunks(1), 3);
        let pieces = Strings::of(PIECES.iter().map(|piece| piece.as_bytes()), 4);
        let letters = Strings::of(wide::TELLING.iter().map(|letter| letter.as_bytes()), 3);
        let whole = bytes.map(|src| (0, src)).chain(pieces.map(|src| (1, src))).chain(letters.map(|src| (2, src)));
        whole.chain(wide::characters().map(|src| (3, src)))
    }

    /// An input and the number of its class.
    pub fn next(&mut self) -> (usize, Case) {
        if let Some(Some((class, src))) = self.whole.next() {
            return (class, Case::of(src));
        }
        let class = self.class();
        let src = (CLASSES[class].make)(&mut self.random);
        (class, limits::with_lengths(&mut self.random, src))
    }

    fn class(&mut self) -> usize {
        let mut at = self.random.below(CLASSES.iter().map(|class| class.weight).sum());
        CLASSES
            .iter()
            .position(|class| {
                let here = at < class.weight;
                at = at.wrapping_sub(class.weight);
                here
            })
            .expect("below the sum of the weights")
    }
}
