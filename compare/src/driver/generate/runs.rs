//! Runs of ASCII with other characters between, so that the rounds of the UTF-8 check end everywhere.

use super::soup;
use crate::random::Random;

/// The first and the last character of each row of table 3-7 beyond ASCII.
#[rustfmt::skip]
const CHARACTERS: [&str; 16] = [
    "\u{80}", "\u{7ff}", "\u{800}", "\u{fff}", "\u{1000}", "\u{cfff}", "\u{d000}", "\u{d7ff}", "\u{e000}", "\u{ffff}",
    "\u{10000}", "\u{3ffff}", "\u{40000}", "\u{fffff}", "\u{100000}", "\u{10ffff}",
];

/// The longest run that is made at once, in bytes.
const LONGEST: usize = 40;

/// Up to five runs of 0 to 40 bytes, behind each up to three characters; with none, it joins the next run. Half of the texts are
/// damaged.
pub fn runs(random: &mut Random) -> Vec<u8> {
    let mut src = Vec::new();
    for _ in 0..random.between(1, 5) {
        let run = random.between(0, LONGEST);
        src.extend((0..run).map(|_| random.byte_of(b"\0ab1 #\n\x7f")));
        for _ in 0..random.between(0, 3) {
            match random.below(24) {
                0 => src.extend(soup::utf8(random)),
                _ => src.extend(random.pick(&CHARACTERS).bytes()),
            }
        }
    }
    if random.once_in(2) && !src.is_empty() {
        damage(random, &mut src);
    }
    src
}

/// A byte dropped, added or changed, or the end cut off.
fn damage(random: &mut Random, src: &mut Vec<u8>) {
    let at = random.below(src.len());
    match random.below(4) {
        0 => drop(src.remove(at)),
        1 => src.insert(at, random.next() as u8),
        2 => src[at] = random.next() as u8,
        _ => src.truncate(at),
    }
}

/// What a text may end with: nothing, or a sequence that is wrong or cut off.
const ENDS: [&[u8]; 6] = [b"", b"\x80", b"\xc3", b"\xe2\x82", b"\xf0\x90\x90", b"\xed\xa0\x80aaaaaaaa"];

/// One character of each length.
const ONE_OF_EACH: [&str; 4] = ["a", "\u{e9}", "\u{ac00}", "\u{10400}"];

/// Every text of these four of up to 18 bytes, with every end.
pub fn small<E>(to: &mut dyn FnMut(&[u8]) -> Result<(), E>) -> Result<(), E> {
    grow(&mut Vec::new(), 18, to)
}

fn grow<E>(text: &mut Vec<u8>, left: usize, to: &mut dyn FnMut(&[u8]) -> Result<(), E>) -> Result<(), E> {
    let length = text.len();
    for end in ENDS {
        text.extend(end);
        to(text)?;
        text.truncate(length);
    }
    for character in ONE_OF_EACH.iter().filter(|character| character.len() <= left) {
        text.extend(character.bytes());
        grow(text, left - character.len(), to)?;
        text.truncate(length);
    }
    Ok(())
}

/// Every byte over 127, and every one of `CHARACTERS`, with runs of every length before and behind.
pub fn placed<E>(to: &mut dyn FnMut(&[u8]) -> Result<(), E>) -> Result<(), E> {
    let bytes = (128..=255).map(|byte: u8| vec![byte]);
    for middle in bytes.chain(CHARACTERS.iter().map(|character| character.as_bytes().to_vec())) {
        for before in 0..=LONGEST {
            for behind in 0..=LONGEST {
                to(&[&vec![b'a'; before], &middle[..], &vec![0x7f; behind]].concat())?;
            }
        }
    }
    Ok(())
}
