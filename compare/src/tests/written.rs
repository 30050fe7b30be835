//! 02, change 6: the standard text. Texts are by hand.

mod expressions;
mod lines;
mod refused;

use crate::alike::first_unlike;
use crate::lent::Lent;
use crate::writer::{standard, Wrote};

/// A source has this text, which has the same nodes and itself for text.
fn becomes(src: &str, text: &str) {
    let (mut from, mut to) = (Lent::of(src.as_bytes()), Lent::of(text.as_bytes()));
    assert_eq!((from.read().number, to.read().number), (0, 0), "{src:?} {text:?}");
    for source in [from.source(), to.source()] {
        let made = standard(source).expect("each block has a statement");
        assert_eq!(String::from_utf8_lossy(&made), text, "{src:?}");
        let wrote = Wrote { number: 0, place: 0, length: text.len() as u32 };
        assert_eq!(Lent::of(source.src).write(text.len() + 3), (wrote, [text.as_bytes(), &[0; 3]].concat()), "{src:?}");
    }
    assert_eq!(first_unlike(from.source(), to.source()), None, "{src:?}");
}
