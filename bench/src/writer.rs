//! The writer: one pass of each side over sources, the texts held against each other, and the table.

use crate::sides::{pass_library, pass_read, Buffers, Side};
use crate::{times, Set};
use plain::areas;
use plain::writer::Wrote;
use std::hint::black_box;

#[link(name = "ffi", kind = "static")]
extern "C" {
    fn tarbucket_write_source(
        src: *const u8,
        src_len: usize,
        tokens: *mut u32,
        tokens_len: usize,
        text: *mut u8,
        text_len: usize,
        tree: *mut u32,
        tree_len: usize,
        out: *mut u8,
        out_len: usize,
        answer: *mut u32,
        answer_len: usize,
    ) -> u32;
}

/// The reader alone and with the writer, then the same of the plain ones.
pub const WRITERS: [Side; 5] = [
    ("reader, static library", pass_library),
    ("reader and writer, static library", pass_write),
    ("the same, 65,536 bytes lent", pass_write_most),
    ("plain Rust, areas filled", pass_read),
    ("plain Rust, areas filled, and text", pass_plain_write),
];

impl Buffers {
    /// The length of the text that the library writes with so many bytes lent for it; the reader's slices are as long as their areas.
    fn write(&mut self, src: &[u8], lent: usize) -> usize {
        let (tokens, text, tree) = self.hold(src.len());
        assert!(lent <= self.out.len());
        let mut answer = [0; 7];
        // Each slice is whole within its buffer.
        unsafe {
            tarbucket_write_source(
                src.as_ptr(),
                src.len(),
                self.tokens.as_mut_ptr(),
                tokens,
                self.text.as_mut_ptr(),
                text,
                self.tree.as_mut_ptr(),
                tree,
                self.out.as_mut_ptr(),
                lent,
                answer.as_mut_ptr(),
                7,
            );
        }
        assert_eq!(answer[0], 0, "refused at {}: {}", answer[1], String::from_utf8_lossy(src));
        answer[6] as usize
    }

    /// The same of the plain writer.
    fn write_plain(&mut self, src: &[u8], lent: usize) -> usize {
        let (tokens, text, tree) = areas(src.len());
        let (tokens, text, tree) = (&mut self.tokens[..tokens], &mut self.text[..text], &mut self.tree[..tree]);
        let Wrote { number, length, .. } = plain::writer::write(src, tokens, text, tree, &mut self.out[..lent]);
        assert_eq!(number, 0, "refused: {}", String::from_utf8_lossy(src));
        length as usize
    }
}

/// As many bytes are lent as the source has: no text of these sets is longer.
#[no_mangle]
#[inline(never)]
pub fn pass_write(sources: &[Vec<u8>], buffers: &mut Buffers) {
    for src in sources {
        black_box(buffers.write(black_box(src), src.len()));
    }
}

/// As many bytes are lent as any text may have, and the binding's `Reader` lends.
#[no_mangle]
#[inline(never)]
pub fn pass_write_most(sources: &[Vec<u8>], buffers: &mut Buffers) {
    for src in sources {
        black_box(buffers.write(black_box(src), plain::LONGEST));
    }
}

#[no_mangle]
#[inline(never)]
pub fn pass_plain_write(sources: &[Vec<u8>], buffers: &mut Buffers) {
    for src in sources {
        black_box(buffers.write_plain(black_box(src), src.len()));
    }
}

/// The bytes of a set's texts, each the same by both writers and in slices of both lengths; else a time would mean nothing.
fn texts_of(set: &Set, [library, other]: &mut [Buffers; 2]) -> usize {
    let of_source = |src: &Vec<u8>| {
        let length = other.write_plain(src, src.len());
        for lent in [src.len(), plain::LONGEST] {
            assert_eq!(library.write(src, lent), length, "the writers answer alike");
            assert!(library.out[..length] == other.out[..length], "the texts are alike");
        }
        length
    };
    set.sources.iter().map(of_source).sum()
}

/// Prints for each set its name, how many sources it has and the bytes of their texts.
pub fn print_texts(sets: &[Set], buffers: &mut [Buffers; 2]) {
    sets.iter().for_each(|set| println!("{} {} {}", set.name, set.sources.len(), texts_of(set, buffers)));
}

/// Checks and times all sources, and prints for each set: ns per source of each side, bytes of text per second, and how often the reader's own time it is.
pub fn table(sets: &[Set], buffers: &mut [Buffers; 2]) {
    for set in sets {
        let (sources, text) = (set.sources.len() as f64, texts_of(set, buffers) as f64);
        let best = times(set, &mut buffers[0]);
        println!(
            "\n| writer, {}: {:.0} bytes of text | ns per source | MB of text per second | times the reader |",
            set.name,
            text / sources
        );
        println!("|---|---|---|---|");
        for (side, &(name, _)) in set.sides.iter().enumerate() {
            let speed = if [0, 3].contains(&side) { "-".to_string() } else { format!("{:.1}", text / best[side] * 1000.0) };
            println!("| {name} | {:.0} | {speed} | {:.2} |", best[side] / sources, best[side] / best[0]);
        }
        let alone = best[1] - best[0];
        println!(
            "| writer alone, by the difference | {:.0} | {:.1} | {:.2} |",
            alone / sources,
            text / alone * 1000.0,
            alone / best[0]
        );
    }
}
