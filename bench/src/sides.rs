//! One pass of each reader and bound over sources. The passes have names of their own, so that a profile can be taken of one alone.

use plain::areas;
use std::hint::black_box;
use std::ops::Range;

#[link(name = "ffi", kind = "static")]
extern "C" {
    fn tarbucket_parse_source(
        src: *const u8,
        src_len: usize,
        tokens: *mut u32,
        tokens_len: usize,
        text: *mut u8,
        text_len: usize,
        tree: *mut u32,
        tree_len: usize,
        answer: *mut u32,
        answer_len: usize,
    ) -> u32;
}

#[link(name = "bounds", kind = "static")]
extern "C" {
    fn bound_zeroing(n: usize, tokens: *mut u32, text: *mut u8, tree: *mut u32);
    fn bound_tokens(src: *const u8, n: usize, tokens: *mut u32, text: *mut u8, tree: *mut u32) -> usize;
}

const PAINT: u8 = 255;

/// Whether an area is zero, and what lies behind it is painted.
fn zeros<Cell: Copy + Into<u32>>(area: &[Cell], behind: &[Cell]) -> bool {
    area.iter().all(|&cell| cell.into() == 0) && behind.iter().all(|&cell| cell.into() == PAINT.into())
}

/// The areas, for one byte more than the longest source, and room for the longest text; never cleared between sources or runs.
pub struct Buffers {
    pub tokens: Vec<u32>,
    pub text: Vec<u8>,
    pub tree: Vec<u32>,
    pub out: Vec<u8>,
}

impl Buffers {
    pub fn new() -> Buffers {
        let (tokens, text, tree) = areas(plain::LONGEST + 1);
        Buffers { tokens: vec![7; tokens], text: vec![7; text], tree: vec![7; tree], out: vec![7; plain::LONGEST] }
    }

    /// Paints the areas of a source of `n` bytes and a little behind them, so that it is seen which cells are written.
    pub fn paint(&mut self, n: usize) {
        let (tokens, text, tree) = self.hold(n + 1);
        self.tokens[..tokens].fill(PAINT.into());
        self.text[..text].fill(PAINT);
        self.tree[..tree].fill(PAINT.into());
    }

    /// Whether the areas are zero, but for so many words of tokens, and what lies behind them is painted.
    pub fn zeroed(&self, n: usize, words: usize) -> bool {
        let ((tokens, text, tree), behind) = (areas(n), self.hold(n + 1));
        zeros(&self.tokens[words..tokens], &self.tokens[tokens..behind.0])
            && zeros(&self.text[..text], &self.text[text..behind.1])
            && zeros(&self.tree[..tree], &self.tree[tree..behind.2])
    }

    /// The areas of a source of `n` bytes, which the buffers must hold.
    pub fn hold(&self, n: usize) -> (usize, usize, usize) {
        let (tokens, text, tree) = areas(n);
        assert!(tokens <= self.tokens.len() && text <= self.text.len() && tree <= self.tree.len());
        (tokens, text, tree)
    }

    /// The library's answer; slices are as long as their areas.
    pub fn call(&mut self, src: &[u8]) -> [u32; 6] {
        let (tokens, text, tree) = self.hold(src.len());
        let mut answer = [0; 6];
        // Each slice is whole within its buffer.
        unsafe {
            tarbucket_parse_source(
                src.as_ptr(),
                src.len(),
                self.tokens.as_mut_ptr(),
                tokens,
                self.text.as_mut_ptr(),
                text,
                self.tree.as_mut_ptr(),
                tree,
                answer.as_mut_ptr(),
                6,
            );
        }
        answer
    }

    /// The areas zeroed, and no more.
    pub fn zero(&mut self, src: &[u8]) {
        self.hold(src.len());
        // Each area is whole within its buffer.
        unsafe { bound_zeroing(src.len(), self.tokens.as_mut_ptr(), self.text.as_mut_ptr(), self.tree.as_mut_ptr()) }
    }

    /// How many tokens a source has, the areas zeroed but for them; more than its bytes where it is not UTF-8.
    pub fn scan(&mut self, src: &[u8]) -> usize {
        self.hold(src.len());
        let (tokens, text, tree) = (self.tokens.as_mut_ptr(), self.text.as_mut_ptr(), self.tree.as_mut_ptr());
        // Each area is whole within its buffer, and no source has more tokens than bytes.
        unsafe { bound_tokens(src.as_ptr(), src.len(), tokens, text, tree) }
    }

    /// The plain reader's answer, areas filled.
    pub fn read(&mut self, src: &[u8]) -> [u32; 6] {
        let (tokens, text, tree) = areas(src.len());
        plain::read(src, &mut self.tokens[..tokens], &mut self.text[..text], &mut self.tree[..tree]).words()
    }
}

/// What is measured: its name in the table and the pass.
pub type Side = (&'static str, fn(&[Vec<u8>], &mut Buffers));

/// The verified reader first, then the bounds, then the plain readers.
pub const SIDES: [Side; 6] = [
    ("reader, static library", pass_library),
    ("bound: zeroing alone", pass_zeroing),
    ("bound: zeroing, UTF-8 check, tokenizer in C", pass_tokens),
    ("plain Rust, tree of Box and Vec", pass_parse),
    ("plain Rust, and layout in records", pass_layout),
    ("plain Rust, and areas filled", pass_read),
];

/// The plain readers among the sides.
pub const PLAIN: Range<usize> = 3..6;

#[no_mangle]
#[inline(never)]
pub fn pass_library(sources: &[Vec<u8>], buffers: &mut Buffers) {
    for src in sources {
        black_box(buffers.call(black_box(src)));
    }
}

#[no_mangle]
#[inline(never)]
pub fn pass_zeroing(sources: &[Vec<u8>], buffers: &mut Buffers) {
    for src in sources {
        buffers.zero(black_box(src));
    }
}

#[no_mangle]
#[inline(never)]
pub fn pass_tokens(sources: &[Vec<u8>], buffers: &mut Buffers) {
    for src in sources {
        black_box(buffers.scan(black_box(src)));
    }
}

#[no_mangle]
#[inline(never)]
pub fn pass_parse(sources: &[Vec<u8>], _: &mut Buffers) {
    for src in sources {
        _ = black_box(plain::parse(black_box(src)));
    }
}

#[no_mangle]
#[inline(never)]
pub fn pass_layout(sources: &[Vec<u8>], _: &mut Buffers) {
    for src in sources {
        if let Ok(script) = plain::parse(black_box(src)) {
            black_box(plain::layout::lay_out(&script.program, src.len() as u32));
        }
    }
}

#[no_mangle]
#[inline(never)]
pub fn pass_read(sources: &[Vec<u8>], buffers: &mut Buffers) {
    for src in sources {
        black_box(buffers.read(black_box(src)));
    }
}
