//! One input put to both readers, and what they made of it.

use crate::check::{Checks, WORDS};
use plain::trial::{try_program, Verdict};
use plain::utf8::Checked;
use plain::{areas, Answer};
use std::panic::{catch_unwind, AssertUnwindSafe};

#[link(name = "ffi", kind = "static")]
extern "C" {
    fn tarbucket_parse_source(
        src: *const u8,
        src_len: usize,
        tokens: *mut u32,
        tokens_len: usize,
        text: *mut u8,
        text_len: usize,
        tree: *mut u32,
        tree_len: usize,
        answer: *mut u32,
        answer_len: usize,
    ) -> u32;
}

/// What the library returns where `answer` has too few words.
pub const NO_ANSWER: u32 = 4294967295;

/// No source is answered by this number since 02's change 1.
pub const NEVER: u32 = 12;

/// Cells behind each slice that are looked at too.
pub const MARGIN: usize = 24;

/// The longest source that is put to the readers.
pub const MOST: usize = plain::LONGEST + 64;

/// A source, and how much longer (or shorter) than their areas the slices are; `answer` is a length.
#[derive(Clone)]
pub struct Case {
    pub src: Vec<u8>,
    pub tokens: isize,
    pub text: isize,
    pub tree: isize,
    pub answer: usize,
}

impl Case {
    /// Slices that fit.
    pub fn of(src: Vec<u8>) -> Case {
        Case { src, tokens: 0, text: 0, tree: 0, answer: 6 }
    }

    /// The lengths of the slices for tokens, text and tree.
    pub fn lengths(&self) -> [usize; 3] {
        let (tokens, text, tree) = areas(self.src.len());
        let moved = |area: usize, by: isize| area.saturating_add_signed(by);
        [moved(tokens, self.tokens), moved(text, self.text), moved(tree, self.tree)]
    }

    /// How far the readers' cells are looked at: the area or the slice, whichever is longer, and some more.
    pub fn reach(&self) -> [usize; 3] {
        let (lengths, (tokens, text, tree)) = (self.lengths(), areas(self.src.len()));
        [lengths[0].max(tokens) + MARGIN, lengths[1].max(text) + MARGIN, lengths[2].max(tree) + MARGIN]
    }

    /// The length of the check's answer: as many words too long or too short as the reader's.
    pub fn check_words(&self) -> usize {
        (self.answer + WORDS).saturating_sub(6)
    }
}

/// What a reader and a writer write to.
pub struct Buffers {
    pub tokens: Vec<u32>,
    pub text: Vec<u8>,
    pub tree: Vec<u32>,
    pub answer: Vec<u32>,
    /// As long as any text so far.
    pub out: Vec<u8>,
}

impl Buffers {
    fn new() -> Buffers {
        let (tokens, text, tree) = areas(MOST);
        let more = 4 * MARGIN;
        let out = Vec::new();
        Buffers {
            tokens: vec![0; tokens + more],
            text: vec![0; text + more],
            tree: vec![0; tree + more],
            answer: vec![0; more],
            out,
        }
    }

    /// Fills what one input may reach with dirt.
    pub fn soil(&mut self, dirt: u32, reach: [usize; 3]) {
        let soil = |words: &mut [u32]| {
            let mut word = dirt;
            for cell in words {
                *cell = word;
                word = word.wrapping_add(0x9e37_79b9);
            }
        };
        soil(&mut self.tokens[..reach[0]]);
        soil(&mut self.tree[..reach[2]]);
        soil(&mut self.answer);
        soil_bytes(&mut self.text[..reach[1]], dirt);
    }

    /// The same of so many bytes for a text.
    pub fn soil_out(&mut self, dirt: u32, reach: usize) {
        self.out.resize(self.out.len().max(reach), 0);
        soil_bytes(&mut self.out[..reach], dirt);
    }
}

fn soil_bytes(bytes: &mut [u8], dirt: u32) {
    for (index, cell) in bytes.iter_mut().enumerate() {
        *cell = dirt.wrapping_add(index as u32 * 7) as u8;
    }
}

/// Where the two part, in words.
pub struct Difference(pub String);

pub fn differ<T>(what: impl Into<String>) -> Result<T, Difference> {
    Err(Difference(what.into()))
}

/// What came of a case on which all were alike.
pub struct Made {
    /// None where fewer than six words must be refused.
    pub answer: Option<Answer>,
    pub checked: Option<Checked>,
    pub tried: Tried,
}

/// How the ordered trial was compared with the descent.
#[derive(Clone, Copy, PartialEq, Eq)]
pub enum Tried {
    Alike,
    /// The descent didn't begin, or was refused by 13.
    SetAside,
    /// It went back more often than allowed.
    Spent,
}

pub struct Sides {
    pub plain: Buffers,
    pub library: Buffers,
    pub checks: Checks,
    pub dirt: u32,
}

impl Sides {
    pub fn new() -> Sides {
        Sides { plain: Buffers::new(), library: Buffers::new(), checks: Checks::new(), dirt: 1 }
    }

    /// From now on the slices hold other dirt before. Until then, who compares a case again sees the same.
    pub fn turn(&mut self) {
        self.dirt = self.dirt.wrapping_mul(1_664_525).wrapping_add(1_013_904_223);
        self.checks.turn();
    }

    /// Puts a case to both readers, to the trial and to both checks. Slices hold dirt before, and cells behind them are compared too.
    pub fn compare(&mut self, case: &Case) -> Result<Made, Difference> {
        let lengths = case.lengths();
        let reach = case.reach();
        self.plain.soil(self.dirt, reach);
        self.library.soil(self.dirt, reach);
        let answer = self.read_plain(case, lengths)?;
        let returned = self.call(case, lengths);
        let due = answer.map_or(NO_ANSWER, |answer| answer.number);
        if returned != due {
            return differ(format!("returned {returned}, not {due}"));
        }
        if due == NEVER {
            return differ(format!("both answer {NEVER}"));
        }
        self.alike(reach)?;
        answer.map_or(Ok(()), within_limits)?;
        let tried = answer.map_or(Ok(Tried::SetAside), |answer| self.try_too(&case.src, answer))?;
        let checked = self.checks.compare(&case.src, case.check_words())?;
        Ok(Made { answer, checked, tried })
    }

    /// The plain reader's turn; with fewer than six words for the answer nothing is written.
    fn read_plain(&mut self, case: &Case, [tokens, text, tree]: [usize; 3]) -> Result<Option<Answer>, Difference> {
        if case.answer < 6 {
            return Ok(None);
        }
        let to = &mut self.plain;
        let read = || plain::read(&case.src, &mut to.tokens[..tokens], &mut to.text[..text], &mut to.tree[..tree]);
        let answer = catch_unwind(AssertUnwindSafe(read)).map_err(|_| Difference("the plain reader panicked".to_string()))?;
        self.plain.answer[..6].copy_from_slice(&answer.words());
        Ok(Some(answer))
    }

    fn call(&mut self, case: &Case, [tokens, text, tree]: [usize; 3]) -> u32 {
        let Case { src, answer, .. } = case;
        let to = &mut self.library;
        // Each slice is whole within its buffer: `soil` has just filled more than that.
        unsafe {
            tarbucket_parse_source(
                src.as_ptr(),
                src.len(),
                to.tokens.as_mut_ptr(),
                tokens,
                to.text.as_mut_ptr(),
                text,
                to.tree.as_mut_ptr(),
                tree,
                to.answer.as_mut_ptr(),
                *answer,
            )
        }
    }

    pub fn alike(&self, [tokens, text, tree]: [usize; 3]) -> Result<(), Difference> {
        let (plain, library) = (&self.plain, &self.library);
        same("answer", &plain.answer, &library.answer)?;
        same("tokens", &plain.tokens[..tokens], &library.tokens[..tokens])?;
        same("text", &plain.text[..text], &library.text[..text])?;
        same("tree", &plain.tree[..tree], &library.tree[..tree])
    }

    /// Whether the whole buffers are alike, also far behind what any input could reach.
    pub fn all_alike(&self) -> Result<(), Difference> {
        self.alike([self.plain.tokens.len(), self.plain.text.len(), self.plain.tree.len()])
    }

    /// The ordered trial is set beside the descent where that has read the tokens to an end or to one that does not fit.
    fn try_too(&self, src: &[u8], answer: Answer) -> Result<Tried, Difference> {
        if !matches!(answer.number, 0 | 14..=16) {
            return Ok(Tried::SetAside);
        }
        let Some(Ok(tokens)) = std::str::from_utf8(src).ok().map(plain::scan::scan) else {
            return differ("scanned twice, refused once");
        };
        let fuel = 50_000 + 400 * tokens.len() as u64;
        match (try_program(src, &tokens, fuel), answer.number) {
            (Verdict::Spent, _) => Ok(Tried::Spent),
            (Verdict::Refused, 0) => differ("the trial refuses"),
            (Verdict::Refused, _) => Ok(Tried::Alike),
            (Verdict::Accepted { nodes, text }, 0) => self.same_tree(&nodes, &text, answer),
            (Verdict::Accepted { .. }, _) => differ("the trial accepts"),
        }
    }

    /// Trees are alike when N, all words of the N records and the text are. The library's own are taken.
    fn same_tree(&self, nodes: &[[u32; 8]], text: &[u8], answer: Answer) -> Result<Tried, Difference> {
        let records = &self.library.tree[8..8 + 8 * answer.nodes as usize];
        let unlike = nodes.iter().zip(records.chunks_exact(8)).position(|(tried, read)| tried != read);
        if let Some(node) = unlike {
            return differ(format!("node {node} is {:?} in the trial", nodes[node]));
        }
        if nodes.len() != answer.nodes as usize {
            return differ(format!("the trial has {} nodes", nodes.len()));
        }
        if *text != self.library.text[..answer.text as usize] {
            return differ(format!("the trial's text is b\"{}\"", text.escape_ascii()));
        }
        Ok(Tried::Alike)
    }
}

/// 01's limits: openings at most 10 T + 1; and nodes at most 2 T + 1, which by 02's change 5 "must be shown to hold" with its commas. The answer shows no nodes in a
/// refusal: of some refusals tests/commas.rs asks it, of the nodes that the descent has written.
fn within_limits(answer: Answer) -> Result<(), Difference> {
    let Answer { number, tokens, nodes, openings, .. } = answer;
    if matches!(number, 0 | 13..=16) && (openings > 10 * tokens + 1 || nodes > 2 * tokens + 1) {
        return differ(format!("{openings} openings and {nodes} nodes for {tokens} tokens"));
    }
    Ok(())
}

pub fn same<T: Copy + PartialEq + std::fmt::Display>(what: &str, plain: &[T], library: &[T]) -> Result<(), Difference> {
    if plain == library {
        return Ok(());
    }
    match plain.iter().zip(library).position(|(plain, library)| plain != library) {
        Some(at) => differ(format!("{what}: cell {at} is {} in the plain reader, {} in the library", plain[at], library[at])),
        None => differ(format!("{what}: lengths")),
    }
}
