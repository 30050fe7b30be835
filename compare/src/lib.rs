//! A plain reader, written from the scope document ("01") and the changes to it ("02") alone, with Box and Vec: the judge of
//! the verified one.
//!
//! `parse` reads a script to a tree; `layout` puts the tree into words; `read` asks the questions 1 to 14, without 12 (gone by
//! 02's change 1), and fills the three areas. The descent and the ordered trial are two readings of the same tokens with no
//! code in common. `utf8` is the check that 02's change 2 asks for, `cut` tells 15 and 16 of change 4 from 14; change 5 is in the two
//! functions `t`; `writer` is change 6, over the words of the tree, and `alike` what its text must be read back to.

pub mod alike;
pub mod classes;
pub mod cut;
pub mod descent;
pub mod layout;
pub mod lent;
pub mod literal;
pub mod name;
pub mod scan;
pub mod token;
pub mod tree;
pub mod trial;
pub mod utf8;
pub mod words;
pub mod writer;

use token::Token;
use tree::Stmt;

/// The longest source, in bytes.
pub const LONGEST: usize = 65_536;

/// The question that said no, and its place.
#[derive(Clone, Copy, Debug, PartialEq, Eq)]
pub struct Refused {
    pub number: u32,
    pub place: u32,
}

/// 01's answer; acceptance has number 0 and place 0.
#[derive(Clone, Copy, Debug, Default, PartialEq, Eq)]
pub struct Answer {
    pub number: u32,
    pub place: u32,
    pub tokens: u32,
    pub nodes: u32,
    pub text: u32,
    pub openings: u32,
}

impl Answer {
    pub fn words(&self) -> [u32; 6] {
        [self.number, self.place, self.tokens, self.nodes, self.text, self.openings]
    }

    fn refused(refused: Refused) -> Answer {
        Answer { number: refused.number, place: refused.place, ..Answer::default() }
    }
}

/// An accepted script: its tokens with Eof, its tree, and the descent's counts.
pub struct Script {
    pub tokens: Vec<Token>,
    pub program: Vec<Stmt>,
    pub openings: u32,
    pub written: u32,
}

/// Words of tokens, bytes of text and words of tree that a source of `n` bytes has for areas.
pub fn areas(n: usize) -> (usize, usize, usize) {
    (3 * (n + 1), n, 16 * n + 16)
}

/// Reads a source to a tree; else the answer of the first question from 5 on that says no, or of 1.
///
/// A sign or operator in a row makes the tree as deep as the row is long: for sources of some ten thousand such bytes
/// the caller's stack must hold the tree's drop.
pub fn parse(src: &[u8]) -> Result<Script, Answer> {
    if src.len() > LONGEST {
        return Err(Answer::refused(Refused { number: 1, place: 0 }));
    }
    let text = match std::str::from_utf8(src) {
        Ok(text) => text,
        Err(error) => return Err(Answer::refused(Refused { number: 5, place: error.valid_up_to() as u32 })),
    };
    let tokens = scan::scan(text).map_err(Answer::refused)?;
    let descent::Descended { openings, written, taken, program } = descent::descend(src, &tokens);
    match program {
        Ok(program) => Ok(Script { tokens, program, openings, written }),
        Err(refused) => {
            let number = if refused.number == 14 { cut::number(src, &tokens, taken) } else { refused.number };
            Err(Answer { number, tokens: tokens.len() as u32 - 1, openings, ..Answer::refused(refused) })
        }
    }
}

/// Asks the questions 1 to 14 in order, without 12, and fills the areas, the first words and bytes of the slices. 1 to 5 leave
/// all slices untouched, 6 to 16 zero the areas, acceptance zeroes what it doesn't fill.
pub fn read(src: &[u8], tokens: &mut [u32], text: &mut [u8], tree: &mut [u32]) -> Answer {
    let n = src.len();
    let (token_area, text_area, tree_area) = areas(n);
    let enough = [n <= LONGEST, tokens.len() >= token_area, text.len() >= text_area, tree.len() >= tree_area];
    if let Some(no) = enough.iter().position(|&yes| !yes) {
        return Answer::refused(Refused { number: no as u32 + 1, place: 0 });
    }
    let parsed = parse(src);
    if matches!(parsed, Err(Answer { number: 5, .. })) {
        return parsed.err().unwrap_or_default();
    }
    let (tokens, text, tree) = (&mut tokens[..token_area], &mut text[..text_area], &mut tree[..tree_area]);
    tokens.fill(0);
    text.fill(0);
    tree.fill(0);
    match parsed {
        Ok(script) => fill(src, &script, tokens, text, tree),
        Err(answer) => answer,
    }
}

fn fill(src: &[u8], script: &Script, tokens: &mut [u32], text: &mut [u8], tree: &mut [u32]) -> Answer {
    let n = src.len() as u32;
    for (words, token) in tokens.chunks_exact_mut(3).zip(&script.tokens) {
        words.copy_from_slice(&[token.kind as u32, token.start, token.end]);
    }
    let layout = layout::lay_out(&script.program, n);
    text[..layout.text.len()].copy_from_slice(&layout.text);
    let answer = Answer {
        number: 0,
        place: 0,
        tokens: script.tokens.len() as u32 - 1,
        nodes: layout.nodes.len() as u32,
        text: layout.text.len() as u32,
        openings: script.openings,
    };
    assert_eq!(answer.nodes, script.written, "the descent's nodes written are the tree's");
    let (header, records) = tree.split_at_mut(words::HEADER);
    assert!(layout.nodes.len() <= records.len() / 8, "the tree's area holds its nodes");
    let nodes = answer.nodes;
    header.copy_from_slice(&[words::VERSION, nodes, answer.tokens, answer.text, 8, nodes - 1, answer.openings, n]);
    for (words, record) in records.chunks_exact_mut(8).zip(&layout.nodes) {
        words.copy_from_slice(record);
    }
    answer
}

/// What 01's program prints for a source of at most 1,023 bytes; a longer one is refused by number 1.
pub fn print(src: &[u8]) -> String {
    if src.len() > 1023 {
        return "no 1 0\n".to_string();
    }
    let (tokens, text, tree) = areas(src.len());
    let mut tree = vec![0; tree];
    match read(src, &mut vec![0; tokens], &mut vec![0; text], &mut tree) {
        Answer { number: 0, .. } => words::print_tree(&tree),
        answer => format!("no {} {}\n", answer.number, answer.place),
    }
}

#[cfg(test)]
mod tests;
