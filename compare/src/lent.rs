//! A source and the slices lent for its areas.

use crate::alike::Source;
use crate::writer::{write, Wrote};
use crate::{areas, read, Answer};

/// The slices hold dirt before they are filled.
pub const DIRT: u8 = 0xa5;

pub struct Lent<'a> {
    pub src: &'a [u8],
    pub tokens: Vec<u32>,
    pub text: Vec<u8>,
    pub tree: Vec<u32>,
}

impl Lent<'_> {
    /// Slices as long as the areas.
    pub fn of(src: &[u8]) -> Lent<'_> {
        let (tokens, text, tree) = areas(src.len());
        Lent::with(src, [tokens, text, tree])
    }

    /// Slices of these lengths, for tokens, text and tree.
    pub fn with(src: &[u8], [tokens, text, tree]: [usize; 3]) -> Lent<'_> {
        let dirt = u32::from_ne_bytes([DIRT; 4]);
        Lent { src, tokens: vec![dirt; tokens], text: vec![DIRT; text], tree: vec![dirt; tree] }
    }

    pub fn read(&mut self) -> Answer {
        read(self.src, &mut self.tokens, &mut self.text, &mut self.tree)
    }

    /// The writer's answer with so many bytes lent to it, and these.
    pub fn write(&mut self, bytes: usize) -> (Wrote, Vec<u8>) {
        let mut out = vec![DIRT; bytes];
        (write(self.src, &mut self.tokens, &mut self.text, &mut self.tree, &mut out), out)
    }

    /// What was read, where it was accepted.
    pub fn source(&self) -> Source<'_> {
        Source { src: self.src, text: &self.text, tree: &self.tree }
    }
}
