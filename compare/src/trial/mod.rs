//! The ordered reading: a choice keeps the first alternative that fits, what fails leaves the state as where it began.
//!
//! It shares the tokens with the descent and nothing else: it writes records itself and takes spans from token numbers.

mod expression;
mod statement;

use crate::token::{Kind, Token};
use crate::words::{Record, NEXT, NONE};

pub enum Verdict {
    Accepted {
        nodes: Vec<Record>,
        text: Vec<u8>,
    },
    Refused,
    /// More tokens were asked for than allowed: braces and tuples inside one another are read again and again.
    Spent,
}

/// Tries Program on the scanner's tokens of `src`, asking for at most `fuel` tokens.
pub fn try_program(src: &[u8], tokens: &[Token], fuel: u64) -> Verdict {
    let mut trial = Trial { src, tokens, at: 0, nodes: Vec::new(), text: Vec::new(), fuel, failed: vec![false; tokens.len()] };
    let fits = trial.program().is_some();
    match (trial.fuel, fits) {
        (0, _) => Verdict::Spent,
        (_, true) => Verdict::Accepted { nodes: trial.nodes, text: trial.text },
        (_, false) => Verdict::Refused,
    }
}

/// The state is a token number and the nodes kept, with the text of their strings. `failed` remembers where an E did not
/// fit: it fits there or not whatever stands before.
struct Trial<'a> {
    src: &'a [u8],
    tokens: &'a [Token],
    at: usize,
    nodes: Vec<Record>,
    text: Vec<u8>,
    fuel: u64,
    failed: Vec<bool>,
}

impl Trial<'_> {
    /// Takes a part, or fails and leaves all as where it began. Links and wider spans are written only into nodes that
    /// the same part has made, so dropping its nodes undoes them.
    fn part<T>(&mut self, part: impl FnOnce(&mut Self) -> Option<T>) -> Option<T> {
        let (at, nodes, text) = (self.at, self.nodes.len(), self.text.len());
        let taken = part(self);
        if taken.is_none() {
            self.at = at;
            self.nodes.truncate(nodes);
            self.text.truncate(text);
        }
        taken
    }

    /// A part taken while it fits.
    fn repeated<T>(&mut self, mut part: impl FnMut(&mut Self) -> Option<T>) -> Vec<T> {
        std::iter::from_fn(|| self.part(&mut part)).collect()
    }

    /// A token asked for fits where it stands next, and the number rises by one; Eof fits as end and stays.
    fn token(&mut self, kind: Kind) -> Option<()> {
        self.fuel = self.fuel.saturating_sub(1);
        if self.fuel == 0 || self.tokens[self.at].kind != kind {
            return None;
        }
        if kind != Kind::Eof {
            self.at += 1;
        }
        Some(())
    }

    /// The first of `choices` whose token stands next.
    fn one_of(&mut self, choices: &[(Kind, u32)]) -> Option<u32> {
        choices.iter().find_map(|&(kind, number)| self.token(kind).map(|()| number))
    }

    /// A name's start and end in the source.
    fn name(&mut self) -> Option<(u32, u32)> {
        self.token(Kind::Name)?;
        let token = self.tokens[self.at - 1];
        Some((token.start, token.end))
    }

    /// A node from token number `first` to the last token taken.
    fn node(&mut self, kind: u32, first: usize, [p, q, r, s]: [u32; 4]) -> u32 {
        let (start, end) = self.places(first);
        self.nodes.push([kind, start, end, NONE, p, q, r, s]);
        self.nodes.len() as u32 - 1
    }

    fn places(&self, first: usize) -> (u32, u32) {
        (self.tokens[first].start, self.tokens[self.at - 1].end)
    }

    /// Gives a node the span from token number `first` to the last token taken.
    fn widen(&mut self, node: u32, first: usize) {
        let (start, end) = self.places(first);
        let record = &mut self.nodes[node as usize];
        record[1] = start;
        record[2] = end;
    }

    /// Links members by next, and gives the first or none.
    fn link(&mut self, members: &[u32]) -> u32 {
        for pair in members.windows(2) {
            self.nodes[pair[0] as usize][NEXT] = pair[1];
        }
        members.first().copied().unwrap_or(NONE)
    }

    /// A list: it may be empty and takes commas, one trailing, none alone. The members may be absent; if they are
    /// there, so may be the trailing comma.
    fn list(&mut self, member: fn(&mut Self) -> Option<u32>) -> u32 {
        let members = self.part(|t| t.members(member)).unwrap_or_default();
        self.link(&members)
    }

    /// One member or more, separated by commas, one trailing allowed.
    fn members(&mut self, member: fn(&mut Self) -> Option<u32>) -> Option<Vec<u32>> {
        let mut members = vec![member(self)?];
        members.extend(self.repeated(|t| {
            t.token(Kind::Comma)?;
            member(t)
        }));
        self.part(|t| t.token(Kind::Comma));
        Some(members)
    }

    /// A list of names, each of them a node.
    fn names(&mut self) -> u32 {
        self.list(|t| {
            let first = t.at;
            let (start, end) = t.name()?;
            Some(t.node(crate::words::kind::NAME, first, [start, end, 0, 0]))
        })
    }
}
