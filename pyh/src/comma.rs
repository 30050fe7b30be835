//! The sentences for a comma that does not fit.
use crate::before::closing;
use crate::misfit::Misfit;
use crate::source::{line_start, tokens};

impl Misfit<'_> {
    /// How the sentence on a comma goes on, if more can be said.
    pub fn comma(&self) -> Option<&'static str> {
        let is_first = self.before.last.end <= line_start(self.src, self.place);
        let hint = match &self.src[self.before.last.clone()] {
            b"" => ": a value is missing before it.",
            _ if is_first && self.wants_value() => ": a line does not go on from the one above, so a value is missing before it.",
            _ if is_first => return None,
            // wherever commas part what stands there, one may end it
            b"," => ": one comma is enough, or something is missing between the two.",
            _ if self.before.open.last().is_some_and(|bracket| bracket.empty) => ": `()` is no value, the empty tuple is written `())`.",
            _ if self.wants_value() => ": a value is missing before it.",
            b"." if self.follows_dot_of_number() => ": a number needs digits behind its dot.",
            b"." => ": a name is missing before it.",
            _ if self.helps(self.place..self.place, b" a") => ": a name is missing before it.",
            _ if self.follows_key() => ": a `:` and a value are missing before it.",
            _ if self.wants_parentheses() => ": one value is wanted here, so leave the comma out, or put a tuple in parentheses.",
            _ if self.follows_name_of_for() => ": `for` takes one name.",
            _ => return None,
        };
        Some(hint)
    }

    /// A value can stand here, whether or not the comma fits behind it.
    fn wants_value(&self) -> bool {
        self.reach(&(self.place..self.place), b"''") >= Some(self.place + 2)
    }

    /// An index, or what `if`, `elif`, `while` or `in` has, is one value: a comma makes no tuple of it, but does in parentheses.
    fn wants_parentheses(&self) -> bool {
        let Some(bracket) = self.before.open.last() else {
            return self.value_of_header().is_some_and(|from| self.helps(from..from, b" ("));
        };
        let tuple = self.reach_with_tuple(bracket.at + 1);
        // the index may have lost its bracket instead: with that the reader comes further then
        let closed = self.reach(&(self.place..self.place), &[bracket.closer as u8]).map(|at| at - 1);
        tuple > Some(self.place) && tuple >= closed
    }

    /// How far the reader comes, in places of the script, with parentheses around all from here to the end of its bracket.
    fn reach_with_tuple(&self, from: usize) -> Option<usize> {
        let Some(end) = closing(self.src, self.place) else {
            return self.reach(&(from..from), b"(").map(|at| at - 1);
        };
        let tuple = [b"(", &self.src[from..end], b")"].concat();
        self.reach(&(from..end), &tuple).map(|at| if at > end + 1 { at - 2 } else { at - 1 })
    }

    /// Where the value of `if`, `elif`, `while` or `for` begins, if the line has one of them.
    fn value_of_header(&self) -> Option<usize> {
        let start = self.before.first.start;
        let line = &self.src[start..self.place];
        let word = tokens(line).find(|at| matches!(&line[at.clone()], b"if" | b"elif" | b"while" | b"in"))?;
        Some(start + word.end)
    }

    /// `1.` is no number, and few mean an attribute of 1.
    fn follows_dot_of_number(&self) -> bool {
        let line = &self.src[self.before.first.start..self.before.last.start];
        let token = tokens(line).last().map(|at| &line[at]).filter(|token| line.ends_with(token));
        token.is_some_and(|token| matches!(token[0], b'0'..=b'9' | b'+' | b'-') && !token.contains(&b'.'))
    }

    /// It follows a value among the pairs of a dictionary.
    fn follows_key(&self) -> bool {
        let is_brace = self.before.open.last().is_some_and(|bracket| bracket.closer == '}');
        is_brace && self.helps(self.place..self.place, b":''")
    }

    fn follows_name_of_for(&self) -> bool {
        let (first, last) = (&self.before.first, &self.before.last);
        self.src[first.clone()] == *b"for" && first.end < last.start && self.src[first.end..last.start].trim_ascii().is_empty()
    }
}
