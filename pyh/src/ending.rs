//! The sentences for 15 and 16, where a script or a line ends too early, and for 14 where the script ends within an indented block.
use crate::excerpt::locate;
use crate::misfit::Misfit;
use crate::sentence::quoted;
use crate::source::line_number;

/// At most so many brackets are named.
const NAMED: usize = 4;

/// The script ends, and what it began is not complete.
pub fn cut(src: &[u8]) -> String {
    let misfit = Misfit::new(src, src.len());
    format!("The script ends too early: {}.", misfit.lacking(misfit.next()))
}

/// A value is missing where a line ends, or the script within an indented block.
pub fn missing(src: &[u8], place: usize) -> String {
    let misfit = Misfit::new(src, place);
    match src.get(place) {
        None => format!("The script ends here, but {}.", misfit.lacking(Some(misfit.wanted("a value is missing")))),
        Some(b'\n') => format!("A value is missing at the end of this line, after {}{}.", misfit.last(), misfit.on_this_line()),
        // where a carriage return opens a line, blocks can end within it
        Some(_) => format!("The block ends here, but a value is missing after {}.", misfit.last()),
    }
}

impl Misfit<'_> {
    /// The script ends within an indented block.
    pub fn end_of_script(&self) -> String {
        let end = self.src.len();
        if self.helps(end..end, b"\n") {
            return "The script ends here, but its last line must end with a line break.".to_string();
        }
        format!("The script ends here, but {}.", self.lacking(self.next()))
    }

    /// How the sentence on a value at the end of a line goes on.
    fn on_this_line(&self) -> String {
        let end = self.before.last.end;
        match self.before.open.last() {
            Some(bracket) => format!(": {}", bracket.on_one_line()),
            None if self.last() == "`return`" && self.helps(end..end, b" None") => ": where there is none, write `return None`".to_string(),
            None => String::new(),
        }
    }

    fn last(&self) -> String {
        quoted(&self.src[self.before.last.clone()])
    }

    /// What a script lacks that ends here, the innermost first: what comes next, brackets, a block.
    fn lacking(&self, next: Option<String>) -> String {
        let parts = [next, self.brackets(), self.block()];
        parts.into_iter().flatten().collect::<Vec<String>>().join(", and ")
    }

    /// What must come next, unless the innermost bracket can be closed, or it is the block that is missing.
    fn next(&self) -> Option<String> {
        let innermost = self.before.open.last();
        if self.before.ends_with_tuple() && self.fits(b")") {
            let half = innermost.is_some_and(|bracket| bracket.empty);
            return Some(if half { "`()` needs one more `)` to be the empty tuple" } else { "`())` is the empty tuple" }.to_string());
        }
        if innermost.is_some_and(|bracket| self.fits(&[bracket.closer as u8])) || self.before.colon == Some(self.before.last.start) {
            return None;
        }
        let what = if self.fits(b"''") {
            "a value is missing"
        } else if self.fits(b":") {
            "a `:` is missing"
        } else {
            "more was expected"
        };
        Some(self.wanted(what))
    }

    fn wanted(&self, what: &str) -> String {
        format!("{what} after {}", self.last())
    }

    /// Which brackets are not closed; that of `()` has its own words above.
    fn brackets(&self) -> Option<String> {
        let open: Vec<usize> = self.before.open.iter().rev().filter(|bracket| !bracket.empty).map(|bracket| bracket.at).collect();
        let named = open.iter().take(NAMED).map(|&at| {
            let (bracket, at) = (self.src[at] as char, locate(self.src, at));
            format!("`{bracket}` (line {}, column {})", at.line, at.column)
        });
        let more = open.len().checked_sub(NAMED).filter(|&n| n > 0).map(|n| format!("{n} more"));
        let all: Vec<String> = named.chain(more).collect();
        match all.split_last()? {
            (one, []) => Some(format!("{one} is not closed")),
            (last, front) => Some(format!("{} and {last} are not closed", front.join(", "))),
        }
    }

    /// Whose block is not complete.
    fn block(&self) -> Option<String> {
        let colon = self.before.colon?;
        let header = &self.before.first;
        let lacks = if colon == self.before.last.start { "missing" } else { "not finished" };
        Some(format!("the block of {} (line {}) is {lacks}", quoted(&self.src[header.clone()]), line_number(self.src, header.start)))
    }
}
