//! The comments of a script, which its standard text does not have.
use crate::sentence::count;
use crate::source::line_number;
use tarbucket::Reader;

pub struct Comments {
    count: usize,
    /// The line of the first one.
    line: usize,
}

/// Those of the script that was read last, and accepted: between tokens stand blanks and comments alone, and a comment goes to the end of its line.
pub fn comments(reader: &Reader, src: &[u8]) -> Option<Comments> {
    let mut found = None;
    let mut end = 0;
    for (_, start, next) in reader.tokens() {
        // Dedents of one line share its spaces, so that the second starts before the end of the first
        let gap = src.get(end..start as usize).unwrap_or_default();
        let count = gap.split(|&b| b == b'\n').filter(|line| line.contains(&b'#')).count();
        if let Some(at) = gap.iter().position(|&b| b == b'#') {
            found.get_or_insert(Comments { count: 0, line: line_number(src, end + at) }).count += count;
        }
        end = next as usize;
    }
    found
}

impl Comments {
    /// How many, and where the first stands.
    pub fn told(&self) -> String {
        let first = if self.count == 1 { "" } else { "the first in " };
        format!("{} ({first}line {})", count(self.count, "comment"), self.line)
    }
}
