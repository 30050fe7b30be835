//! A run of inputs that accepted sources are written of, what came of them, and the table of it.

use crate::generate::{Generator, CLASSES};
use crate::sides::{Case, Difference};
use crate::written::{long, nests};
use crate::{shrink, Limits};
use plain::writer::{EMPTY_BLOCK, TOO_LONG};
use std::process::ExitCode;
use std::time::Instant;

/// What came of a case in which nothing was wrong.
#[derive(Clone, Copy, Default)]
pub struct Found {
    /// Of the answer with enough lent.
    pub number: u32,
    /// The text's bytes, with 18 as well.
    pub bytes: u64,
    /// What the judge counts besides.
    pub more: [u64; 2],
}

pub trait Judge {
    /// The names of what it counts besides.
    const COLUMNS: [&'static str; 2];

    /// A new input comes. Until then, who judges a case again sees the same.
    fn turn(&mut self) {}

    /// What came of a case, or what is wrong.
    fn judge(&mut self, case: &Case) -> Result<Found, Difference>;
}

#[derive(Clone, Copy, Default)]
struct Row {
    inputs: u64,
    refused: u64,
    empty_block: u64,
    too_long: u64,
    written: u64,
    bytes: u64,
    longest: u64,
    more: [u64; 2],
}

impl Row {
    fn count(&mut self, found: Found) {
        self.inputs += 1;
        self.more.iter_mut().zip(found.more).for_each(|(sum, more)| *sum += more);
        match found.number {
            0 => {
                self.written += 1;
                self.bytes += found.bytes;
                self.longest = self.longest.max(found.bytes);
            }
            EMPTY_BLOCK => self.empty_block += 1,
            TOO_LONG => self.too_long += 1,
            _ => self.refused += 1,
        }
    }

    fn add(&mut self, other: &Row) {
        self.inputs += other.inputs;
        self.refused += other.refused;
        self.empty_block += other.empty_block;
        self.too_long += other.too_long;
        self.written += other.written;
        self.bytes += other.bytes;
        self.longest = self.longest.max(other.longest);
        self.more.iter_mut().zip(other.more).for_each(|(sum, more)| *sum += more);
    }

    fn words(&self) -> [u64; 9] {
        let Row { inputs, refused, empty_block, too_long, written, bytes, longest, more: [one, other] } = *self;
        [inputs, refused, empty_block, too_long, written, bytes, longest, one, other]
    }
}

/// A row for each class of the generator, one for the nests and one for the long sources.
const ROWS: usize = CLASSES.len() + 2;

fn print(rows: &[Row], [one, other]: [&str; 2], begun: Instant, differences: u32) {
    let mut all = Row::default();
    rows.iter().for_each(|row| all.add(row));
    let columns = ["inputs", "refused", "17", "18", "written", "bytes", "longest", one, other];
    println!("{:<12} {}", "class", columns.map(|name| format!("{name:>11}")).join(" "));
    for (name, row) in CLASSES.iter().map(|class| class.name).chain(["nests", "long"]).zip(rows).chain([("all", &all)]) {
        println!("{name:<12} {}", row.words().map(|word| format!("{word:>11}")).join(" "));
    }
    println!("{} inputs, {:.0} seconds, differences: {differences}", all.inputs, begun.elapsed().as_secs_f64());
}

/// Runs the nests, the generator's inputs until the limits are over and the long sources, in which a small case is hard to find; or up to the
/// first case in which something is wrong, which is shown as small as may be.
pub fn run_table<J: Judge>(limits: &Limits, judge: &mut J) -> ExitCode {
    println!("seed {}", limits.seed);
    let begun = Instant::now();
    let mut rows = [Row::default(); ROWS];
    let mut generator = Generator::by_turns(limits.seed);
    let nests = nests::nests().map(|src| (ROWS - 2, Case::of(src.into_bytes())));
    let long = long::sources().map(|src| (ROWS - 1, Case::of(src)));
    let generated = (0..).take_while(|&done| !limits.over(done, begun)).map(|_| generator.next());
    for (row, case) in nests.chain(generated).chain(long) {
        judge.turn();
        match judge.judge(&case) {
            Ok(found) => rows[row].count(found),
            Err(Difference(what)) => {
                println!("found in {} bytes: {}", case.src.len(), shown(&what));
                show(judge, case);
                print(&rows, J::COLUMNS, begun, 1);
                return ExitCode::FAILURE;
            }
        }
    }
    print(&rows, J::COLUMNS, begun, 0);
    ExitCode::SUCCESS
}

fn show(judge: &mut impl Judge, case: Case) {
    let smallest = shrink::shrink(&mut |case| judge.judge(case).is_err(), case);
    println!("input: {} bytes: b\"{}\"", smallest.src.len(), shown(&smallest.src.escape_ascii().to_string()));
    println!("{}", shrink::lengths(&smallest));
    if let Err(Difference(what)) = judge.judge(&smallest) {
        println!("difference: {}", shown(&what));
    }
}

/// The first thousand characters.
fn shown(what: &str) -> &str {
    what.char_indices().nth(1000).map_or(what, |(end, _)| &what[..end])
}
