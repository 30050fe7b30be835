//! The plain writer by itself: on each input that is accepted, its text is read back and written again.

mod form;
mod judge;
pub mod long;
pub mod nests;

use crate::sides::{Case, Difference};
use crate::table::{run_table, Found, Judge};
use crate::Limits;
use std::process::ExitCode;

struct Alone;

impl Judge for Alone {
    /// Parentheses and commas left out of texts, and texts too long to try.
    const COLUMNS: [&'static str; 2] = ["left out", "untried"];

    fn judge(&mut self, case: &Case) -> Result<Found, Difference> {
        judge::judge(case)
    }
}

pub fn run(limits: &Limits) -> ExitCode {
    run_table(limits, &mut Alone)
}
