//! A line on standard error that says how far a long check has come. It is there only while it runs, and only on a terminal.
use crate::terminal::{columns, moves};
use std::io::{self, Write};
use std::time::{Duration, Instant};

/// Up to so many scripts there is no line.
const FEW: usize = 300;

/// The line is drawn no more often than this.
const PAUSE: Duration = Duration::from_millis(50);

pub struct Progress {
    /// Whether there is a terminal for it.
    shown: bool,
    /// When the line was last drawn; none where it is not there.
    drawn: Option<Instant>,
}

impl Progress {
    pub fn new() -> Progress {
        Progress { shown: columns(&io::stderr()).is_some() && moves(), drawn: None }
    }

    /// While scripts are looked for.
    pub fn found(&mut self, scripts: usize) {
        self.draw(scripts, || format!("{scripts} scripts found"));
    }

    pub fn read(&mut self, scripts: usize, of: usize, refused: usize) {
        self.draw(of, || format!("{scripts} of {of} scripts, {refused} refused"));
    }

    fn draw(&mut self, of: usize, line: impl Fn() -> String) {
        if self.shown && of > FEW && self.drawn.is_none_or(|then| then.elapsed() >= PAUSE) {
            // a line that reaches the last column would go on below it; the terminal may have become narrower
            let widest = columns(&io::stderr()).unwrap_or(80).saturating_sub(1);
            let line: String = line().chars().take(widest).collect();
            let _ = write!(io::stderr(), "\r{line}\x1b[K");
            self.drawn = Some(Instant::now());
        }
    }

    /// Takes the line away, before something else is printed. The next one is drawn at once.
    pub fn clear(&mut self) {
        if self.drawn.take().is_some() {
            let _ = write!(io::stderr(), "\r\x1b[K");
        }
    }
}
