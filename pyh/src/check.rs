//! `pyh check`: which scripts are refused, where and why.
use crate::arguments::{Choice, Command, Wanted};
use crate::output::{say, why, Output};
use crate::progress::Progress;
use crate::scripts::{Found, What};
use crate::sentence::count;
use crate::terminal::{Look, GREEN, RED};
use crate::{json, names, report, scripts, ACCEPTED, REFUSED, TROUBLE};
use std::ffi::OsStr;
use tarbucket::{Error, Reader};

pub const COMMAND: Command = Command {
    name: "check",
    summary: "says which scripts are refused, where and why, and how many",
    usage: "usage: pyh check [--format text|short|json] PATH...",
    about: ABOUT,
    listed: LISTED,
    notes: NOTES,
    options: &[Choice { name: "--format", values: &["text", "short", "json"] }],
    run: check,
};

const ABOUT: &str = "\
Reads each script, says of each that is refused where and why, and at the end
how many were read. A PATH is a file, a folder, which stands for every .pyh file
below it, or - for standard input. What is named twice is read twice. A link to
a folder is followed where it is a PATH, and else skipped, with a note. A folder
with no .pyh file below it counts as something that can't be read.
";

const LISTED: &str = "  --format text    for people, and what is done where no format is named: the
                   line with a caret under the place, and a sentence
  --format short   for editors: FILE:LINE:COLUMN: NUMBER SENTENCE, a line for
                   each refusal; the totals go to standard error
  --format json    for programs: an object on each line. Its kind is refused
                   (with file, line, column, number, place, sentence),
                   unreadable or skipped (file, sentence) or, on the last line,
                   totals (scripts, accepted, refused, unreadable, skipped)
";

const NOTES: &str = "\
Line and column in json are the same, and its place counts bytes, from 0. A
script that is too long (number 1) has no place of its own, and stands at 1:1.

numbers: 1 too long, 5 no UTF-8, 6 a tab in the indentation, 7 indented by other
than two more, 8 back on no level, 9 no token (a character that means nothing, a
string that is not closed), 10 a whole number out of range, 11 a number with a
dot that is not read, 13 nested too deeply, 14 does not fit the grammar, 15 the
script ends too early, 16 a value is missing at the end of a line, or where the
script ends within an indented block; no script gets 12

In a name, bytes that are no UTF-8 are shown as in \\xE9, what no one sees as in
\\n or \\u{1b}, a backslash as \\\\. In json the name is itself; where it is no
UTF-8, file_hex has all its bytes.

Colours are there on a terminal, unless NO_COLOR is set. A line of progress is
there for more than 300 scripts, where standard error is a terminal.
";

#[derive(Clone, Copy)]
enum Format {
    Text,
    Short,
    Json,
}

/// What was seen so far.
#[derive(Default)]
struct Totals {
    accepted: usize,
    refused: usize,
    unreadable: usize,
    skipped: usize,
}

struct Check {
    format: Format,
    look: Look,
    out: Output,
    progress: Progress,
    totals: Totals,
}

fn check(wanted: &Wanted) -> Result<u8, String> {
    if wanted.names.is_empty() {
        return Err("no script is named: name files or folders, or - for standard input".to_string());
    }
    scripts::input_once(&wanted.names)?;
    let format = match wanted.value("--format") {
        "short" => Format::Short,
        "json" => Format::Json,
        _ => Format::Text,
    };
    let check = Check { format, look: Look::of(&std::io::stdout()), out: Output::new(), progress: Progress::new(), totals: Totals::default() };
    Ok(check.run(&wanted.names))
}

impl Check {
    fn run(mut self, names: &[&OsStr]) -> u8 {
        let found = scripts::find(names, |n| self.progress.found(n));
        let mut reader = Reader::new();
        let mut src = Vec::new();
        for (k, script) in found.iter().enumerate() {
            self.progress.read(k, found.len(), self.totals.refused);
            self.one(script, &mut reader, &mut src);
            if self.out.is_lost() {
                break;
            }
        }
        self.progress.clear();
        // where no one reads on, not all was checked, and there are no totals
        if !self.out.is_lost() {
            self.sum();
        }
        let status = match self.totals {
            Totals { unreadable: 0, refused: 0, .. } => ACCEPTED,
            Totals { unreadable: 0, .. } => REFUSED,
            _ => TROUBLE,
        };
        self.out.end(status)
    }

    fn one(&mut self, found: &Found, reader: &mut Reader, src: &mut Vec<u8>) {
        let name = &found.name;
        match &found.what {
            What::Trouble(why) => self.unreadable(name, why),
            What::Skipped(why) => {
                self.totals.skipped += 1;
                self.note("skipped", name, why);
            }
            What::Script => match scripts::read(name, src) {
                Err(e) => self.unreadable(name, &why(&e)),
                Ok(()) => match reader.read(src) {
                    Ok(_) => self.totals.accepted += 1,
                    Err(e) => self.refused(name, src, e),
                },
            },
        }
    }

    fn refused(&mut self, name: &OsStr, src: &[u8], error: Error) {
        self.totals.refused += 1;
        let text = match self.format {
            Format::Text => report::text(Some(name), src, error, &self.look) + "\n",
            Format::Short => report::short(name, src, error),
            Format::Json => report::object(name, src, error),
        };
        self.put(&text);
    }

    fn unreadable(&mut self, name: &OsStr, why: &str) {
        self.totals.unreadable += 1;
        self.note("unreadable", name, why);
    }

    /// Something that is no refusal: an object of its kind, or a line on standard error.
    fn note(&mut self, kind: &str, name: &OsStr, why: &str) {
        if let Format::Json = self.format {
            let sentence = json::string(why);
            self.put(&format!("{{\"kind\":\"{kind}\",{},\"sentence\":{sentence}}}\n", json::file(name)));
        } else {
            self.out.flush();
            self.progress.clear();
            say(&format!("pyh: {}: {why}", names::shown(name)));
        }
    }

    /// On a terminal the line of progress must stand neither before what is printed nor within it.
    fn put(&mut self, text: &str) {
        let terminal = self.look.columns.is_some();
        if terminal {
            self.progress.clear();
        }
        self.out.write(text);
        if terminal {
            self.out.flush();
        }
    }

    /// The line of totals.
    fn sum(&mut self) {
        let Totals { accepted, refused, unreadable, skipped } = self.totals;
        let scripts = accepted + refused;
        match self.format {
            Format::Json => {
                let read = format!("\"scripts\":{scripts},\"accepted\":{accepted},\"refused\":{refused}");
                self.out.write(&format!("{{\"kind\":\"totals\",{read},\"unreadable\":{unreadable},\"skipped\":{skipped}}}\n"));
            }
            Format::Short => {
                self.out.flush();
                if !self.out.is_lost() {
                    say(&self.totals.line(|text| text.to_string()));
                }
            }
            Format::Text => {
                let colour = if refused == 0 { GREEN } else { RED };
                let line = self.totals.line(|text| self.look.paint(colour, text));
                self.out.write(&(line + "\n"));
            }
        }
    }
}

impl Totals {
    fn line(&self, paint: impl Fn(&str) -> String) -> String {
        let scripts = self.accepted + self.refused;
        let refused = paint(&format!("{} refused", self.refused));
        let mut line = format!("{} read: {} accepted, {refused}", count(scripts, "script"), self.accepted);
        if self.unreadable > 0 {
            line += &format!("; {} could not be read", self.unreadable);
        }
        if self.skipped > 0 {
            line += &format!("; {} skipped", self.skipped);
        }
        line
    }
}
