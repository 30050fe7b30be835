//! `pyh fmt`: scripts in their standard text.
use crate::arguments::{Choice, Command, Wanted};
use crate::comments::comments;
use crate::output::{say, why, Output};
use crate::scripts::{Found, What};
use crate::sentence::count;
use crate::terminal::Look;
use crate::{diff, names, replace, report, scripts, ACCEPTED, REFUSED, TROUBLE};
use std::ffi::OsStr;
use std::io::{stderr, stdout};
use tarbucket::Reader;

pub const COMMAND: Command = Command {
    name: "fmt",
    summary: "writes scripts in their standard text, or says which differ from it",
    usage: "usage: pyh fmt [--write | --check] [--diff] [--drop-comments] [PATH]...",
    about: ABOUT,
    listed: LISTED,
    notes: NOTES,
    options: &[
        Choice { name: "--write", values: &[] },
        Choice { name: "--check", values: &[] },
        Choice { name: "--diff", values: &[] },
        Choice { name: "--drop-comments", values: &[] },
    ],
    run: fmt,
};

const ABOUT: &str = "\
Writes the standard text of each script to standard output: one statement on a
line, two spaces for each level, a space around operators, strings in double
quotes, parentheses only where they are needed. It says what the script says,
and is its own standard text. Comments and blank lines are lost: they are not in
it. A PATH is a file, a folder, which stands for every .pyh file below it, or -
for standard input, which is read where nothing is named. The texts of several
scripts follow one another.
";

const LISTED: &str = "  --write          puts the text in the place of each file; one that has it
                   already is not touched, and one with comments is left as it
                   is, which is said, with status 1
  --drop-comments  lets --write drop the comments of files; without --write
                   nothing is said of those that are lost
  --check          writes nothing, and prints the name of each script that is
                   not its own standard text; if there is one the status is 1
  --diff           writes nothing, and prints what would change, as a unified
                   diff; with --check the status is that of --check
";

const NOTES: &str = "\
Refusals go to standard error, told as 'pyh check' tells them, and so do the
totals of --write and --check. Two numbers are added to those of 'pyh check': 17
a block has no statement, 18 the text would be longer than 65,536 bytes.

--write puts a new file in the place of the old one, all at once, with its mode,
and with its owner where that is allowed. A link stays, and the file it leads to
is written. Where a file can't be written it is left as it was.
";

/// What is to be done with texts; without --write, --check and --diff they are printed.
struct Asked {
    write: bool,
    check: bool,
    diff: bool,
    drop: bool,
}

/// What was seen so far.
#[derive(Default)]
struct Totals {
    standard: usize,
    /// Not in standard form, and by `--write` put into it.
    other: usize,
    refused: usize,
    /// Left for their comments.
    left: usize,
    unwritten: usize,
    unreadable: usize,
    skipped: usize,
}

struct Fmt {
    asked: Asked,
    look: Look,
    errors: Look,
    out: Output,
    reader: Reader,
    totals: Totals,
}

fn fmt(wanted: &Wanted) -> Result<u8, String> {
    let asked = asked(wanted)?;
    let names = match wanted.names[..] {
        [] => vec![OsStr::new(scripts::INPUT)],
        ref names => names.to_vec(),
    };
    let (look, errors) = (Look::of(&stdout()), Look::of(&stderr()));
    let fmt = Fmt { asked, look, errors, out: Output::new(), reader: Reader::new(), totals: Totals::default() };
    Ok(fmt.run(&names))
}

/// What the options ask for together, or why they can't stand together.
fn asked(wanted: &Wanted) -> Result<Asked, String> {
    let [write, check, diff, drop] = ["--write", "--check", "--diff", "--drop-comments"].map(|name| wanted.has(name));
    scripts::input_once(&wanted.names)?;
    let input = wanted.names.iter().any(|name| *name == scripts::INPUT);
    let wrong = match () {
        _ if write && check => "'--check' writes nothing, so it can't stand with '--write'",
        _ if write && diff => "'--diff' writes nothing, so it can't stand with '--write'",
        _ if drop && (check || diff) => "'--drop-comments' is for what is written, and '--check' and '--diff' write nothing",
        _ if write && wanted.names.is_empty() => "no script is named: '--write' wants files or folders",
        _ if write && input => "'-', standard input, can't be written: '--write' wants files or folders",
        _ => return Ok(Asked { write, check, diff, drop }),
    };
    Err(wrong.to_string())
}

impl Fmt {
    fn run(mut self, names: &[&OsStr]) -> u8 {
        let mut src = Vec::new();
        for script in &scripts::find(names, |_| ()) {
            self.one(script, &mut src);
            if self.out.is_lost() {
                break;
            }
        }
        self.out.flush();
        if (self.asked.write || self.asked.check) && !self.out.is_lost() {
            say(&self.totals.line(self.asked.write));
        }
        let status = match self.totals {
            Totals { unreadable: 1.., .. } | Totals { unwritten: 1.., .. } => TROUBLE,
            Totals { refused: 1.., .. } | Totals { left: 1.., .. } => REFUSED,
            Totals { other: 1.., .. } if self.asked.check => REFUSED,
            _ => ACCEPTED,
        };
        self.out.end(status)
    }

    fn one(&mut self, found: &Found, src: &mut Vec<u8>) {
        let name = &found.name;
        match &found.what {
            What::Trouble(why) => self.unreadable(name, why),
            What::Skipped(why) => {
                self.totals.skipped += 1;
                self.note(name, why);
            }
            What::Script => match scripts::read(name, src) {
                Err(e) => self.unreadable(name, &why(&e)),
                Ok(()) => self.script(name, src),
            },
        }
    }

    fn script(&mut self, name: &OsStr, src: &[u8]) {
        match self.reader.write(src) {
            Err(e) => {
                self.totals.refused += 1;
                self.out.flush();
                say(&report::unwritten(name, src, e, &self.errors));
            }
            Ok(text) if text == src => {
                self.totals.standard += 1;
                if let Asked { write: false, check: false, diff: false, .. } = self.asked {
                    self.out.write_bytes(src);
                }
            }
            Ok(text) => {
                let text = text.to_vec();
                self.other(name, src, &text);
            }
        }
    }

    /// A script that is not in standard form.
    fn other(&mut self, name: &OsStr, src: &[u8], text: &[u8]) {
        if self.asked.write {
            return self.put(name, src, text);
        }
        self.totals.other += 1;
        if self.asked.diff {
            let tree = self.reader.read(src).expect("it was accepted before");
            self.out.write(&diff::diff(name, &tree, text, &self.look));
        } else if self.asked.check {
            self.out.write(&format!("{}\n", names::shown(name)));
        } else {
            self.out.write_bytes(text);
            if let Some(comments) = comments(&self.reader, src).filter(|_| !self.asked.drop) {
                self.note(name, &format!("written without {}", comments.told()));
            }
        }
    }

    /// Puts the text in the file's place, unless comments would be lost.
    fn put(&mut self, name: &OsStr, src: &[u8], text: &[u8]) {
        if let Some(comments) = comments(&self.reader, src).filter(|_| !self.asked.drop) {
            self.totals.left += 1;
            return self.note(name, &format!("not written, since it would lose {}; --drop-comments writes it all the same", comments.told()));
        }
        match replace::replace(name, text) {
            Ok(()) => self.totals.other += 1,
            Err(why) => {
                self.totals.unwritten += 1;
                self.note(name, &why);
            }
        }
    }

    fn unreadable(&mut self, name: &OsStr, why: &str) {
        self.totals.unreadable += 1;
        self.note(name, why);
    }

    /// A line on standard error, behind what was printed.
    fn note(&mut self, name: &OsStr, why: &str) {
        self.out.flush();
        say(&format!("pyh: {}: {why}", names::shown(name)));
    }
}

impl Totals {
    fn line(&self, write: bool) -> String {
        let Totals { standard, other, refused, left, unwritten, unreadable, skipped } = *self;
        let read = count(standard + other + refused + left + unwritten, "script");
        let mut line = format!("{read} read: {standard} in standard form, {other} {}, {refused} refused", if write { "written" } else { "not" });
        let more = [(left, "not written for comments"), (unwritten, "could not be written"), (unreadable, "could not be read"), (skipped, "skipped")];
        for (n, what) in more.iter().filter(|(n, _)| *n > 0) {
            line += &format!("; {n} {what}");
        }
        line
    }
}
