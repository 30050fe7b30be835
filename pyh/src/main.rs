//! Shows people what the reader makes of their scripts: `pyh COMMAND [OPTION]... [FILE]...`, see `pyh --help`.
//!
//! A command has a file of its own with its entry in [`COMMANDS`]: name, help, options and what it does.
mod arguments;
mod before;
mod character;
mod check;
mod comma;
mod comments;
mod diff;
mod drawing;
mod ending;
mod excerpt;
mod fmt;
mod json;
mod misfit;
mod names;
mod output;
mod progress;
mod replace;
mod report;
mod scripts;
mod sentence;
mod show;
mod source;
mod terminal;
mod widths;

use arguments::{nearest, no_option, parted, Asked, Command, LISTED, PLACES, STATUS};
use names::quoted;
use output::{print, say};
use std::ffi::{OsStr, OsString};
use std::path::Path;
use std::process::ExitCode;

/// Exit statuses. The worst of what was met is the status.
pub const ACCEPTED: u8 = 0;
pub const REFUSED: u8 = 1;
pub const TROUBLE: u8 = 2;

const COMMANDS: [&Command; 3] = [&show::COMMAND, &check::COMMAND, &fmt::COMMAND];

const USAGE: &str = "usage: pyh COMMAND [OPTION]... [FILE]...";

const HEAD: &str = "pyh shows what the reader makes of kiosk scripts, and writes them alike.";

fn help() -> String {
    let commands: String = COMMANDS.iter().map(|c| format!("  {:<8} {}\n", c.name, c.summary)).collect();
    format!("{HEAD}\n\n{USAGE}\n\ncommands (pyh help COMMAND says more of one):\n{commands}\noptions, also behind a command:\n{LISTED}\n{STATUS}")
}

fn help_of(command: &Command) -> String {
    let Command { usage, about, listed, notes, .. } = command;
    format!("{usage}\n\n{about}\noptions:\n{listed}{LISTED}\n{PLACES}\n{notes}\n{STATUS}")
}

fn version() -> String {
    format!("pyh {}\n", env!("CARGO_PKG_VERSION"))
}

/// What the words of the command line ask for, and the status.
fn run(words: &[OsString]) -> u8 {
    match words.split_first() {
        Some((first, _)) if first == "-h" || first == "--help" => print(&help()),
        Some((first, _)) if first == "-V" || first == "--version" => print(&version()),
        Some((first, rest)) if first == "--" => named(rest),
        Some((first, _)) if first != "-" && first.as_encoded_bytes().starts_with(b"-") => wrong("pyh", &not_here(first), USAGE),
        _ => named(words),
    }
}

/// The first word is a command's name.
fn named(words: &[OsString]) -> u8 {
    match words.split_first() {
        None => wrong("pyh", "no command is named", USAGE),
        Some((first, rest)) if first == "help" => help_on(rest),
        Some((first, rest)) => match COMMANDS.iter().find(|c| first == c.name) {
            Some(command) => obey(command, rest),
            None => wrong("pyh", &no_command(first), USAGE),
        },
    }
}

/// `pyh help`, `pyh help COMMAND`.
fn help_on(words: &[OsString]) -> u8 {
    match words.first() {
        None => print(&help()),
        Some(word) => match COMMANDS.iter().find(|c| word == c.name) {
            Some(command) => print(&help_of(command)),
            None => wrong("pyh", &no_command(word), USAGE),
        },
    }
}

fn obey(command: &Command, words: &[OsString]) -> u8 {
    match arguments::parse(words, command.options) {
        Ok(Asked::Help) => print(&help_of(command)),
        Ok(Asked::Version) => print(&version()),
        Ok(Asked::Work(wanted)) => match (command.run)(&wanted) {
            Ok(status) => status,
            Err(why) => wrong(&format!("pyh {}", command.name), &why, command.usage),
        },
        Err(why) => wrong(&format!("pyh {}", command.name), &why, command.usage),
    }
}

fn wrong(who: &str, why: &str, usage: &str) -> u8 {
    say(&format!("{who}: {why}\n{usage}\n'{who} --help' says more."));
    TROUBLE
}

/// Why an option can't stand before the command.
fn not_here(word: &OsStr) -> String {
    let (name, _) = parted(word);
    match COMMANDS.iter().find(|c| c.options.iter().any(|o| name == o.name)) {
        Some(command) => format!("{} stands behind its command, as in 'pyh {} {}'", quoted(name), command.name, names::shown(name)),
        None => no_option(name, &[]),
    }
}

/// Why there is no such command, and what may be meant.
fn no_command(word: &OsStr) -> String {
    let shown = quoted(word);
    let path = Path::new(word);
    if path.exists() {
        let meant = if path.is_dir() { "check" } else { "show" };
        return format!("no command is called {shown}; is 'pyh {meant} {}' meant?", names::shown(word));
    }
    format!("no command is called {shown}{}", nearest(word, COMMANDS.iter().map(|c| c.name)))
}

fn main() -> ExitCode {
    let words: Vec<OsString> = std::env::args_os().skip(1).collect();
    ExitCode::from(run(&words))
}
