//! A refusal in each format.
use crate::terminal::{Look, BOLD, RED};
use crate::{excerpt, json, names, sentence};
use std::ffi::OsStr;
use tarbucket::{Error, WriteError};

/// For people: line and column, the line with a caret, and a sentence. `name` is there where more than one script may be meant.
pub fn text(name: Option<&OsStr>, src: &[u8], error: Error, look: &Look) -> String {
    let place = (!matches!(error, Error::TooLong)).then_some(error.place());
    told(name, src, (error.number(), place), &sentence::sentence(src, error), look)
}

/// Likewise of a script that has no standard text. An empty block is the last thing of its script, which ends with the block's spaces.
pub fn unwritten(name: &OsStr, src: &[u8], error: WriteError, look: &Look) -> String {
    let (place, why) = match error {
        WriteError::Read(error) => return text(Some(name), src, error, look),
        WriteError::EmptyBlock => (Some(src.len()), sentence::empty_block(src)),
        WriteError::NoRoom => (None, sentence::NO_ROOM.to_string()),
    };
    told(Some(name), src, (error.number(), place), &why, look)
}

fn told(name: Option<&OsStr>, src: &[u8], (number, place): (u32, Option<usize>), why: &str, look: &Look) -> String {
    let head = match name {
        Some(name) => format!("{}: {}", look.paint(BOLD, &names::shown(name)), look.paint(RED, "refused")),
        None => look.paint(RED, "Refused"),
    };
    let why = excerpt::wrapped(why, look.columns);
    let Some(place) = place else {
        return format!("{head} (number {number})\n{why}\n");
    };
    let at = excerpt::locate(src, place);
    let shown = excerpt::shown(src, &at, look);
    format!("{head}: line {}, column {} (number {number})\n{shown}{why}\n", at.line, at.column)
}

/// For editors: FILE:LINE:COLUMN: NUMBER SENTENCE. Numbers with no place have 1:1.
pub fn short(name: &OsStr, src: &[u8], error: Error) -> String {
    let at = excerpt::locate(src, error.place());
    format!("{}:{}:{}: {} {}\n", names::shown(name), at.line, at.column, error.number(), sentence::sentence(src, error))
}

/// For programs: an object on a line.
pub fn object(name: &OsStr, src: &[u8], error: Error) -> String {
    let at = excerpt::locate(src, error.place());
    format!(
        "{{\"kind\":\"refused\",{},\"line\":{},\"column\":{},\"number\":{},\"place\":{},\"sentence\":{}}}\n",
        json::file(name),
        at.line,
        at.column,
        error.number(),
        error.place(),
        json::string(&sentence::sentence(src, error))
    )
}
