//! Finding scripts below folders, and reading one.
use crate::output::{stream, why};
use std::ffi::{OsStr, OsString};
use std::fs::{self, File};
use std::io::{self, Read};
use std::path::{Path, PathBuf};
use tarbucket::LONGEST;

/// The name of standard input.
pub const INPUT: &str = "-";

/// Puts a script into the buffer, but no more of one that is too long than shows that it is.
pub fn read(name: &OsStr, src: &mut Vec<u8>) -> io::Result<()> {
    src.clear();
    let most = LONGEST as u64 + 1;
    match name == INPUT {
        true => (&*stream(0)).take(most).read_to_end(src)?,
        false => File::open(name)?.take(most).read_to_end(src)?,
    };
    Ok(())
}

/// Standard input can be read once: a second time it would be an empty script.
pub fn input_once(names: &[&OsStr]) -> Result<(), String> {
    match names.iter().filter(|name| **name == INPUT).count() {
        0 | 1 => Ok(()),
        _ => Err("'-', standard input, can be named once".to_string()),
    }
}

/// Something that was found where scripts were looked for.
pub struct Found {
    pub name: OsString,
    pub what: What,
}

pub enum What {
    Script,
    /// It can't be read, and why.
    Trouble(String),
    /// It was passed over, and why.
    Skipped(String),
}

/// Each name that is no folder, and what is below each that is one. `found` is told how many there are so far.
pub fn find(names: &[&OsStr], mut found: impl FnMut(usize)) -> Vec<Found> {
    let mut all = Vec::new();
    for &name in names {
        if name != INPUT && Path::new(name).is_dir() {
            let before = all.len();
            below(Path::new(name), &mut all, &mut found);
            if all[before..].iter().all(|f| matches!(f.what, What::Skipped(_))) {
                all.push(Found { name: name.into(), what: What::Trouble("no .pyh file is below it".to_string()) });
            }
        } else {
            all.push(Found { name: name.into(), what: What::Script });
        }
    }
    all
}

/// What is below a folder, in the order of names.
fn below(folder: &Path, all: &mut Vec<Found>, found: &mut impl FnMut(usize)) {
    let mut waiting = vec![(folder.to_path_buf(), None)];
    while let Some((path, what)) = waiting.pop() {
        let what = match what {
            Some(what) => what,
            None => match entries(&path) {
                Ok(mut entries) => {
                    entries.sort_by(|a, b| b.0.as_os_str().cmp(a.0.as_os_str()));
                    waiting.append(&mut entries);
                    continue;
                }
                Err(e) => What::Trouble(why(&e)),
            },
        };
        all.push(Found { name: path.into(), what });
        found(all.len());
    }
}

/// What matters of a folder's entries; nothing is known yet of a folder in it. Links to folders are not followed, so that none is read without end.
fn entries(folder: &Path) -> io::Result<Vec<(PathBuf, Option<What>)>> {
    let mut entries = Vec::new();
    for entry in fs::read_dir(folder)? {
        let entry = entry?;
        let path = entry.path();
        let kind = entry.file_type()?;
        // what a link leads to; one that leads nowhere is tried and can't be read
        let end = if kind.is_symlink() { fs::metadata(&path).map(|m| m.file_type()).ok() } else { Some(kind) };
        match end {
            _ if kind.is_dir() => entries.push((path, None)),
            Some(end) if end.is_dir() => entries.push((path, Some(What::Skipped("a link to a folder is not followed".to_string())))),
            _ if !is_named(&path) => {}
            // a read of it may wait for ever
            Some(end) if !end.is_file() => entries.push((path, Some(What::Trouble("it is not a regular file".to_string())))),
            _ => entries.push((path, Some(What::Script))),
        }
    }
    Ok(entries)
}

/// The name ends in `.pyh`, in small letters or capitals.
fn is_named(path: &Path) -> bool {
    let bytes = path.as_os_str().as_encoded_bytes();
    bytes.len() >= 4 && bytes[bytes.len() - 4..].eq_ignore_ascii_case(b".pyh")
}
