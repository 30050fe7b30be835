//! Putting a text in a file's place.
use crate::output::why;
use std::ffi::OsStr;
use std::fs::{self, File, Metadata};
use std::io::{self, ErrorKind, Write};
use std::os::unix::fs::{fchown, MetadataExt, OpenOptionsExt};
use std::path::{Path, PathBuf};

/// The file that the name leads to gets the text all at once or not at all: it is written beside the file, and then takes its name. Mode, and owner where the
/// system lets it, stay. Or why that can't be done.
pub fn replace(name: &OsStr, text: &[u8]) -> Result<(), String> {
    let unwritten = |e: io::Error| format!("it can't be written: {}", why(&e));
    // what a link leads to, and not the link
    let path = fs::canonicalize(name).map_err(unwritten)?;
    let was = fs::metadata(&path).map_err(unwritten)?;
    if !was.is_file() {
        return Err("it can't be written: it is not a regular file".to_string());
    }
    // a file that is write-protected is not replaced by another
    File::options().write(true).open(&path).map_err(unwritten)?;
    let (beside, file) = beside(&path).map_err(|e| format!("no file can be written beside it: {}", why(&e)))?;
    let done = fill(file, text, &was).and_then(|()| fs::rename(&beside, &path));
    if done.is_err() {
        let _ = fs::remove_file(&beside);
    }
    done.map_err(unwritten)
}

/// A new file in the same folder. Its name is that of no script, and does not grow with the other's.
fn beside(path: &Path) -> io::Result<(PathBuf, File)> {
    let id = std::process::id();
    let mut tries = 0;
    loop {
        let name = path.with_file_name(format!(".pyh-fmt-{id}-{tries}.tmp"));
        match File::options().write(true).create_new(true).mode(0o600).open(&name) {
            // one that was left by a process that was killed
            Err(e) if e.kind() == ErrorKind::AlreadyExists && tries < 100 => tries += 1,
            made => return made.map(|file| (name, file)),
        }
    }
}

fn fill(mut file: File, text: &[u8], was: &Metadata) -> io::Result<()> {
    file.write_all(text)?;
    let _ = fchown(&file, Some(was.uid()), Some(was.gid()));
    file.set_permissions(was.permissions())
}
