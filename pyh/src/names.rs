//! Names of files as they can be shown: a name is bytes, and need not be text.
use crate::excerpt::unseen;
use std::ffi::OsStr;
use std::fmt::Write;

/// The name as it is, but for bytes that are no UTF-8 (`\xE9`), characters that no one sees or that move the cursor (`\n`, `\u{1b}`), and the backslash
/// (`\\`), so that no two names look alike. An empty name is two quotes.
pub fn shown(name: &OsStr) -> String {
    if name.is_empty() {
        return "''".to_string();
    }
    escaped(name)
}

fn escaped(name: &OsStr) -> String {
    let mut out = String::new();
    for part in name.as_encoded_bytes().utf8_chunks() {
        for c in part.valid().chars() {
            match c.is_control() || unseen(c) || c == '\\' {
                true => out.extend(c.escape_default()),
                false => out.push(c),
            }
        }
        for byte in part.invalid() {
            let _ = write!(out, "\\x{byte:02X}");
        }
    }
    out
}

/// A word of the command line in quotes.
pub fn quoted(word: &OsStr) -> String {
    format!("'{}'", escaped(word))
}

/// All bytes in hexadecimal digits.
pub fn hex(name: &OsStr) -> String {
    name.as_encoded_bytes().iter().map(|byte| format!("{byte:02x}")).collect()
}
