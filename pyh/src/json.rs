//! Lines of JSON.
use crate::excerpt::unseen;
use crate::names;
use std::ffi::OsStr;
use std::fmt::Write;

/// A string in quotes, as RFC 8259 has it; what no one sees, or might take for a line's end, is escaped too.
pub fn string(text: &str) -> String {
    let mut out = String::from('"');
    for c in text.chars() {
        match c {
            '"' | '\\' => out.extend(['\\', c]),
            '\n' => out.push_str("\\n"),
            _ if c.is_control() || unseen(c) => c.encode_utf16(&mut [0; 2]).iter().for_each(|unit| _ = write!(out, "\\u{unit:04x}")),
            _ => out.push(c),
        }
    }
    out.push('"');
    out
}

/// The member `file`: the name. One that is no UTF-8 is shown as well as can be, and a member `file_hex` has its bytes.
pub fn file(name: &OsStr) -> String {
    match name.to_str() {
        Some(text) => format!("\"file\":{}", string(text)),
        None => format!("\"file\":{},\"file_hex\":\"{}\"", string(&names::shown(name)), names::hex(name)),
    }
}
