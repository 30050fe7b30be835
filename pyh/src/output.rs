//! The process's streams. No write that fails is a panic.
use crate::{ACCEPTED, TROUBLE};
use std::fs::File;
use std::io::{self, ErrorKind, Write};
use std::mem::ManuallyDrop;
use std::os::fd::{FromRawFd, RawFd};

/// A stream of the process by its number. The library's own handles take one that can't be read for an empty one, and one that can't be written for one
/// that takes all.
pub fn stream(number: RawFd) -> ManuallyDrop<File> {
    // never dropped, so that it stays open
    ManuallyDrop::new(unsafe { File::from_raw_fd(number) })
}

/// Standard output, and the first write of it that failed.
pub struct Output {
    writer: ManuallyDrop<io::BufWriter<File>>,
    failed: Option<io::Error>,
}

impl Output {
    pub fn new() -> Output {
        let file = ManuallyDrop::into_inner(stream(1));
        Output { writer: ManuallyDrop::new(io::BufWriter::with_capacity(1 << 16, file)), failed: None }
    }

    pub fn write(&mut self, text: &str) {
        self.write_bytes(text.as_bytes());
    }

    pub fn write_bytes(&mut self, bytes: &[u8]) {
        if self.failed.is_none() {
            self.failed = self.writer.write_all(bytes).err();
        }
    }

    /// Hands on what was written so far, so that it stands before what is said next.
    pub fn flush(&mut self) {
        if self.failed.is_none() {
            self.failed = self.writer.flush().err();
        }
    }

    /// Nothing more will be seen: who reads the output has gone, as `head` does, or it has no room.
    pub fn is_lost(&self) -> bool {
        self.failed.is_some()
    }

    /// The status, once all is written: a reader that has gone does not change it.
    pub fn end(mut self, status: u8) -> u8 {
        self.flush();
        match self.failed {
            Some(e) if e.kind() != ErrorKind::BrokenPipe => {
                say(&format!("pyh: standard output: {}", why(&e)));
                TROUBLE
            }
            _ => status,
        }
    }
}

/// All that a command prints.
pub fn print(text: &str) -> u8 {
    let mut out = Output::new();
    out.write(text);
    out.end(ACCEPTED)
}

/// A line on standard error.
pub fn say(text: &str) {
    let _ = writeln!(io::stderr(), "{text}");
}

/// The system's words, without its number.
pub fn why(error: &io::Error) -> String {
    let text = error.to_string();
    text.split(" (os error").next().unwrap_or(&text).to_string()
}
