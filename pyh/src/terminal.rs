//! What a terminal is told that a file or a pipe is not: colours, and lines as wide as it is.
use std::env::var_os;
use std::io::IsTerminal;
use std::os::fd::AsRawFd;

/// How to write for who reads it.
#[derive(Clone, Copy)]
pub struct Look {
    colours: bool,
    /// The terminal's width; none where it is no terminal.
    pub columns: Option<usize>,
}

pub const RED: &str = "\x1b[1;31m";
pub const GREEN: &str = "\x1b[1;32m";
pub const BLUE: &str = "\x1b[34m";
pub const BOLD: &str = "\x1b[1m";
const PLAIN: &str = "\x1b[0m";

impl Look {
    /// Of a stream: colours where it is a terminal that has them, and NO_COLOR is unset.
    pub fn of(stream: &(impl AsRawFd + IsTerminal)) -> Look {
        let columns = columns(stream);
        Look { colours: columns.is_some() && moves() && var_os("NO_COLOR").is_none(), columns }
    }

    pub fn paint(&self, colour: &str, text: &str) -> String {
        match self.colours {
            true => format!("{colour}{text}{PLAIN}"),
            false => text.to_string(),
        }
    }
}

/// Whether the terminal knows more than plain lines.
pub fn moves() -> bool {
    var_os("TERM").is_some_and(|term| term != "dumb" && !term.is_empty())
}

/// As x86-64 Linux has them.
#[repr(C)]
#[derive(Default)]
struct Size {
    rows: u16,
    columns: u16,
    pixels: [u16; 2],
}

extern "C" {
    fn ioctl(file: i32, request: u64, size: *mut Size) -> i32;
}

const GET_SIZE: u64 = 0x5413;

/// The width of a terminal, 80 where it does not tell; none where it is no terminal.
pub fn columns(stream: &(impl AsRawFd + IsTerminal)) -> Option<usize> {
    let mut size = Size::default();
    // the request fills a structure of four u16
    let failed = unsafe { ioctl(stream.as_raw_fd(), GET_SIZE, &mut size) };
    let told = (failed == 0 && size.columns > 0).then_some(size.columns as usize);
    stream.is_terminal().then_some(told.unwrap_or(80))
}
