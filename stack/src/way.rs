//! What is done with a source: it is read, checked, or written.

use crate::call::{run, run_check, run_write, Call};
use crate::painted::Start;
use crate::source::Source;
use std::ffi::c_void;

/// A text is at most four times as long as a source of the lists that has no more bytes than this: it is not too long.
const SHORT: usize = 16_384;

pub struct Way {
    /// As the table shows it.
    pub name: &'static str,
    pub take: fn(&mut Call, &[u8]),
    pub start: Start,
    /// What must be said of it, and what was.
    pub due: fn(&Source) -> String,
    pub said: fn(&mut Call, &Source) -> String,
}

pub const READ: Way = Way { name: "read", take: Call::take, start: run, due: number, said: |call, _| call.said() };

pub const CHECKED: Way =
    Way { name: "checked", take: Call::take_text, start: run_check, due: number, said: |call, _| call.said() };

/// A source of any sort: whether its text is too long is not known here.
pub const WRITTEN: Way = Way { name: "written", take: Call::take_to_write, start: run_write, due: written, said: read_back };

/// A source that is its own standard text.
pub const GIVEN_BACK: Way =
    Way { name: "given back", take: Call::take_to_write, start: run_write, due: |_| "itself".to_string(), said: given_back };

/// The number and place that a source must get.
fn number(source: &Source) -> String {
    format!("{} {}", source.answer.0, source.answer.1)
}

fn written(source: &Source) -> String {
    match source.answer {
        (0, 0) if source.text.len() <= SHORT => "a text".to_string(),
        (0, 0) => "a text, or 18 0".to_string(),
        _ => number(source),
    }
}

/// A text must have as many nodes and bytes of strings as the source, where it is read.
fn read_back(call: &mut Call, source: &Source) -> String {
    let (said, counts) = (call.said(), call.counts());
    if said == "18 0" && source.text.len() > SHORT {
        return written(source);
    }
    if said != "0 0" {
        return said;
    }
    let text = call.written().to_vec();
    call.take(&text);
    unsafe { run(call as *mut Call as *mut c_void) };
    if call.counts() == counts {
        written(source)
    } else {
        format!("0 0, and its text has the answer {:?}", call.answer)
    }
}

fn given_back(call: &mut Call, source: &Source) -> String {
    if call.said() == "0 0" && call.written() == source.text {
        "itself".to_string()
    } else {
        format!("{}, with a text of {} bytes", call.said(), call.answer[6])
    }
}
