//! Measures the stack that calls of the library take, over sources of every sort of nesting and repetition.
//!
//! `stack` prints the table and ends with 0 exactly if all is well; it starts itself again as `stack --measure`, which makes the calls, so that one
//! that goes past the end of its stack ends that process and not this one. `stack --source N` prints source N.

mod call;
mod checked;
mod deep;
mod long;
mod mixed;
mod nest;
mod painted;
mod promise;
mod random;
mod refused;
mod shapes;
mod source;
mod standard;
mod table;
mod way;

use call::Call;
use painted::{Stack, PAINTS};
use source::Source;
use std::io::Write;
use std::process::ExitCode;
use way::{Way, CHECKED, GIVEN_BACK, READ, WRITTEN};

fn main() -> ExitCode {
    let arguments: Vec<String> = std::env::args().skip(1).collect();
    let arguments: Vec<&str> = arguments.iter().map(String::as_str).collect();
    match arguments[..] {
        [] => return table::check(),
        ["--measure"] => measure(),
        ["--source", number] => print_source(number.parse().expect("a source's number")),
        _ => panic!("stack, stack --measure, or stack --source N"),
    }
    ExitCode::SUCCESS
}

/// Each source in turn, and what is done with it, the same in every run.
fn each(visit: &mut dyn FnMut(Source, &Way)) {
    source::each(&mut |source| visit(source, &READ));
    checked::each(&mut |source| visit(source, &CHECKED));
    source::each(&mut |source| visit(source, &WRITTEN));
    standard::each(&mut |source| visit(source, &GIVEN_BACK));
}

/// A line before each source's calls, so that the last one begun is known; then a line for each paint.
fn measure() {
    let (stack, mut call) = (Stack::new(), Call::new());
    let mut out = std::io::stdout().lock();
    each(&mut |source, way| {
        let (sort, name, levels) = (source.sort, &source.name, source.levels);
        let due = (way.due)(&source);
        writeln!(out, "{}\t{sort}\t{name}\t{}\t{levels}\t{due}", way.name, source.text.len()).expect("a line written");
        for paint in PAINTS {
            (way.take)(&mut call, &source.text);
            let taken = stack.measure(paint, way.start, &mut call);
            writeln!(out, "{taken} {}", (way.said)(&mut call, &source)).expect("a line written");
        }
    });
}

fn print_source(wanted: usize) {
    let mut number = 0;
    each(&mut |source, _| {
        number += 1;
        if number == wanted {
            std::io::stdout().write_all(&source.text).expect("a source written");
        }
    });
}
