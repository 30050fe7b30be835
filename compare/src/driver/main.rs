//! Puts generated inputs to the plain reader and to the verified one, and to the UTF-8 checks of both, and compares all that they
//! write.
//!
//!     compare [--seconds N] [--count N] [--seed S]    a run; exit status 1 at the first difference
//!     compare --stdin                                 one input, with what both sides make of it
//!     compare --print                                 one input, as 01's program prints it, by the plain reader
//!     compare --written [--seconds N] [--count N] [--seed S]    a run of the plain writer by itself; the same at the first wrong text
//!     compare --write [FILE ...]                      each file, or one input: number and length of the plain writer's answer, and the text
//!     compare --writers [--seconds N] [--count N] [--seed S]    a run of both writers, and of both readers on their texts
//!     compare --writes | --library-writes             many sources to the plain writer or to the library's, as batch.rs says
//!     compare --nests | --sources [--count N] [--seed S]    the sources of a run of the plain writer, to written.py

mod batch;
mod beside;
mod check;
mod figures;
mod generate;
mod has;
mod random;
mod shrink;
mod sides;
mod table;
mod written;

use figures::Figures;
use generate::{runs, Generator};
use has::Has;
use plain::lent::Lent;
use plain::writer::Wrote;
use sides::{Case, Difference, Sides};
use std::io::{Read, Write};
use std::process::ExitCode;
use std::time::{Duration, Instant};

/// Both the plain reader's trees and the trial go as deep as a source is long.
const STACK: usize = 1 << 30;

struct Limits {
    seconds: Option<u64>,
    count: Option<u64>,
    seed: u64,
}

impl Limits {
    /// Whether the count or the seconds are over after so many inputs; with neither, a minute. The clock is looked at before
    /// each 64th input.
    fn over(&self, done: u64, begun: Instant) -> bool {
        let seconds = self.seconds.or(if self.count.is_none() { Some(60) } else { None });
        self.count.is_some_and(|count| done >= count)
            || done % 64 == 0 && seconds.is_some_and(|most| begun.elapsed() >= Duration::from_secs(most))
    }
}

fn main() -> ExitCode {
    let words: Vec<String> = std::env::args().skip(1).collect();
    let work = std::thread::Builder::new().stack_size(STACK).spawn(move || start(&words));
    work.expect("a thread").join().unwrap_or(ExitCode::FAILURE)
}

fn start(words: &[String]) -> ExitCode {
    let (rest, run): (_, fn(&Limits) -> ExitCode) = match words.split_first() {
        Some((word, [])) if word == "--stdin" => return one(Case::of(standard_input())),
        Some((word, [])) if word == "--print" => {
            print!("{}", plain::print(&standard_input()));
            return ExitCode::SUCCESS;
        }
        Some((word, files)) if word == "--write" => return write(files),
        Some((word, [])) if word == "--writes" => return batch::writes(|src, room| Lent::of(src).write(room)),
        Some((word, [])) if word == "--library-writes" => return batch::writes(beside::written),
        Some((word, [])) if word == "--nests" => return batch::nests(),
        Some((word, rest)) if word == "--sources" => (rest, batch::generated),
        Some((word, rest)) if word == "--written" => (rest, written::run),
        Some((word, rest)) if word == "--writers" => (rest, beside::run),
        _ => (words, run),
    };
    match limits(rest) {
        Some(limits) => run(&limits),
        None => {
            eprintln!("usage: compare [--written | --writers | --sources] [--seconds N] [--count N] [--seed S]");
            eprintln!("       compare --stdin | --print | --write [FILE ...] | --writes | --library-writes | --nests");
            ExitCode::from(2)
        }
    }
}

fn standard_input() -> Vec<u8> {
    let mut src = Vec::new();
    std::io::stdin().read_to_end(&mut src).expect("standard input");
    src
}

/// Prints number and length on a line, then the text, of each file or of standard input; as much is lent as any text may have.
fn write(files: &[String]) -> ExitCode {
    let mut sources: Vec<_> = files.iter().map(|file| std::fs::read(file).expect(file)).collect();
    if files.is_empty() {
        sources.push(standard_input());
    }
    for src in sources {
        let (Wrote { number, length, .. }, out) = Lent::of(&src).write(plain::LONGEST);
        println!("{number} {length}");
        std::io::stdout().write_all(&out[..length as usize]).expect("standard output");
    }
    ExitCode::SUCCESS
}

fn limits(words: &[String]) -> Option<Limits> {
    let mut limits = Limits { seconds: None, count: None, seed: 1 };
    for pair in words.chunks(2) {
        let [word, number] = pair else { return None };
        let number = number.parse().ok()?;
        match word.as_str() {
            "--seconds" => limits.seconds = Some(number),
            "--count" => limits.count = Some(number),
            "--seed" => limits.seed = number,
            _ => return None,
        }
    }
    Some(limits)
}

fn one(case: Case) -> ExitCode {
    let mut sides = Sides::new();
    shrink::show(&mut sides, &case);
    ExitCode::from(u8::from(sides.compare(&case).is_err()))
}

/// Compares the check of UTF-8 on texts that are put to nothing else; the text of the first difference, and the difference.
fn check_alone(sides: &mut Sides, figures: &mut Figures) -> Result<(), (Vec<u8>, Difference)> {
    let mut each = |text: &[u8]| {
        sides.checks.turn();
        let checked = sides.checks.compare(text, check::WORDS).map_err(|difference| (text.to_vec(), difference))?;
        figures.check_alone(checked);
        Ok(())
    };
    runs::small(&mut each)?;
    runs::placed(&mut each)
}

/// Shows a difference as it was found, and its case, made as small as may be.
fn found(sides: &mut Sides, case: Case, difference: Difference, figures: &Figures, begun: Instant) -> ExitCode {
    println!("found in {} bytes: {}", case.src.len(), difference.0);
    let smallest = shrink::shrink(&mut |case| sides.compare(case).is_err(), case);
    shrink::show(sides, &smallest);
    figures.print(begun.elapsed().as_secs_f64(), 1);
    ExitCode::FAILURE
}

/// Runs until the limits are over, or to the first difference.
fn run(limits: &Limits) -> ExitCode {
    println!("seed {}", limits.seed);
    let begun = Instant::now();
    let mut sides = Sides::new();
    let mut figures = Figures::default();
    let mut generator = Generator::new(limits.seed);
    if let Err((text, difference)) = check_alone(&mut sides, &mut figures) {
        return found(&mut sides, Case::of(text), difference, &figures, begun);
    }
    let mut done = 0;
    while !limits.over(done, begun) {
        let (class, case) = generator.next();
        sides.turn();
        let compared = sides.compare(&case).and_then(|made| {
            if done % 65_536 == 0 {
                sides.all_alike()?;
            }
            Ok(made)
        });
        match compared {
            Ok(made) => {
                let has = made.answer.map(|answer| Has::of(&case.src, answer, &sides.library)).unwrap_or_default();
                figures.count(class, &case.src, made, has);
            }
            Err(difference) => return found(&mut sides, case, difference, &figures, begun),
        }
        done += 1;
    }
    if let Err(difference) = sides.all_alike() {
        println!("difference: cells that no input could reach were written: {}", difference.0);
        return ExitCode::FAILURE;
    }
    figures.print(begun.elapsed().as_secs_f64(), 0);
    ExitCode::SUCCESS
}
