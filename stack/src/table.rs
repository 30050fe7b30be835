//! Starts the measuring, holds what it says against what must be, and prints the table.

use crate::deep::HALF;
use crate::painted::{PAINTS, STACK};
use crate::promise::promised;
use crate::way::{GIVEN_BACK, WRITTEN};
use std::io::{BufRead, BufReader};
use std::os::unix::process::ExitStatusExt;
use std::process::{Command, ExitCode, ExitStatus, Stdio};

/// What was measured of a source.
struct Measured {
    /// Its number, from 1 on.
    number: usize,
    /// Whether the call writes a text.
    writes: bool,
    sort: String,
    name: String,
    length: usize,
    levels: usize,
    expected: String,
    answers: Vec<String>,
    /// The deeper of its calls, in bytes.
    taken: usize,
}

impl Measured {
    /// From the line before the calls, and a line for each.
    fn of(number: usize, lines: &[String]) -> Measured {
        let words: Vec<&str> = lines[0].split('\t').collect();
        let calls: Vec<(&str, &str)> = lines[1..].iter().filter_map(|line| line.split_once(' ')).collect();
        let writes = words[0] == WRITTEN.name || words[0] == GIVEN_BACK.name;
        Measured {
            number,
            writes,
            sort: if writes { format!("{}, {}", words[1], words[0]) } else { words[1].to_string() },
            name: words[2].to_string(),
            length: words[3].parse().expect("a length"),
            levels: words[4].parse().expect("levels"),
            expected: words[5].to_string(),
            answers: calls.iter().map(|call| call.1.to_string()).collect(),
            taken: calls.iter().map(|call| call.0.parse().expect("bytes")).max().unwrap_or(0),
        }
    }

    fn whole(&self) -> bool {
        self.answers.len() == PAINTS.len()
    }

    /// The source is not refused by the reader.
    fn accepted(&self) -> bool {
        !self.expected.starts_with(|digit: char| digit.is_ascii_digit() && digit != '0')
    }

    /// What is wrong with it, if anything is.
    fn fault(&self, promises: [usize; 2]) -> Option<String> {
        let Measured { number, sort, name, .. } = self;
        let promise = promises[self.writes as usize];
        let what = if !self.whole() {
            format!("takes more than the {} bytes of the stack", grouped(STACK))
        } else if let Some(answer) = self.answers.iter().find(|answer| **answer != self.expected) {
            format!("answered {answer}, which must be {}", self.expected)
        } else if self.taken > promise {
            format!("takes {} bytes, promised are {}", grouped(self.taken), grouped(promise))
        } else {
            return None;
        };
        Some(format!("source {number}, {sort}, {name}: {what}"))
    }
}

/// How many faults are shown.
const SHOWN: usize = 5;

/// The signal of a call that goes below its stack.
const SEGMENT: i32 = 11;

pub fn check() -> ExitCode {
    let (all, ended) = measured();
    let promises = promised();
    print_table(&all);
    println!("\nIn a source's name, `$` is where the next level stands.");
    let mut faults: Vec<String> = all.iter().filter_map(|one| one.fault(promises.map(|[header, _]| header))).collect();
    let passed = all.len() - faults.len();
    for (writes, [promise, binding]) in [false, true].into_iter().zip(promises) {
        print_deepest(&all, writes, promise);
        if binding != promise {
            faults.push(format!("the Rust crate promises {} bytes", grouped(binding)));
        }
    }
    let overflow = ended.signal() == Some(SEGMENT) && all.last().is_some_and(|one| !one.whole());
    if !ended.success() && !overflow {
        faults.push(format!("the measuring ended with {ended}"));
    }
    faults.iter().take(SHOWN).for_each(|fault| println!("FAILED: {fault}"));
    println!("{passed} passed, {} failed", faults.len());
    if faults.is_empty() {
        ExitCode::SUCCESS
    } else {
        ExitCode::FAILURE
    }
}

fn print_deepest(all: &[Measured], writes: bool, promise: usize) {
    let what = if writes { "that writes" } else { "that reads or checks" };
    if let Some(deepest) = all.iter().filter(|one| one.whole() && one.writes == writes).max_by_key(|one| one.taken) {
        let Measured { number, sort, name, taken, .. } = deepest;
        println!("the deepest call {what}: {} bytes, source {number}, {sort}, {name}", grouped(*taken));
    }
    println!("promised: {} bytes", grouped(promise));
}

/// All sources that were begun, and how the measuring ended.
fn measured() -> (Vec<Measured>, ExitStatus) {
    let program = std::env::current_exe().expect("this program's place");
    let mut child = Command::new(program).arg("--measure").stdout(Stdio::piped()).spawn().expect("the measuring starts");
    let lines = BufReader::new(child.stdout.take().expect("its output")).lines();
    let lines: Vec<String> = lines.collect::<Result<_, _>>().expect("lines");
    let all = lines.chunks(1 + PAINTS.len()).enumerate().map(|(at, lines)| Measured::of(at + 1, lines)).collect();
    (all, child.wait().expect("the measuring ends"))
}

fn print_table(all: &[Measured]) {
    println!("| sort | sources | longest | accepted | refused | deepest call, bytes | for each level |\n|---|---:|---:|---:|---:|---:|---:|");
    let mut sorts: Vec<&str> = Vec::new();
    for one in all {
        if !sorts.contains(&one.sort.as_str()) {
            sorts.push(&one.sort);
        }
    }
    for sort in sorts {
        let rows: Vec<&Measured> = all.iter().filter(|one| one.sort == sort).collect();
        let accepted = rows.iter().filter(|one| one.accepted()).count();
        let (longest, deepest) = (rows.iter().map(|one| one.length).max(), rows.iter().map(|one| one.taken).max());
        println!(
            "| {sort} | {} | {} | {} | {} | {} | {} |",
            grouped(rows.len()),
            grouped(longest.unwrap_or(0)),
            grouped(accepted),
            grouped(rows.len() - accepted),
            grouped(deepest.unwrap_or(0)),
            level(&rows)
        );
    }
}

/// The most that a level of this sort takes, by two depths of one shape.
fn level(rows: &[&Measured]) -> String {
    let two = rows.windows(2).filter(|two| two[0].levels == HALF && two[1].levels == 2 * HALF);
    two.map(|two| two[1].taken.saturating_sub(two[0].taken) / HALF).max().map_or("–".to_string(), grouped)
}

/// With a comma between thousands.
fn grouped(number: usize) -> String {
    let digits = number.to_string();
    let mut out = String::new();
    for (at, digit) in digits.chars().enumerate() {
        if at > 0 && (digits.len() - at) % 3 == 0 {
            out.push(',');
        }
        out.push(digit);
    }
    out
}
