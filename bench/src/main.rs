//! Times the verified reader beside lower bounds in C, a plain reader in Rust and CPython's parser, over the same sources; the writer beside the reader and a plain
//! writer; and the UTF-8 check alone.
//!
//! `bench FOLDER` writes the sources into FOLDER and prints the table; `bench --pass SIDE SET TIMES` makes passes of
//! one side alone, for a profile, and `bench --pass-writer SIDE SET TIMES` of one of the writer's; `bench --writer` prints the writer's table alone and
//! `bench --written` the bytes of its texts, `bench --utf8` prints the UTF-8 check's table alone and `bench --texts` the names, numbers and bytes of its
//! texts; `bench --sources FOLDER` writes the sources alone; `bench --kiosks FOLDER` writes a folder of scripts for each kiosk.

mod clock;
mod rounds;
mod scripts;
mod sides;
mod texts;
mod utf8;
mod writer;

use sides::{Buffers, Side, PLAIN, SIDES};
use std::collections::BTreeSet;
use std::path::Path;
use std::process::Command;
use writer::WRITERS;

/// Sources that are measured together.
struct Set {
    name: &'static str,
    /// Passes in the time that is left to a short run.
    passes: u32,
    sides: &'static [Side],
    clock: fn() -> i64,
    sources: Vec<Vec<u8>>,
}

impl Set {
    fn bytes(&self) -> usize {
        self.sources.iter().map(Vec::len).sum()
    }
}

fn sets() -> [Set; 4] {
    sets_for(&SIDES)
}

fn sets_for(sides: &'static [Side]) -> [Set; 4] {
    let set = |name, passes, sources| Set { name, passes, sides, clock: clock::thread, sources };
    [
        set("scripts", 150, scripts::scripts()),
        set("1000", 300, (0..64).map(|first| scripts::sized(1_000, first)).collect()),
        set("65536", 300, vec![scripts::sized(65_536, 0)]),
        set("korean", 150, scripts::korean()),
    ]
}

fn main() {
    let arguments: Vec<String> = std::env::args().skip(1).collect();
    let arguments: Vec<&str> = arguments.iter().map(String::as_str).collect();
    match arguments[..] {
        ["--pass", side, set, times] => one_side(side, set, times, &sets().into_iter().chain(texts::sets()).collect::<Vec<_>>()),
        ["--sources", folder] => write_sources(Path::new(folder), &sets()),
        ["--kiosks", folder] => write_kiosks(Path::new(folder)),
        ["--writer"] => writer::table(&sets_for(&WRITERS), &mut [Buffers::new(), Buffers::new()]),
        ["--written"] => writer::print_texts(&sets(), &mut [Buffers::new(), Buffers::new()]),
        ["--pass-writer", side, set, times] => one_side(side, set, times, &sets_for(&WRITERS)),
        ["--utf8"] => utf8::table(&texts::sets(), &mut Buffers::new()),
        ["--texts"] => texts::sets().iter().for_each(|set| println!("{} {} {}", set.name, set.sources.len(), set.bytes())),
        [folder] if !folder.starts_with("--") => table(Path::new(folder)),
        _ => panic!(
            "bench FOLDER, or --writer, --written, --utf8, --texts, --sources FOLDER, --kiosks FOLDER, --pass[-writer] SIDE SET TIMES"
        ),
    }
}

/// Passes of a side, given by its number.
fn one_side(side: &str, set: &str, times: &str, sets: &[Set]) {
    let times: u64 = times.parse().expect("a number of passes");
    let set = sets.iter().find(|one| one.name == set).expect("a set's name");
    let (name, pass) = set.sides[side.parse::<usize>().expect("a side's number")];
    let mut buffers = Buffers::new();
    let best = (0..times).map(|_| time(pass, set, &mut buffers)).min().unwrap_or(0);
    let sources = set.sources.len();
    println!("{name}: {times} passes over {sources} sources, the best {:.1} ns per source", best as f64 / sources as f64);
}

/// One pass, in ns.
fn time(pass: fn(&[Vec<u8>], &mut Buffers), set: &Set, buffers: &mut Buffers) -> i64 {
    let start = (set.clock)();
    pass(&set.sources, buffers);
    (set.clock)() - start
}

fn write_sources(folder: &Path, sets: &[Set]) {
    for set in sets {
        let folder = folder.join(set.name);
        std::fs::create_dir_all(&folder).expect("a folder for the sources");
        for (number, source) in set.sources.iter().enumerate() {
            std::fs::write(folder.join(format!("{number:03}.py")), source).expect("a source written");
        }
    }
}

/// All that is on the kiosks: a folder for each, with its scripts.
fn write_kiosks(folder: &Path) {
    for kiosk in 0..scripts::KIOSKS {
        let folder = folder.join(format!("kiosk_{kiosk:03}"));
        std::fs::create_dir_all(&folder).expect("a folder for a kiosk");
        for (number, source) in scripts::of_kiosk(kiosk).iter().enumerate() {
            std::fs::write(folder.join(format!("script_{number:02}.pyh")), source).expect("a script written");
        }
    }
}

/// What a set took: the best pass of each side, and CPython's, in ns.
struct Row<'a> {
    set: &'a Set,
    sides: Vec<f64>,
    python: f64,
}

fn table(folder: &Path) {
    let sets = sets();
    let mut buffers = [Buffers::new(), Buffers::new()];
    check_every_token(&mut buffers);
    sets.iter().for_each(|set| check(set, &mut buffers));
    write_sources(folder, &sets);
    let python = cpython(folder);
    let row = |set| Row { set, sides: times(set, &mut buffers[0]), python: of_set(set, &python) };
    let rows: Vec<Row> = sets.iter().map(row).collect();
    rows.iter().for_each(print_set);
    writer::table(&sets_for(&WRITERS), &mut buffers);
    utf8::table(&texts::sets(), &mut buffers[0]);
    print_goals(&rows);
}

/// Checks the source that has every token, by their codes from 1 to 49.
fn check_every_token(buffers: &mut [Buffers; 2]) {
    let [_, _, tokens, ..] = alike(&scripts::every_token(), buffers);
    let codes: BTreeSet<u32> = buffers[0].tokens.chunks(3).take(tokens as usize + 1).map(|token| token[0]).collect();
    assert!(codes.into_iter().eq(1..=49), "a token is missing");
}

/// Checks each source of a set, and prints what the set is made of.
fn check(set: &Set, buffers: &mut [Buffers; 2]) {
    let mut used = [0usize; 3];
    for src in &set.sources {
        let [_, _, tokens, nodes, text, _] = alike(src, buffers);
        used = [used[0] + tokens as usize, used[1] + nodes as usize, used[2] + text as usize];
    }
    let per = |count: usize| count as f64 / set.bytes() as f64;
    println!(
        "{}: {} sources of {} bytes; per byte {:.3} tokens, {:.3} nodes, {:.3} bytes of text",
        set.name,
        set.sources.len(),
        set.bytes() / set.sources.len(),
        per(used[0]),
        per(used[1]),
        per(used[2])
    );
}

/// A source must be accepted, and alike in both readers and in the bounds; else a time would mean nothing. The answer.
fn alike(src: &[u8], [library, other]: &mut [Buffers; 2]) -> [u32; 6] {
    let answer = library.call(src);
    assert_eq!(answer, other.read(src), "the readers answer alike");
    assert_eq!(answer[0], 0, "refused at {}: {}", answer[1], String::from_utf8_lossy(src));
    let (tokens, text, tree) = plain::areas(src.len());
    assert!(library.tokens[..tokens] == other.tokens[..tokens] && library.text[..text] == other.text[..text]);
    assert!(library.tree[..tree] == other.tree[..tree]);
    check_bounds(src, answer[2] as usize, library, other);
    answer
}

/// One bound leaves so many tokens, the reader's, and zeros; the other zeros alone; neither writes behind the areas.
fn check_bounds(src: &[u8], tokens: usize, library: &Buffers, bound: &mut Buffers) {
    let words = 3 * (tokens + 1);
    bound.paint(src.len());
    let found = bound.scan(src);
    let differs = (0..words).find(|&word| library.tokens[word] != bound.tokens[word]);
    assert_eq!(
        (found, differs),
        (tokens, None),
        "tokens, and the word where the bound's differ: {}",
        String::from_utf8_lossy(src)
    );
    assert!(bound.zeroed(src.len(), words), "zeros behind the bound's tokens");
    bound.paint(src.len());
    bound.zero(src);
    assert!(bound.zeroed(src.len(), 0), "zeros, where there is nothing else");
}

/// The best pass of each side, in ns; the sides take turns, so that load falls on all.
fn times(set: &Set, buffers: &mut Buffers) -> Vec<f64> {
    let mut best = vec![f64::INFINITY; set.sides.len()];
    for _ in 0..set.passes {
        for (best, (_, pass)) in best.iter_mut().zip(set.sides) {
            *best = best.min(time(*pass, set, buffers) as f64);
        }
    }
    best
}

/// CPython's best pass over each set, in ns.
fn cpython(folder: &Path) -> Vec<(String, f64)> {
    let script = concat!(env!("CARGO_MANIFEST_DIR"), "/cpython.py");
    let out = Command::new("python3").arg(script).arg(folder).arg("60").output().expect("python3 runs");
    assert!(out.status.success(), "{}", String::from_utf8_lossy(&out.stderr));
    let lines = String::from_utf8(out.stdout).expect("text");
    let pair = |line: &str| line.split_once(' ').map(|(name, ns)| (name.to_string(), ns.parse().expect("ns")));
    lines.lines().filter_map(pair).collect()
}

/// CPython's best pass over a set.
fn of_set(set: &Set, python: &[(String, f64)]) -> f64 {
    python.iter().find(|(name, _)| name == set.name).expect("CPython timed it").1
}

fn print_set(row: &Row) {
    let (sources, bytes) = (row.set.sources.len() as f64, row.set.bytes() as f64);
    println!("\n| {} | ns per source | MB/s | times the reader |\n|---|---|---|---|", row.set.name);
    let sides = SIDES.iter().map(|side| side.0).zip(row.sides.iter().copied());
    for (name, time) in sides.chain([("CPython, ast only", row.python)]) {
        println!("| {name} | {:.0} | {:.1} | {:.2} |", time / sources, bytes / time * 1000.0, time / row.sides[0]);
    }
}

fn print_goals(rows: &[Row]) {
    let [scripts, small, large, _] = rows else { panic!("four sets") };
    let per_byte = |row: &Row| row.sides[0] / row.set.bytes() as f64;
    let met = |yes: bool| if yes { "met" } else { "missed" };
    println!();
    for (row, least) in [(scripts, 33.0), (small, 28.0), (large, 28.0)] {
        let python = row.python / row.sides[0];
        println!("{least} x CPython, {}: {python:.1}, {}", row.set.name, met(python >= least));
    }
    for side in PLAIN {
        let ratio = scripts.sides[0] / scripts.sides[side];
        println!("within 1.5 x of {} on the scripts: {ratio:.2}, {}", SIDES[side].0, met(ratio <= 1.5));
    }
    let even = per_byte(small) / per_byte(large);
    println!("bytes per second at 65,536 over those at 1,000, at least 0.8: {even:.2}, {}", met(even >= 0.8));
}
