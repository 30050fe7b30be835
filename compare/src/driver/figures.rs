//! What was compared, in numbers.

use crate::generate::CLASSES;
use crate::has::Has;
use crate::sides::{Made, Tried, NEVER};
use plain::utf8::Checked;

#[derive(Clone, Copy, Default)]
struct Row {
    inputs: u64,
    bytes: u64,
    /// Those with no character beyond ASCII.
    ascii: u64,
    numbers: [u64; 17],
    /// Those accepted that have a name with a character beyond ASCII.
    named: u64,
    /// Those accepted that have a Float in parentheses, and those that have one as a target.
    grouped: u64,
    targets: u64,
    /// Those accepted that have a Tuple of one without parentheses, and by its place.
    lone: u64,
    lone_in: [u64; 4],
    /// Those refused by 9 at a character beyond ASCII.
    stray: u64,
    unanswered: u64,
    alike: u64,
    spent: u64,
}

/// The table's columns: name, width, and what is counted.
type Column = (&'static str, usize, fn(&Row) -> u64);

const COLUMNS: [Column; 15] = [
    ("inputs", 10, |row| row.inputs),
    ("bytes", 12, |row| row.bytes),
    ("ASCII", 10, |row| row.ascii),
    ("accepted", 10, |row| row.numbers[0]),
    ("named", 10, |row| row.named),
    ("(Float)", 9, |row| row.grouped),
    ("Float=", 9, |row| row.targets),
    ("E,", 9, |row| row.lone),
    ("1-11", 10, |row| row.numbers[1..=11].iter().sum()),
    ("9 wide", 10, |row| row.stray),
    ("13", 10, |row| row.numbers[13]),
    ("14", 9, |row| row.numbers[14]),
    ("15", 9, |row| row.numbers[15]),
    ("16", 9, |row| row.numbers[16]),
    ("-", 7, |row| row.unanswered),
];

/// Texts on which the checks of UTF-8 were compared.
#[derive(Default)]
struct Checks {
    texts: u64,
    /// Those put to nothing else.
    alone: u64,
    rounds: u64,
    bad: u64,
    unanswered: u64,
}

impl Checks {
    fn count(&mut self, checked: Option<Checked>) {
        self.texts += 1;
        match checked {
            Some(Checked { bad, rounds }) => {
                self.rounds += rounds as u64;
                self.bad += u64::from(bad.is_some());
            }
            None => self.unanswered += 1,
        }
    }

    fn print(&self) {
        let Checks { texts, alone, rounds, bad, unanswered } = self;
        println!("UTF-8 check beside the plain one: {texts} texts, {alone} of them put to nothing else; {rounds} rounds, {bad} not UTF-8");
        println!("fewer than two words for the check's answer: {unanswered}");
    }
}

#[derive(Default)]
pub struct Figures {
    rows: [Row; CLASSES.len()],
    checks: Checks,
}

impl Figures {
    pub fn check_alone(&mut self, checked: Option<Checked>) {
        self.checks.count(checked);
        self.checks.alone += 1;
    }

    pub fn count(&mut self, class: usize, src: &[u8], made: Made, has: Has) {
        let Made { answer, checked, tried } = made;
        self.checks.count(checked);
        let row = &mut self.rows[class];
        row.inputs += 1;
        row.bytes += src.len() as u64;
        row.ascii += u64::from(src.is_ascii());
        match answer {
            Some(answer) => row.numbers[answer.number as usize] += 1,
            None => row.unanswered += 1,
        }
        row.named += u64::from(has.wide_name);
        row.grouped += u64::from(has.float_in_parentheses);
        row.targets += u64::from(has.float_target);
        row.lone += u64::from(has.lone_tuple.contains(&true));
        row.lone_in.iter_mut().zip(has.lone_tuple).for_each(|(count, has)| *count += u64::from(has));
        row.stray += u64::from(answer.is_some_and(|answer| answer.number == 9 && !src[answer.place as usize].is_ascii()));
        row.alike += u64::from(tried == Tried::Alike);
        row.spent += u64::from(tried == Tried::Spent);
    }

    fn total(&self) -> Row {
        let mut total = Row::default();
        for row in &self.rows {
            total.inputs += row.inputs;
            total.bytes += row.bytes;
            total.ascii += row.ascii;
            total.named += row.named;
            total.grouped += row.grouped;
            total.targets += row.targets;
            total.lone += row.lone;
            total.stray += row.stray;
            total.unanswered += row.unanswered;
            total.alike += row.alike;
            total.spent += row.spent;
            for (sum, number) in total.numbers.iter_mut().zip(row.numbers).chain(total.lone_in.iter_mut().zip(row.lone_in)) {
                *sum += number;
            }
        }
        total
    }

    pub fn print(&self, seconds: f64, differences: u32) {
        let total = self.total();
        println!("{:<12} {}", "class", COLUMNS.map(|(name, width, _)| format!("{name:>width$}")).join(" "));
        for (name, row) in CLASSES.iter().map(|class| class.name).zip(&self.rows).chain([("all", &total)]) {
            println!("{name:<12} {}", COLUMNS.map(|(_, width, count)| format!("{:>width$}", count(row))).join(" "));
        }
        println!("ASCII only: {}", total.ascii);
        println!("accepted {}, with a name beyond ASCII: {}", total.numbers[0], total.named);
        println!("accepted with a Float in parentheses: {}, as a target: {}", total.grouped, total.targets);
        let [returned, target, value, alone] = total.lone_in;
        println!("accepted with one E and a trailing comma: {}", total.lone);
        println!("  in return {returned}, as a target {target}, as a value {value}, as an expression {alone}");
        println!("refused by 9 at a character beyond ASCII: {}", total.stray);
        for (number, count) in total.numbers.iter().enumerate().filter(|&(number, _)| number != 0 && number != NEVER as usize) {
            println!("refused by {number:>2}: {count}");
        }
        println!("fewer than six words for the answer: {}", total.unanswered);
        println!("ordered trial beside the descent: {} alike, {} set aside for going back too often", total.alike, total.spent);
        self.checks.print();
        println!("{} inputs, {} bytes, {seconds:.0} seconds, differences: {differences}", total.inputs, total.bytes);
    }
}
