//! Scripts by the grammar.

use super::wide;
use crate::random::Random;

/// A script that is accepted, but for the rare one that nests too deep or ends in an open line.
pub fn script(random: &mut Random) -> Vec<u8> {
    of_size(random, 6, 120)
}

/// A script of a line or two.
pub fn short(random: &mut Random) -> Vec<u8> {
    of_size(random, 2, 24)
}

fn of_size(random: &mut Random, most_lines: usize, most_budget: usize) -> Vec<u8> {
    let lines = random.between(1, most_lines);
    let wide = random.once_in(8);
    let mut writer = Writer { budget: random.between(4, most_budget), random, out: Vec::new(), level: 0, wide };
    for _ in 0..lines {
        writer.blank_lines();
        writer.line();
    }
    if writer.random.once_in(6) && writer.out.last() == Some(&b'\n') && !ends_indented(&writer.out) {
        writer.out.pop();
    }
    writer.out
}

/// Whether the last line is indented: its Newline is needed.
fn ends_indented(out: &[u8]) -> bool {
    let line = out[..out.len() - 1].iter().rposition(|&b| b == b'\n').map_or(0, |at| at + 1);
    out[line] == b' ' || out[line] == b'\n'
}

pub struct Writer<'a> {
    pub random: &'a mut Random,
    out: Vec<u8>,
    budget: usize,
    level: usize,
    /// Whether half of the names have characters beyond ASCII.
    wide: bool,
}

impl Writer<'_> {
    pub fn spend(&mut self) -> bool {
        self.budget = self.budget.saturating_sub(1);
        self.budget > 0
    }

    /// Writes a token, with a blank where it would else be one with what stands before, or sometimes.
    pub fn put(&mut self, token: &str) {
        let word = |b: &u8| b.is_ascii_alphanumeric() || *b == b'_' || !b.is_ascii();
        let first = token.as_bytes()[0];
        let joins = match self.out.last() {
            Some(last) if word(last) => word(&first),
            Some(b'+' | b'-') => first.is_ascii_digit(),
            Some(b'<' | b'>' | b'=' | b'!') => first == b'=',
            Some(b'/') => first == b'/',
            Some(b'.') => first.is_ascii_digit(),
            _ => false,
        };
        let number = matches!(self.out.last(), Some(b'0'..=b'9')) && first == b'.';
        let fresh = matches!(self.out.last(), None | Some(b'\n' | b' '));
        if joins || number || (!fresh && self.random.once_in(3)) {
            self.out.extend(self.random.pick(&[" ", " ", " ", "  ", "\t", " \r"]).bytes());
        }
        self.out.extend(token.bytes());
    }

    pub fn put_one_of(&mut self, tokens: &[&str]) {
        let token = self.random.pick(tokens);
        self.put(token);
    }

    pub fn name(&mut self) {
        if self.wide && self.random.once_in(2) {
            let name = wide::name(self.random);
            return self.put(&name);
        }
        self.put_one_of(&["a", "b", "c", "t", "node", "_d", "E", "is", "x1"]);
    }

    fn blank_lines(&mut self) {
        while self.random.once_in(8) {
            self.out.extend(self.random.pick(&["\n", "  \n", "# note\n", " # note\n", "\r\n"]).bytes());
        }
    }

    fn indent(&mut self) {
        self.out.extend(vec![b' '; 2 * self.level]);
    }

    /// A line with its end, at the level.
    fn line(&mut self) {
        self.indent();
        if !self.spend() || self.level > 6 {
            return self.simples();
        }
        match self.random.below(12) {
            0 => self.class(),
            1 => self.function(),
            2 | 3 => self.branches(),
            4 => {
                self.put("while");
                self.e();
                self.block();
            }
            5 => {
                self.put("for");
                self.name();
                self.put("in");
                self.e();
                self.block();
            }
            _ => self.simples(),
        }
    }

    fn simples(&mut self) {
        self.simple();
        while self.random.once_in(6) {
            self.put(";");
            self.simple();
        }
        if self.random.once_in(12) {
            self.put(";");
        }
        if self.random.once_in(10) {
            self.out.extend(b" # why");
        }
        self.out.push(b'\n');
    }

    fn simple(&mut self) {
        match self.random.below(10) {
            0 => self.put("break"),
            1 => self.put("continue"),
            2 => self.put("pass"),
            3 => {
                self.put("return");
                self.t();
            }
            4 | 5 => {
                if self.random.once_in(8) {
                    self.literal();
                } else {
                    self.t();
                }
                self.put("=");
                self.t();
            }
            _ => self.t(),
        }
    }

    fn t(&mut self) {
        if self.random.once_in(6) {
            return self.one_and_a_comma();
        }
        self.e();
        while self.random.once_in(8) {
            self.put(",");
            self.e();
        }
        if self.random.once_in(12) {
            self.put(",");
        }
    }

    /// One E with a trailing comma, alone and beside parentheses, which make a Tuple of one as well.
    fn one_and_a_comma(&mut self) {
        const FORMS: [&str; 7] = ["E,", "E,", "(E),", "(E,),", "((E,),)", "((E,)),", "((E),),"];
        for mark in self.random.pick(&FORMS).split_inclusive(|_| true) {
            match mark {
                "E" => self.e(),
                _ => self.put(mark),
            }
        }
    }

    /// Colon and body, on this line or on its own lines, where blank lines may stand.
    fn block(&mut self) {
        self.put(":");
        if self.random.once_in(3) {
            return self.simples();
        }
        self.out.push(b'\n');
        self.blank_lines();
        self.level += 1;
        for number in 0..self.random.between(1, 3) {
            if number > 0 {
                self.blank_lines();
            }
            self.line();
        }
        self.level -= 1;
    }

    fn branches(&mut self) {
        self.put("if");
        self.e();
        self.block();
        while self.random.once_in(4) {
            self.indent();
            self.put("elif");
            self.e();
            self.block();
        }
        if self.random.once_in(3) {
            self.indent();
            self.put("else");
            self.block();
        }
    }

    fn function(&mut self) {
        self.put("def");
        self.name();
        self.put("(");
        self.separated(Self::name);
        self.put(")");
        self.block();
    }

    fn class(&mut self) {
        self.put("class");
        self.name();
        self.put(":");
        self.out.push(b'\n');
        self.blank_lines();
        self.level += 1;
        for _ in 0..self.random.between(1, 3) {
            self.indent();
            self.function();
        }
        self.level -= 1;
    }

    /// A list: none or more, with commas, one trailing.
    pub fn separated(&mut self, member: fn(&mut Self)) {
        let count = self.random.below(4);
        for number in 0..count {
            if number > 0 {
                self.put(",");
            }
            member(self);
        }
        if count > 0 && self.random.once_in(5) {
            self.put(",");
        }
    }
}
