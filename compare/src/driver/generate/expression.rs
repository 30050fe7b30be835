//! Expressions by the grammar.

use super::script::Writer;

impl Writer<'_> {
    pub fn e(&mut self) {
        if self.random.once_in(16) && self.spend() {
            self.put("lambda");
            self.separated(Self::name);
            self.put(":");
            return self.e();
        }
        self.operation();
    }

    /// Operands with operators between; how they group is the reader's to say.
    fn operation(&mut self) {
        const OPERATORS: [&str; 14] = ["or", "and", "==", "!=", "<", "<=", ">", ">=", "+", "-", "*", "//", "/", "%"];
        self.operand();
        while self.random.once_in(3) && self.spend() {
            self.put_one_of(&OPERATORS);
            self.operand();
        }
    }

    fn operand(&mut self) {
        while self.random.once_in(9) {
            self.put_one_of(&["not", "-", "+"]);
        }
        self.alone();
        while self.random.once_in(4) && self.spend() {
            match self.random.below(3) {
                0 => {
                    self.put(".");
                    self.name();
                }
                1 => {
                    self.put("(");
                    self.separated(Self::e);
                    self.put(")");
                }
                _ => {
                    self.put("[");
                    self.e();
                    self.put("]");
                }
            }
        }
    }

    fn alone(&mut self) {
        if !self.spend() {
            return self.name();
        }
        match self.random.below(16) {
            0 => self.enclosed("[", "]", Self::e),
            1 => self.enclosed("{", "}", Self::e),
            2 => self.enclosed("{", "}", |writer| {
                writer.e();
                writer.put(":");
                writer.e();
            }),
            3 => {
                self.put("t");
                self.enclosed("{", "}", Self::e);
            }
            4 => {
                self.put("(");
                self.e();
                self.put(")");
            }
            5 => {
                self.put("(");
                self.e();
                self.put(",");
                self.separated(Self::e);
                self.put(")");
            }
            6 => self.put_one_of(&["())", "{}", "[]", "t{}"]),
            7..=9 => self.literal(),
            10 => {
                self.put("(");
                self.literal();
                self.put(")");
            }
            _ => self.name(),
        }
    }

    fn enclosed(&mut self, opener: &str, closer: &str, member: fn(&mut Self)) {
        self.put(opener);
        self.separated(member);
        self.put(closer);
    }

    pub fn literal(&mut self) {
        #[rustfmt::skip]
        let literals = [
            "0", "1", "42", "9223372036854775807", "1.5", "0.10", "0.25e2", "3.0E-3", "None", "True", "False", "'s'", "\"two words\"", "'\\n\\'\\q'",
            "\"\u{e9}\u{20ac}\"", "''", "'a\nb'",
        ];
        self.put_one_of(&literals);
    }
}
