//! The words of a tree: kinds, fields, printing.

/// A list that is empty, an Else that isn't there, a node behind which none follows.
pub const NONE: u32 = 4294967295;

/// A record: kind, start, end, next, p, q, r, s.
pub type Record = [u32; 8];

pub const NEXT: usize = 3;

/// Words of the header before the first record.
pub const HEADER: usize = 8;

/// The header's version: 2 since a Float has its token's start and end in r and s (02, change 3).
pub const VERSION: u32 = 2;

pub mod kind {
    pub const PROGRAM: u32 = 1;
    pub const IF: u32 = 2;
    pub const WHILE: u32 = 3;
    pub const FOR: u32 = 4;
    pub const DEF: u32 = 5;
    pub const RETURN: u32 = 6;
    pub const ASSIGN: u32 = 7;
    pub const CLASS: u32 = 8;
    pub const BREAK: u32 = 9;
    pub const CONTINUE: u32 = 10;
    pub const PASS: u32 = 11;
    pub const EXPR: u32 = 12;
    pub const METHOD: u32 = 13;
    pub const ELIF: u32 = 14;
    pub const ELSE: u32 = 15;
    pub const NAME: u32 = 16;
    pub const PAIR: u32 = 17;
    pub const BOOL: u32 = 18;
    pub const INT: u32 = 19;
    pub const STRING: u32 = 20;
    pub const FLOAT: u32 = 21;
    pub const NONE: u32 = 22;
    pub const VARIABLE: u32 = 23;
    pub const UNARY: u32 = 24;
    pub const BINARY: u32 = 25;
    pub const CALL: u32 = 26;
    pub const ATTRIBUTE: u32 = 27;
    pub const LIST: u32 = 28;
    pub const DICT: u32 = 29;
    pub const TUPLE: u32 = 30;
    pub const SET: u32 = 31;
    pub const TREE_SET: u32 = 32;
    pub const INDEX: u32 = 33;
    pub const LAMBDA: u32 = 34;
}

/// Which of p, q, r, s hold a node number.
fn node_fields(kind: u32) -> &'static [usize] {
    const P: usize = 4;
    const Q: usize = 5;
    const R: usize = 6;
    const S: usize = 7;
    match kind {
        kind::IF => &[P, Q, R, S],
        kind::FOR | kind::DEF | kind::METHOD => &[R, S],
        kind::BINARY => &[Q, R],
        kind::CLASS => &[R],
        kind::UNARY => &[Q],
        kind::WHILE | kind::ASSIGN | kind::ELIF | kind::PAIR | kind::CALL | kind::INDEX | kind::LAMBDA => &[P, Q],
        kind::PROGRAM | kind::RETURN | kind::EXPR | kind::ELSE | kind::ATTRIBUTE => &[P],
        kind::LIST | kind::DICT | kind::TUPLE | kind::SET | kind::TREE_SET => &[P],
        _ => &[],
    }
}

/// The program's output for a tree: the header, then index and record per node, none as `-` in a node number's field.
pub fn print_tree(tree: &[u32]) -> String {
    let line = |words: &[String]| words.join(" ") + "\n";
    let mut out = line(&tree[..HEADER].iter().map(u32::to_string).collect::<Vec<_>>());
    for (index, record) in tree[HEADER..].chunks_exact(8).take(tree[1] as usize).enumerate() {
        let fields = node_fields(record[0]);
        let show = |(field, word): (usize, &u32)| match *word {
            NONE if field == NEXT || fields.contains(&field) => "-".to_string(),
            word => word.to_string(),
        };
        let words = std::iter::once(index.to_string()).chain(record.iter().enumerate().map(show));
        out += &line(&words.collect::<Vec<_>>());
    }
    out
}
