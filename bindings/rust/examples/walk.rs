//! Reads a script and walks its tree.
//!
//!     walk [--list] [FILE]        (standard input where no file is named)
//!
//! It prints a line for each node from the root down: its number, kind and span, and the name or value that it has. A node that is held twice, as b in
//! a<b<c, comes once. With --list it prints what the program `tarbucket` prints, which reads up to 1,023 bytes. examples/c/walk.c does the same.
use std::io::{self, Read, Write};
use tarbucket::{listing, Error, Node, Reader, Shape, LONGEST};

/// Spaces in front of a line stop at this depth.
const DEEPEST: usize = 32;

fn main() -> io::Result<()> {
    let mut list = false;
    let mut file = None;
    for word in std::env::args().skip(1) {
        match word.as_str() {
            "--list" => list = true,
            _ => file = Some(word),
        }
    }
    let most = if list { 1023 } else { LONGEST };
    let mut src = Vec::new();
    let input: Box<dyn Read> = match file {
        Some(name) => Box::new(std::fs::File::open(name)?),
        None => Box::new(io::stdin()),
    };
    input.take(most as u64 + 1).read_to_end(&mut src)?;

    let mut reader = Reader::new();
    let read = if src.len() > most { Err(Error::TooLong) } else { reader.read(&src) };
    let mut out = io::BufWriter::new(io::stdout().lock());
    match &read {
        Ok(tree) if !list => {
            for (depth, node) in tree.walk() {
                write!(out, "{:1$}", "", 2 * depth.min(DEEPEST))?;
                let span = node.span();
                write!(out, "{} {} {} {}", node.number(), node.kind().name(), span.start, span.end)?;
                value(node, &mut out)?;
                writeln!(out)?;
            }
        }
        _ => out.write_all(listing(&read).as_bytes())?,
    }
    out.flush()
}

/// The name, value or operator of a node that has one, behind a space; of a Float the 64 bits of its value, and as it is written.
fn value(node: Node, out: &mut impl Write) -> io::Result<()> {
    match node.shape() {
        Shape::For { name, .. }
        | Shape::Def { name, .. }
        | Shape::Method { name, .. }
        | Shape::Class { name, .. }
        | Shape::Name { name }
        | Shape::Variable { name }
        | Shape::Attribute { name, .. } => put(name, out),
        Shape::Bool(b) => write!(out, " {}", b as u32),
        Shape::Int(n) => write!(out, " {n}"),
        Shape::Float(x) => {
            write!(out, " {:016x}", x.to_bits())?;
            put(node.spelling().expect("a Float has one"), out)
        }
        Shape::String(bytes) => {
            out.write_all(b" ")?;
            bytes.iter().try_for_each(|b| write!(out, "{b:02x}"))
        }
        Shape::Unary { operator, .. } => write!(out, " {}", operator.symbol()),
        Shape::Binary { operator, .. } => write!(out, " {}", operator.symbol()),
        _ => Ok(()),
    }
}

/// A space, and these bytes.
fn put(bytes: &[u8], out: &mut impl Write) -> io::Result<()> {
    out.write_all(b" ")?;
    out.write_all(bytes)
}
