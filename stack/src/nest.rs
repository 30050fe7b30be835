//! Texts put into each other.
//!
//! A shape is a text with a hole, `$`, for what lies one level deeper: a Block, an E in brackets, or the E of a statement. `|` stands where that
//! level is opened first, unless it is the hole. What fills a hole on a line of its own is indented as the hole is.

/// At most so many E and Block are open at once.
pub const DEEPEST: usize = 64;

/// Shapes in each other, and a leaf in the innermost hole.
pub struct Nested {
    pub text: String,
    /// Where the leaf begins.
    pub leaf: usize,
    /// Where the level behind the last allowed one is opened, if it is.
    past: Option<usize>,
}

impl Nested {
    /// Number and place, where nothing but the depth speaks against it.
    pub fn answer(&self) -> (u32, u32) {
        self.past.map_or((0, 0), |place| (13, place as u32))
    }
}

/// The outermost shape first.
pub fn nest(chain: &[&str], leaf: &str) -> Nested {
    let (mut text, mut indent, mut behind) = (String::new(), String::new(), Vec::new());
    let mut past = None;
    for (level, shape) in chain.iter().enumerate() {
        let (before, after) = shape.split_once('$').expect("a shape has a hole");
        let (first, second) = before.split_once('|').unwrap_or((before, ""));
        put(&mut text, first, &indent);
        if level == DEEPEST {
            past = Some(text.len());
        }
        put(&mut text, second, &indent);
        behind.push((after, indent.len()));
        let line = before.rsplit('\n').next().unwrap_or("");
        indent.extend(line.chars().take_while(|c| *c == ' '));
    }
    let at = text.len();
    put(&mut text, leaf, &indent);
    for (after, width) in behind.iter().rev() {
        put(&mut text, after, &indent[..*width]);
    }
    text.push('\n');
    Nested { text, leaf: at, past }
}

/// Each line but the first is indented.
fn put(text: &mut String, part: &str, indent: &str) {
    for (number, line) in part.split('\n').enumerate() {
        if number > 0 {
            text.push('\n');
            text.push_str(indent);
        }
        text.push_str(line);
    }
}

/// The text with a comment behind it, up to this many bytes.
pub fn padded(mut text: String, size: usize) -> String {
    text.extend(std::iter::repeat_n('#', size.saturating_sub(text.len())));
    text
}

/// A shape or leaf as a name shows it.
pub fn shown(text: &str) -> String {
    let text = text.replace('|', "").replace('\n', "\\n").replace('\t', "\\t").replace('\r', "\\r");
    match text.char_indices().nth(60) {
        Some((end, _)) => format!("`{}`..", &text[..end]),
        None => format!("`{text}`"),
    }
}
