//! The words behind a command: options and names.
use crate::names::quoted;
use std::ffi::{OsStr, OsString};

/// A command, as its own file has it.
pub struct Command {
    pub name: &'static str,
    /// What it does, in half a line.
    pub summary: &'static str,
    pub usage: &'static str,
    /// What its help says before the options, of its own options, and behind them.
    pub about: &'static str,
    pub listed: &'static str,
    pub notes: &'static str,
    pub options: &'static [Choice],
    /// Does it, and gives the status; or says why the words can't be obeyed.
    pub run: fn(&Wanted) -> Result<u8, String>,
}

/// An option that takes one of some values; the first is the one where the option is not given. One that takes none is given or not.
pub struct Choice {
    pub name: &'static str,
    pub values: &'static [&'static str],
}

/// The options that every command has, and `pyh` itself.
pub const BOTH: [&str; 4] = ["--help", "--version", "-h", "-V"];

/// What every help says of them, and of how it ends. No `\` stands before it: that would take the blanks too.
pub const LISTED: &str = "  -h, --help       prints this help
  -V, --version    prints the version
  --               ends the options: all that follows is a name
";

/// What the help of each command says of places.
pub const PLACES: &str = "\
Lines and columns count from 1. A column counts characters (code points), not
bytes and not columns of a terminal: é, 한 and 🛗 are one each, and an accent
that is put on the letter before it is one more. The caret goes by the columns
of a terminal, two for 한 and none for such an accent. Where a terminal turns
Arabic or Hebrew text around, the caret stands as in the script's own order.
";

pub const STATUS: &str = "\
exit status, the highest that applies: 0 all accepted, 1 a script is refused,
2 something can't be read or written, or the command line is wrong
";

pub enum Asked<'a> {
    Help,
    Version,
    Work(Wanted<'a>),
}

/// What a command is to do.
pub struct Wanted<'a> {
    options: &'static [Choice],
    chosen: Vec<(&'static str, &'static str)>,
    pub names: Vec<&'a OsStr>,
}

impl Wanted<'_> {
    /// The value of an option of the command: the last that was given.
    pub fn value(&self, name: &str) -> &'static str {
        let given = self.chosen.iter().rev().find(|c| c.0 == name).map(|c| c.1);
        let option = self.options.iter().find(|o| o.name == name).expect("an option of the command");
        given.unwrap_or(option.values[0])
    }

    /// Whether an option that takes no value was given.
    pub fn has(&self, name: &str) -> bool {
        self.chosen.iter().any(|c| c.0 == name)
    }
}

/// Options may stand before names and behind them; `--` ends them, and `-` is a name.
pub fn parse<'a>(words: &'a [OsString], options: &'static [Choice]) -> Result<Asked<'a>, String> {
    let mut wanted = Wanted { options, chosen: Vec::new(), names: Vec::new() };
    let mut rest = words.iter();
    while let Some(word) = rest.next() {
        let bytes = word.as_encoded_bytes();
        if bytes == b"--" {
            wanted.names.extend(rest.by_ref().map(|w| w.as_os_str()));
        } else if bytes == b"-" || !bytes.starts_with(b"-") {
            wanted.names.push(word);
        } else if matches!(bytes, b"-h" | b"--help") {
            return Ok(Asked::Help);
        } else if matches!(bytes, b"-V" | b"--version") {
            return Ok(Asked::Version);
        } else {
            let (option, value) = option(word, options)?;
            let value = value.or_else(|| if option.values.is_empty() { None } else { rest.next().cloned() });
            wanted.chosen.push((option.name, chosen(option, value)?));
        }
    }
    Ok(Asked::Work(wanted))
}

/// A word's name, and the value behind its `=`, if one is there.
pub fn parted(word: &OsStr) -> (&OsStr, Option<OsString>) {
    use std::os::unix::ffi::OsStrExt;
    let bytes = word.as_bytes();
    match bytes.iter().position(|&b| b == b'=') {
        Some(i) => (OsStr::from_bytes(&bytes[..i]), Some(OsStr::from_bytes(&bytes[i + 1..]).to_os_string())),
        None => (word, None),
    }
}

/// Why there is no such option here.
pub fn no_option(name: &OsStr, options: &'static [Choice]) -> String {
    if BOTH.iter().any(|n| name == *n) {
        return no_value(name);
    }
    let near = nearest(name, BOTH.into_iter().chain(options.iter().map(|o| o.name)));
    format!("no option is called {}{near}", quoted(name))
}

fn no_value(name: &OsStr) -> String {
    format!("{} takes no value", quoted(name))
}

/// The option that a word names, and its value, if that stands behind a `=`.
fn option(word: &OsStr, options: &'static [Choice]) -> Result<(&'static Choice, Option<OsString>), String> {
    let (name, value) = parted(word);
    match options.iter().find(|o| name == o.name) {
        Some(option) => Ok((option, value)),
        None => Err(no_option(name, options)),
    }
}

fn chosen(option: &'static Choice, value: Option<OsString>) -> Result<&'static str, String> {
    if option.values.is_empty() {
        return if value.is_none() { Ok("") } else { Err(no_value(OsStr::new(option.name))) };
    }
    let all = option.values.join(", ");
    let Some(value) = value else {
        return Err(format!("'{}' wants a value: one of {all}", option.name));
    };
    match option.values.iter().find(|v| value == **v) {
        Some(v) => Ok(v),
        None => {
            let near = nearest(&value, option.values.iter().copied());
            Err(format!("'{}' can't be {}: it is one of {all}{near}", option.name, quoted(&value)))
        }
    }
}

/// Words on the name that the word begins, or else on the one with the fewest slips from it, a capital for a small letter counted last. Where the word has two
/// dashes, so has the name, if there are such. None are said of a name in which no letter is right.
pub fn nearest(word: &OsStr, names: impl Iterator<Item = &'static str>) -> String {
    let letters = |text: &str| text.chars().collect::<Vec<char>>();
    let small = |text: &str| letters(&text.to_lowercase());
    let word = &*word.to_string_lossy();
    let key = |name: &&str| {
        let dashes = word.starts_with("--") && !name.starts_with("--");
        (dashes, !name.starts_with(word), slips(&small(word), &small(name)), slips(&letters(word), &letters(name)))
    };
    let name = names.min_by_key(key).expect("there are names");
    let (_, other, wrong, _) = key(&name);
    if other && wrong == small(word).len().max(small(name).len()) {
        return String::new();
    }
    format!("; the nearest is '{name}'")
}

/// How many letters must be put in, left out or changed to make the one of the other.
fn slips(a: &[char], b: &[char]) -> usize {
    let mut above: Vec<usize> = (0..=b.len()).collect();
    for i in 1..=a.len() {
        let mut row = vec![i];
        for j in 1..=b.len() {
            let other = (a[i - 1] != b[j - 1]) as usize;
            row.push((above[j] + 1).min(row[j - 1] + 1).min(above[j - 1] + other));
        }
        above = row;
    }
    above[b.len()]
}
