//! What is said of a character over 127 that begins no name. Whether it may stand in one the reader says; the rest is for people only.
use crate::excerpt::{columns, unseen};
use tarbucket::Reader;

/// The sentence on the text's first character, which stands where a token would start; `first` where that is the script's beginning.
pub fn character(text: &str, first: bool) -> String {
    let mut chars = text.chars();
    let c = chars.next().unwrap_or(' ');
    let number = format!("U+{:04X}", c as u32);
    if first && c == '\u{FEFF}' {
        return format!("The file begins with a byte order mark ({number}): save it as UTF-8 without one.");
    }
    if let Some(space) = space(c) {
        return format!("{space} ({number}) stands here: use the plain one.");
    }
    if unseen(c) || c.is_control() {
        return format!("A character that no one sees ({number}) stands here: delete it.");
    }
    let shown = format!("`{}{c}` ({number})", if columns(c) == 0 { "◌" } else { "" });
    if let Some((what, meant)) = instead(c) {
        // it is drawn as the one that is meant
        let plain = if c == '\u{37E}' { "the plain " } else { "" };
        format!("{shown} is {what}: write {plain}`{meant}`.")
    } else if is_emoji(c, chars.next()) {
        format!("{shown} is an emoji: it can stand in strings and comments only.")
    } else if !continues(c) {
        format!("{shown} cannot stand in a name, and means nothing else.")
    } else if c.is_numeric() {
        format!("{shown} is a digit that a name can have, but not begin with; numbers have the digits 0 to 9.")
    } else {
        format!("{shown} can stand in a name, but not begin one.")
    }
}

/// The reader takes it for a name's second character.
fn continues(c: char) -> bool {
    Reader::new().read(format!("_{c}").as_bytes()).is_ok()
}

fn space(c: char) -> Option<&'static str> {
    match c {
        '\u{A0}' | '\u{202F}' => Some("A no-break space"),
        '\u{3000}' => Some("A full-width space"),
        '\u{1680}' | '\u{2000}'..='\u{200A}' | '\u{205F}' => Some("An unusual space"),
        _ => None,
    }
}

/// Drawn as a picture: wide among the symbols, one of the letters that flags are made of, or told to be one by what follows.
fn is_emoji(c: char, next: Option<char>) -> bool {
    match c as u32 {
        0x1F1E6..=0x1F1FF => true,
        0x231A..=0x231B | 0x23E9..=0x2BFF | 0x1F000..=0x1FAFF => columns(c) == 2 || next == Some('\u{FE0F}'),
        _ => false,
    }
}

/// What a sign is that looks like one of the language, and what to write in its place.
fn instead(c: char) -> Option<(&'static str, String)> {
    let (what, meant) = match c {
        '“' | '”' | '„' | '‟' | '«' | '»' | '「' | '」' | '『' | '』' | '〝' | '〞' => ("a typographic quotation mark", "\""),
        '‘' | '’' | '‚' | '‛' | '‹' | '›' => ("a typographic quotation mark", "'"),
        '″' => ("no quotation mark", "\""),
        '′' | '´' => ("no quotation mark", "'"),
        '‐' | '‑' => ("a typographic hyphen", "-"),
        '‒' | '–' | '—' | '―' => ("a dash", "-"),
        '−' => ("a minus sign of mathematics", "-"),
        '×' => ("a multiplication sign", "*"),
        '÷' => ("a division sign", "/"),
        '⁄' | '∕' => ("a slash of mathematics", "/"),
        '≤' => ("a sign of mathematics", "<="),
        '≥' => ("a sign of mathematics", ">="),
        '≠' => ("a sign of mathematics", "!="),
        '\u{37E}' => ("a Greek question mark", ";"),
        '،' => ("an Arabic comma", ","),
        '؛' => ("an Arabic semicolon", ";"),
        '٪' => ("an Arabic percent sign", "%"),
        '、' => ("an ideographic comma", ","),
        '。' => ("an ideographic full stop", "."),
        '＆' => ("a full-width form", "and"),
        '｜' => ("a full-width form", "or"),
        // the other wide forms of ASCII, but for those that begin no token either
        '\u{FF01}'..='\u{FF5E}' if !"＄？＠＼＾｀～".contains(c) => {
            return Some(("a full-width form", char::from_u32(c as u32 - 0xFEE0)?.to_string()));
        }
        _ => return None,
    };
    Some((what, meant.to_string()))
}
