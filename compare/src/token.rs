//! Tokens. A token's code is its position in the Rust's `Token`, from If = 1 to Eof = 49.

/// The kinds in their order, and a list of them all.
macro_rules! kinds {
    ($first:ident $($other:ident)*) => {
        #[derive(Clone, Copy, Debug, PartialEq, Eq)]
        #[repr(u8)]
        pub enum Kind {
            $first = 1,
            $($other),*
        }

        impl Kind {
            pub const ALL: &'static [Kind] = &[Kind::$first, $(Kind::$other),*];
        }
    };
}

kinds! {
    If Elif Else While For In Def Return And Or Not Class Break Continue Pass Lambda None Bool Int Str Name
    Float Plus Minus Star SlashSlash Slash Percent EqualEqual NotEqual Less LessEqual Greater GreaterEqual
    Equal LParen RParen LBracket RBracket LBrace RBrace Colon Comma Semicolon Dot Indent Dedent Newline Eof
}

/// A token with its bytes' places. `value` is a Bool's 0 or 1 and the 64 bits of an Int or a Float; 0 for any other.
#[derive(Clone, Copy, Debug, PartialEq, Eq)]
pub struct Token {
    pub kind: Kind,
    pub start: u32,
    pub end: u32,
    pub value: u64,
}

impl Kind {
    /// The name's kind, or that of the keyword: "at equal length a keyword beats a name".
    pub fn of_word(word: &str) -> Kind {
        match word {
            "if" => Kind::If,
            "elif" => Kind::Elif,
            "else" => Kind::Else,
            "while" => Kind::While,
            "for" => Kind::For,
            "in" => Kind::In,
            "def" => Kind::Def,
            "return" => Kind::Return,
            "and" => Kind::And,
            "or" => Kind::Or,
            "not" => Kind::Not,
            "class" => Kind::Class,
            "break" => Kind::Break,
            "continue" => Kind::Continue,
            "pass" => Kind::Pass,
            "lambda" => Kind::Lambda,
            "None" => Kind::None,
            "True" | "False" => Kind::Bool,
            _ => Kind::Name,
        }
    }
}
