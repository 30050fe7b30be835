/// What a field of a node holds.
#[derive(Clone, Copy, Debug, PartialEq, Eq)]
pub(crate) enum Field {
    /// Nothing: 0.
    Unused,
    /// A number that is no node's.
    Word,
    /// A node.
    Node,
    /// A node or none.
    Maybe,
    /// A list's first node or none.
    List,
}

impl Field {
    pub(crate) fn holds_node(self) -> bool {
        !matches!(self, Field::Unused | Field::Word)
    }
}

macro_rules! kinds {
    ($($number:literal $name:ident $p:ident $q:ident $r:ident $s:ident)*) => {
        /// The kind of a node.
        #[derive(Clone, Copy, Debug, PartialEq, Eq, Hash)]
        #[repr(u32)]
        pub enum Kind {
            $($name = $number,)*
        }

        impl Kind {
            pub fn of(number: u32) -> Option<Kind> {
                match number {
                    $($number => Some(Kind::$name),)*
                    _ => None,
                }
            }

            pub fn name(self) -> &'static str {
                match self {
                    $(Kind::$name => stringify!($name),)*
                }
            }

            /// What p, q, r and s hold.
            pub(crate) fn fields(self) -> [Field; 4] {
                match self {
                    $(Kind::$name => [Field::$p, Field::$q, Field::$r, Field::$s],)*
                }
            }
        }
    };
}

kinds! {
    1 Program List Unused Unused Unused
    2 If Node List List Maybe
    3 While Node List Unused Unused
    4 For Word Word Node List
    5 Def Word Word List List
    6 Return Node Unused Unused Unused
    7 Assign Node Node Unused Unused
    8 Class Word Word List Unused
    9 Break Unused Unused Unused Unused
    10 Continue Unused Unused Unused Unused
    11 Pass Unused Unused Unused Unused
    12 Expr Node Unused Unused Unused
    13 Method Word Word List List
    14 Elif Node List Unused Unused
    15 Else List Unused Unused Unused
    16 Name Word Word Unused Unused
    17 Pair Node Node Unused Unused
    18 Bool Word Unused Unused Unused
    19 Int Word Word Unused Unused
    20 String Word Word Unused Unused
    21 Float Word Word Word Word
    22 None Unused Unused Unused Unused
    23 Variable Word Word Unused Unused
    24 Unary Word Node Unused Unused
    25 Binary Word Node Node Unused
    26 Call Node List Unused Unused
    27 Attribute Node Word Word Unused
    28 List List Unused Unused Unused
    29 Dict List Unused Unused Unused
    30 Tuple List Unused Unused Unused
    31 Set List Unused Unused Unused
    32 TreeSet List Unused Unused Unused
    33 Index Node Node Unused Unused
    34 Lambda List Node Unused Unused
}

macro_rules! operators {
    ($(#[$doc:meta])* $type:ident: $($number:literal $name:ident $symbol:literal)*) => {
        $(#[$doc])*
        #[derive(Clone, Copy, Debug, PartialEq, Eq, Hash)]
        #[repr(u32)]
        pub enum $type {
            $($name = $number,)*
        }

        impl $type {
            pub fn of(number: u32) -> Option<$type> {
                match number {
                    $($number => Some($type::$name),)*
                    _ => None,
                }
            }

            /// As it is written in a script.
            pub fn symbol(self) -> &'static str {
                match self {
                    $($type::$name => $symbol,)*
                }
            }
        }
    };
}

operators! {
    /// The operator of a Unary.
    UnaryOp:
    1 Not "not"
    2 Negate "-"
    3 Pos "+"
}

operators! {
    /// The operator of a Binary.
    BinaryOp:
    1 Add "+"
    2 Subtract "-"
    3 Multiply "*"
    4 Divide "/"
    5 FloorDivide "//"
    6 Modulo "%"
    7 Equal "=="
    8 NotEqual "!="
    9 Less "<"
    10 LessEqual "<="
    11 Greater ">"
    12 GreaterEqual ">="
    13 And "and"
    14 Or "or"
}
