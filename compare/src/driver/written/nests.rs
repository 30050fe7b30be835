//! Every expression within every other, two deep in each sort of statement and three deep alone, with all parentheses: the writer
//! says which of them the tree needs.

/// An expression around another, which stands for `@`.
#[rustfmt::skip]
const AROUND: [&str; 36] = [
    "@ or b", "a or @", "@ and b", "a and @", "@ < b", "a < @", "@ == b < c", "a == @ < c", "a == b < @", "a != b < @ > c", "@ + b", "a - @",
    "@ * b", "a // @", "a / @", "@ % b", "not @", "- @", "+ @", "lambda: @", "lambda a, b: @", "@.b", "@(b)", "a(@)", "a(@, b)", "@[b]", "a[@]",
    "[@]", "[a, @]", "{@}", "t{@, b}", "{@: b}", "{a: @}", "(@,)", "(@, b)", "(a, @)",
];

const LEAVES: [&str; 9] = ["a", "1", "-1", "0.10", "'s'", "())", "[]", "{}", "None"];

#[rustfmt::skip]
const STATEMENTS: [&str; 10] =
    ["@", "@,", "a, @", "x = @", "@ = x", "return @", "if @: a", "for a in @: b", "while @: a", "def f(): return @,"];

fn within(outer: &str, inner: &str) -> String {
    outer.replace('@', &format!("({inner})"))
}

/// All of these around all of those.
fn around(outers: &[&str], inners: &[String]) -> Vec<String> {
    outers.iter().flat_map(|outer| inners.iter().map(|inner| within(outer, inner))).collect()
}

/// The shorter ones first.
pub fn nests() -> impl Iterator<Item = String> {
    let leaves: Vec<_> = LEAVES.iter().map(|leaf| leaf.to_string()).collect();
    let one = around(&AROUND, &leaves);
    let two = around(&AROUND, &one);
    let three = around(&AROUND, &around(&AROUND, &around(&AROUND, &leaves[..1])));
    [leaves, one, two].into_iter().flat_map(|inners| around(&STATEMENTS, &inners)).chain(three)
}
