//! 02's check of UTF-8, its rounds counted without going through them.

/// Where the first bad sequence begins, if there is one, and the rounds.
#[derive(Clone, Copy, Debug, PartialEq, Eq)]
pub struct Checked {
    pub bad: Option<usize>,
    pub rounds: usize,
}

/// Bytes under 128 that stand together are taken by eights from their first one on, and what is left of them one by one; any
/// other character is a round, and so is a bad sequence, behind which nothing is looked at.
pub fn check(src: &[u8]) -> Checked {
    let good = std::str::from_utf8(src).unwrap_or_else(|error| good_before(src, error.valid_up_to()));
    let bad = (good.len() < src.len()).then_some(good.len());
    let plain: usize = good.split(|c: char| !c.is_ascii()).map(|run| run.len() / 8 + run.len() % 8).sum();
    let others = good.chars().filter(|c| !c.is_ascii()).count();
    Checked { bad, rounds: plain + others + usize::from(bad.is_some()) }
}

fn good_before(src: &[u8], bad: usize) -> &str {
    std::str::from_utf8(&src[..bad]).expect("good up to there")
}
