//! The values of literals, from their bytes.

/// Int: optional sign, digits; -2^63 to 2^63 - 1.
pub fn int(bytes: &[u8]) -> Option<i64> {
    std::str::from_utf8(bytes).ok()?.parse().ok()
}

/// Powers of ten that a double holds exactly.
const POWERS: [f64; 23] = [
    1e0, 1e1, 1e2, 1e3, 1e4, 1e5, 1e6, 1e7, 1e8, 1e9, 1e10, 1e11, 1e12, 1e13, 1e14, 1e15, 1e16, 1e17, 1e18, 1e19, 1e20, 1e21,
    1e22,
];

/// Float: the digits around the dot are m, p is the exponent less the count of digits after the dot.
/// Admitted: m at most 2^53, p from -22 to 22. One multiplication or one division.
pub fn float(whole: &[u8], places: &[u8], exponent: &[u8]) -> Option<f64> {
    let join = |m: u64, digit: &u8| m.saturating_mul(10).saturating_add(u64::from(digit - b'0'));
    let m = whole.iter().chain(places).fold(0, join);
    let (negative, digits) = match exponent {
        [b'-', digits @ ..] => (true, digits),
        [b'+', digits @ ..] => (false, digits),
        digits => (false, digits),
    };
    let size = i64::try_from(digits.iter().fold(0, join)).unwrap_or(i64::MAX);
    let p = if negative { -size } else { size }.saturating_sub(places.len() as i64);
    if m > 1 << 53 || !(-22..=22).contains(&p) {
        return None;
    }
    let power = POWERS[p.unsigned_abs() as usize];
    Some(if p < 0 { m as f64 / power } else { m as f64 * power })
}

/// A string's bytes between its quotes: escapes n t r \ " ' are decoded; another keeps its backslash.
pub fn decode(body: &[u8]) -> Vec<u8> {
    let mut out = Vec::with_capacity(body.len());
    let mut rest = body;
    while let [byte, tail @ ..] = rest {
        rest = tail;
        if *byte != b'\\' {
            out.push(*byte);
            continue;
        }
        let [escaped, tail @ ..] = rest else { unreachable!("a string's backslash has a character") };
        rest = tail;
        match escaped {
            b'n' => out.push(b'\n'),
            b't' => out.push(b'\t'),
            b'r' => out.push(b'\r'),
            b'\\' | b'"' | b'\'' => out.push(*escaped),
            other => out.extend([b'\\', *other]),
        }
    }
    out
}
