//! The plain reader and writer in the place of the verified ones: compare/plain.sh builds it, compare/wrong.sh links wrong copies of it.

/// # Safety
/// As of the library's own function: each pointer is to as many cells as its length says.
#[no_mangle]
pub unsafe extern "C" fn tarbucket_parse_source(
    src: *const u8,
    src_len: usize,
    tokens: *mut u32,
    tokens_len: usize,
    text: *mut u8,
    text_len: usize,
    tree: *mut u32,
    tree_len: usize,
    answer: *mut u32,
    answer_len: usize,
) -> u32 {
    use std::slice::{from_raw_parts, from_raw_parts_mut};
    if answer_len < 6 {
        return 4294967295;
    }
    let src = from_raw_parts(src, src_len);
    let tokens = from_raw_parts_mut(tokens, tokens_len);
    let text = from_raw_parts_mut(text, text_len);
    let made = plain::read(src, tokens, text, from_raw_parts_mut(tree, tree_len));
    from_raw_parts_mut(answer, 6).copy_from_slice(&made.words());
    made.number
}

/// The plain writer reads the source itself; it is read before for its counts.
///
/// # Safety
/// As above.
#[no_mangle]
pub unsafe extern "C" fn tarbucket_write_source(
    src: *const u8,
    src_len: usize,
    tokens: *mut u32,
    tokens_len: usize,
    text: *mut u8,
    text_len: usize,
    tree: *mut u32,
    tree_len: usize,
    out: *mut u8,
    out_len: usize,
    answer: *mut u32,
    answer_len: usize,
) -> u32 {
    use std::slice::{from_raw_parts, from_raw_parts_mut};
    if answer_len < 7 {
        return 4294967295;
    }
    let src = from_raw_parts(src, src_len);
    let (tokens, text) = (from_raw_parts_mut(tokens, tokens_len), from_raw_parts_mut(text, text_len));
    let (tree, out) = (from_raw_parts_mut(tree, tree_len), from_raw_parts_mut(out, out_len));
    let [_, _, counts @ ..] = plain::read(src, tokens, text, tree).words();
    let plain::writer::Wrote { number, place, length } = plain::writer::write(src, tokens, text, tree, out);
    let answer = from_raw_parts_mut(answer, 7);
    answer[..2].copy_from_slice(&[number, place]);
    answer[2..6].copy_from_slice(&counts);
    answer[6] = length;
    number
}

/// # Safety
/// As above.
#[no_mangle]
pub unsafe extern "C" fn tarbucket_utf8_error(src: *const u8, src_len: usize, answer: *mut u64, answer_len: usize) -> u32 {
    use std::slice::{from_raw_parts, from_raw_parts_mut};
    if answer_len < 2 {
        return 4294967295;
    }
    let plain::utf8::Checked { bad, rounds } = plain::utf8::check(from_raw_parts(src, src_len));
    from_raw_parts_mut(answer, 2).copy_from_slice(&[bad.unwrap_or(0) as u64, rounds as u64]);
    if bad.is_some() {
        5
    } else {
        0
    }
}
