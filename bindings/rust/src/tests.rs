use crate::*;

mod comma;
mod refused;
mod spelling;
mod written;

fn number_and_place(src: &[u8]) -> (u32, usize) {
    match Reader::new().read(src) {
        Ok(_) => (0, 0),
        Err(e) => (e.number(), e.place()),
    }
}

#[test]
fn scripts_of_the_definition() {
    let cases: [(&[u8], u32, usize); 24] = [
        (b"", 0, 0),
        (b"a-1", 14, 1),
        (b"-1.5", 14, 3),
        (b"1.e5", 0, 0),
        (b"()", 15, 2),
        (b"())", 0, 0),
        (b"not a == b", 0, 0),
        (b"1,", 0, 0),
        (b"if a:\n  b", 14, 9),
        (b"if a:\n  b\n", 0, 0),
        (b"9223372036854775808", 10, 0),
        (b"-9223372036854775808", 0, 0),
        (b"\ta", 6, 0),
        (b"if a:\n   b\n", 7, 6),
        (b"if a:\n  b\n c\n", 8, 10),
        (b"1.0e24", 11, 0),
        ("aé".as_bytes(), 0, 0),
        ("é".as_bytes(), 0, 0),
        ("℘".as_bytes(), 0, 0),
        ("a€".as_bytes(), 9, 1),
        ("·".as_bytes(), 9, 0),
        ("a·".as_bytes(), 0, 0),
        (b"\xff", 5, 0),
        (b"$", 9, 0),
    ];
    for (src, number, place) in cases {
        assert_eq!(number_and_place(src), (number, place), "{}", String::from_utf8_lossy(src));
    }
    let mut deep = vec![b'('; 64];
    deep.push(b'a');
    deep.extend([b')'; 64]);
    assert_eq!(number_and_place(&deep), (13, 64));
    assert_eq!(number_and_place(&deep[1..128]), (0, 0));
    assert_eq!(number_and_place(&[b' '; LONGEST + 1]), (1, 0));
}

#[test]
fn slices_of_any_length() {
    let src = b"a = 1\n";
    let (mut tokens, mut text, mut tree) = ([7u32; 40], [7u8; 20], [7u32; 200]);
    assert_eq!(parse_source(src, &mut tokens[..20], &mut text, &mut tree), Err(Error::TokensTooSmall));
    assert_eq!(parse_source(src, &mut tokens, &mut text[..5], &mut tree), Err(Error::TextTooSmall));
    assert_eq!(parse_source(src, &mut tokens, &mut text, &mut tree[..111]), Err(Error::TreeTooSmall));
    assert!(tokens.iter().all(|&w| w == 7) && text.iter().all(|&b| b == 7) && tree.iter().all(|&w| w == 7));
    let counts = parse_source(src, &mut tokens, &mut text, &mut tree).unwrap();
    assert_eq!(counts, Counts { tokens: 4, nodes: 4, text: 0, openings: tree[6] });
    assert!(tokens[21..].iter().all(|&w| w == 7) && text[6..].iter().all(|&b| b == 7) && tree[112..].iter().all(|&w| w == 7));
    assert!(text[..6].iter().all(|&b| b == 0) && tree[8 + 8 * 4..112].iter().all(|&w| w == 0));
    assert_eq!(parse_source(b"", &mut [0; 3], &mut [], &mut [0; 16]).map(|c| c.nodes), Ok(1));
}

#[test]
fn literals_and_names() {
    let mut reader = Reader::new();
    let tree = reader.read(b"x = [True, -5, 2.5, 'a\\n', None, y.z]\n").unwrap();
    let line = tree.root().children().next().unwrap();
    let Shape::Assign { target, value } = line.shape() else { panic!() };
    assert!(matches!(target.shape(), Shape::Variable { name: b"x" }));
    let Shape::List { members } = value.shape() else { panic!() };
    let shapes: Vec<Shape> = members.map(|m| m.shape()).collect();
    assert!(matches!(shapes[0], Shape::Bool(true)));
    assert!(matches!(shapes[1], Shape::Int(-5)));
    assert!(matches!(shapes[2], Shape::Float(x) if x == 2.5));
    assert!(matches!(shapes[3], Shape::String(b"a\n")));
    assert!(matches!(shapes[4], Shape::None));
    let Shape::Attribute { object, name } = shapes[5] else { panic!() };
    assert!(name == b"z" && matches!(object.shape(), Shape::Variable { name: b"y" }));
}

#[test]
fn names_in_any_script() {
    let mut reader = Reader::new();
    // Korean, Greek with an accent of its own, Devanagari with vowel signs, and a letter beyond U+FFFF: spans count bytes
    let src = "홀 = στοα\u{301}.गलियारा + 𐐷\n";
    let tree = reader.read(src.as_bytes()).unwrap();
    let named = |node: Node| match node.shape() {
        Shape::Variable { name } | Shape::Attribute { name, .. } => Some((String::from_utf8_lossy(name).into_owned(), node.span())),
        _ => None,
    };
    let names: Vec<_> = tree.walk().filter_map(|(_, node)| named(node)).collect();
    let expected = [("홀", 0..45), ("गलियारा", 6..38), ("στοα\u{301}", 6..16), ("𐐷", 41..45)];
    assert_eq!(names, expected.map(|(name, span)| (name.to_string(), span)));
    // not normalised: both are an é, and two names
    let tree = reader.read("\u{e9} == e\u{301}\n".as_bytes()).unwrap();
    let names: Vec<usize> = tree.walk().filter(|(_, node)| node.kind() == Kind::Variable).map(|(_, node)| node.text().len()).collect();
    assert_eq!(names, [2, 3]);
}

#[test]
fn a_walk_meets_each_node_once() {
    let mut reader = Reader::new();
    // each level holds its middle twice: a walk along all fields would take 2 to the 30th steps
    let src = format!("{}a{}\n", "a<(".repeat(30), ")<a".repeat(30));
    let tree = reader.read(src.as_bytes()).unwrap();
    assert_eq!(tree.walk().count(), tree.len());
    let deep = format!("a{}\n", "+a".repeat(20000));
    let tree = reader.read(deep.as_bytes()).unwrap();
    assert_eq!(tree.walk().count(), tree.len());
    assert_eq!(tree.walk().map(|(depth, _)| depth).max(), Some(20002));
}

#[test]
fn the_listing_of_the_definition() {
    let mut reader = Reader::new();
    let expected = "2 8 6 0 8 7 19 6\n0 23 0 1 - 0 1 0 0\n1 23 2 3 - 2 3 0 0\n2 25 0 3 - 9 0 1 0\n3 23 4 5 - 4 5 0 0\n4 25 2 5 - 9 1 3 0\n\
                    5 25 0 5 - 13 2 4 0\n6 12 0 5 - 5 0 0 0\n7 1 0 6 - 6 0 0 0\n";
    assert_eq!(listing(&reader.read(b"a<b<c\n")), expected);
    assert_eq!(listing(&reader.read(b"a-1")), "no 14 1\n");
}

#[test]
fn tokens_of_the_last_source() {
    let mut reader = Reader::new();
    reader.read(b"a = 1\n").unwrap();
    assert_eq!(reader.tokens().collect::<Vec<_>>(), [(21, 0, 1), (35, 2, 3), (19, 4, 5), (48, 5, 6), (49, 6, 6)]);
    reader.read(b";").unwrap_err();
    assert_eq!(reader.tokens().count(), 0);
    reader.read(b"a = 1\n").unwrap();
    reader.read(b"\xff").unwrap_err();
    assert_eq!(reader.tokens().count(), 0);
    reader.read(b"a\n").unwrap();
    assert_eq!(reader.tokens().last(), Some((49, 2, 2)));
}

/// Text and tree of an accepted source, without the rest of their areas.
fn words_of(src: &[u8]) -> (Vec<u8>, Vec<u32>) {
    let n = src.len();
    let (mut tokens, mut text, mut tree) = (vec![0; token_words(n)], vec![0; text_bytes(n)], vec![0; tree_words(n)]);
    let counts = parse_source(src, &mut tokens, &mut text, &mut tree).unwrap();
    text.truncate(counts.text as usize);
    tree.truncate(8 + 8 * counts.nodes as usize);
    (text, tree)
}

#[test]
fn other_words_are_refused_or_readable() {
    for src in [&b"a\n"[..], b"(0.10)\n"] {
        let (text, mut words) = words_of(src);
        assert!(Tree::new(src, &text, &words).is_ok());
        for i in 0..words.len() {
            let kept = words[i];
            for other in [kept.wrapping_add(1), kept.wrapping_sub(1), NONE, 1000] {
                words[i] = other;
                if let Ok(tree) = Tree::new(src, &text, &words) {
                    let _ = tree.listing();
                    tree.walk().for_each(|(_, n)| assert!(n.span().end <= src.len() && matches!((n.shape(), n.spelling()), _)));
                }
            }
            words[i] = kept;
        }
    }
}

#[test]
fn words_of_another_version() {
    let (text, mut words) = words_of(b"(0.10)");
    for version in [0, 1, 3] {
        words[0] = version;
        // whatever the number of words, since another version may have other records
        for len in [words.len(), 1, 8, 17] {
            assert_eq!(Tree::new(b"(0.10)", &text, &words[..len]).unwrap_err(), BadTree::Version(version), "{len}");
        }
    }
}

#[test]
fn words_that_are_no_tree() {
    let src = b"(0.10)";
    let (text, words) = words_of(src);
    let wrong = |words: &[u32]| Tree::new(src, &text, words).unwrap_err();
    for len in [0, 1, 8, 15, 17, words.len() - 8, words.len() - 1] {
        assert_eq!(wrong(&words[..len]), BadTree::Header, "{len}");
    }
    // all of the header but T and the rules opened, which the words do not tell
    for i in [1, 3, 4, 5, 7] {
        let mut other = words.clone();
        other[i] += 1;
        assert_eq!(wrong(&other), BadTree::Header, "{i}");
    }
    // the root is an Expr
    let mut other = words.clone();
    let root = words.len() - 8;
    other[root] = Kind::Expr as u32;
    assert_eq!(wrong(&other), BadTree::Node(words[5]));
}

#[test]
fn one_version() {
    let header = include_str!("../../../include/tarbucket.h");
    let code = include_str!("../../../crates/reader/src/lib.rt");
    let numbers = [number_behind(header, "#define TARBUCKET_VERSION "), number_behind(code, "pub const VERSION: u32 = ")];
    assert_eq!(numbers, [VERSION; 2]);
}

/// The number right behind these words.
fn number_behind(text: &str, words: &str) -> u32 {
    let (_, behind) = text.split_once(words).unwrap_or_else(|| panic!("no {words}"));
    let digits: String = behind.chars().take_while(char::is_ascii_digit).collect();
    digits.parse().expect("a number")
}

/// The rounds of n bytes under 128.
fn plain(n: usize) -> usize {
    n / 8 + n % 8
}

#[test]
fn rounds_of_plain_text() {
    let rounds = [0, 1, 2, 3, 4, 5, 6, 7, 1, 2, 3, 4, 5, 6, 7, 8, 2, 3];
    for (n, rounds) in rounds.into_iter().enumerate() {
        for byte in [0, b'a', 0x7f] {
            assert_eq!(utf8_error(&vec![byte; n]), Utf8 { place: None, rounds }, "{n} times {byte}");
        }
    }
    // longer than any source that is read
    assert_eq!(utf8_error(&[b'a'; 2 * LONGEST + 7]), Utf8 { place: None, rounds: 16384 + 7 });
}

#[test]
fn rounds_of_other_text() {
    for before in 0..18 {
        for behind in 0..18 {
            let (front, back) = ("a".repeat(before), "a".repeat(behind));
            for character in ["\u{80}", "é", "홀", "\u{ffff}", "𐐷", "\u{10ffff}"] {
                let text = format!("{front}{character}{back}");
                assert_eq!(utf8_error(text.as_bytes()), Utf8 { place: None, rounds: plain(before) + 1 + plain(behind) }, "{text}");
            }
            // alone, cut, overlong, a surrogate, above U+10FFFF
            for bad in [&b"\x80"[..], b"\xff", b"\xec\x82", b"\xc1\xbf", b"\xe0\x9f\xbf", b"\xf0\x8f\xbf\xbf", b"\xed\xa0\x80", b"\xf4\x90\x80\x80"] {
                let text = [front.as_bytes(), bad, back.as_bytes()].concat();
                assert_eq!(utf8_error(&text), Utf8 { place: Some(before), rounds: plain(before) + 1 }, "{text:x?}");
            }
        }
    }
}

#[test]
fn the_place_is_that_of_the_standard_library() {
    // the two bytes stand inside a round of eight, and across its end
    for at in [2, 7] {
        for pair in 0..=u16::MAX {
            let mut text = [b'a'; 17];
            text[at..at + 2].copy_from_slice(&pair.to_be_bytes());
            let place = std::str::from_utf8(&text).err().map(|e| e.valid_up_to());
            assert_eq!(utf8_error(&text).place, place, "{pair:x} at {at}");
        }
    }
}

#[test]
fn words_of_the_check() {
    for (text, number, place, rounds) in [(&b"aaaaaaaaa"[..], 0, 0, 2), (b"aaaaaaaaa\xff", 5, 9, 3)] {
        for len in 0..5 {
            let mut answer = [7u64; 5];
            let returned = unsafe { tarbucket_utf8_error(text.as_ptr(), text.len(), answer.as_mut_ptr(), len) };
            let (number, due) = if len < 2 { (u32::MAX, [7; 5]) } else { (number, [place, rounds, 7, 7, 7]) };
            assert_eq!((returned, answer), (number, due), "{len} words");
        }
    }
}
