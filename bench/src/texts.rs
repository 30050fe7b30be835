//! Texts for the UTF-8 check alone, the same in every run; all of them are UTF-8.

use crate::scripts::{korean, sized, Random};
use crate::utf8::CHECKS;
use crate::{clock, Set};

/// How many texts of about 1,000 bytes are measured together.
const TEXTS: u64 = 64;

/// ASCII of four lengths; three whose runs of ASCII have lengths by chance, on both sides of eight but for Korean prose; and three that hold the rounds up,
/// of so many characters of ASCII and so many others by turns, which a processor can learn to foretell.
pub fn sets() -> [Set; 10] {
    let many = |text: &dyn Fn(u64) -> Vec<u8>| (0..TEXTS).map(text).collect();
    let set = |name, sources| Set { name, passes: 1500, sides: &CHECKS, clock: clock::wall, sources };
    [
        set("ascii-7", vec![b"a = 12\n".to_vec(); 512]),
        set("ascii-714", many(&|first| sized(714, first))),
        set("ascii-1000", many(&|first| sized(1_000, first))),
        set("ascii-65536", vec![sized(65_536, 0)]),
        set("korean-scripts", korean()),
        set("korean-prose", many(&|number| prose(&KOREAN, number))),
        set("vietnamese-prose", many(&|number| prose(&VIETNAMESE, number))),
        set("turns-7-ascii-3-other", many(&|number| turns("kiosk 4éα역", number))),
        set("turns-7-ascii-1-korean", many(&|number| turns("kiosk 4역", number))),
        set("turns-1-ascii-1-emoji", many(&|number| turns("4😀", number))),
    ]
}

#[rustfmt::skip]
const KOREAN: [&str; 24] = [
    "다음", "역에서", "내려", "출구로", "나가면", "매표소가", "있고", "그", "옆에", "전시실", "입구가", "보입니다", "오른쪽", "계단은",
    "닫혀", "있으니", "승강기를", "타고", "이층으로", "올라가", "주십시오", "안내원은", "아홉", "시부터",
];

#[rustfmt::skip]
const VIETNAMESE: [&str; 31] = [
    "xin", "quý", "khách", "đi", "theo", "hành", "lang", "bên", "trái", "mua", "vé", "trong", "gian", "thứ", "hai", "rồi", "lên", "tầng",
    "ba", "bằng", "thang", "máy", "phòng", "trưng", "bày", "mở", "cửa", "lúc", "chín", "giờ", "sáng",
];

/// Sentences of such words with spaces between, of 1,000 bytes or a few fewer.
fn prose(words: &[&str], number: u64) -> Vec<u8> {
    let mut random = Random::new(number);
    let mut out = String::new();
    loop {
        let word = random.pick(words);
        let behind = if random.below(7) == 0 { ". " } else { " " };
        if out.len() + word.len() + behind.len() > 1_000 {
            return out.into_bytes();
        }
        out += word;
        out += behind;
    }
}

/// The characters over and over, 1,000 bytes or a few fewer, from another one of them on in each text.
fn turns(period: &str, number: u64) -> Vec<u8> {
    let characters = 1_000 / period.len() * period.chars().count();
    period.chars().cycle().skip(number as usize).take(characters).collect::<String>().into_bytes()
}
