//! Kiosk scripts, the same in every run: a graph of five nodes, the distance to node E, a few functions and conditions.
//! They stay in the subset that Python reads too.

/// How many scripts there are.
pub const SCRIPTS: u64 = 340;

/// How many kiosks there are, and how many scripts each of them has.
pub const KIOSKS: u64 = 340;
const EACH: u64 = 60;

/// A xorshift generator.
pub struct Random(u64);

impl Random {
    pub fn new(number: u64) -> Random {
        let mut random = Random(number.wrapping_mul(0x9e37_79b9_7f4a_7c15) | 1);
        (0..8).for_each(|_| _ = random.below(2));
        random
    }

    pub fn below(&mut self, bound: u64) -> u64 {
        self.0 ^= self.0 << 13;
        self.0 ^= self.0 >> 7;
        self.0 ^= self.0 << 17;
        (self.0.wrapping_mul(0x2545_f491_4f6c_dd1d) >> 32) % bound
    }

    pub fn pick<'a>(&mut self, choices: &[&'a str]) -> &'a str {
        choices[self.below(choices.len() as u64) as usize]
    }
}

/// The scripts of about 700 bytes.
pub fn scripts() -> Vec<Vec<u8>> {
    (0..SCRIPTS).map(script).collect()
}

/// The same scripts with Korean names.
pub fn korean() -> Vec<Vec<u8>> {
    (0..SCRIPTS).map(|number| renamed(&String::from_utf8(script(number)).expect("ASCII"))).collect()
}

/// Every name of the scripts, and what it is in Korean.
const NAMES: [(&str, &str); 18] = [
    ("graph", "그래프"),
    ("far", "거리"),
    ("distance", "최단거리"),
    ("start", "출발"),
    ("node", "역"),
    ("edge", "간선"),
    ("open", "영업"),
    ("hour", "시각"),
    ("lift", "승강기"),
    ("chair", "휠체어"),
    ("lifts", "승강기들"),
    ("works", "작동"),
    ("crowd", "혼잡도"),
    ("count", "인원"),
    ("sign", "안내"),
    ("route", "경로"),
    ("late", "지연"),
    ("show", "표시"),
];

/// The keywords among their words.
const KEYWORDS: [&str; 14] =
    ["and", "def", "elif", "else", "False", "for", "if", "in", "None", "not", "or", "return", "True", "while"];

/// A script with its names replaced; keywords, literals and comments stay as they are.
fn renamed(script: &str) -> Vec<u8> {
    let mut out = String::new();
    let mut rest = script;
    while let Some(first) = rest.chars().next() {
        let length = match first {
            '#' => rest.find('\n').unwrap_or(rest.len()),
            '"' | '\'' => 2 + rest[1..].find(first).expect("a string's end"),
            '0'..='9' | 'a'..='z' | 'A'..='Z' => rest.find(|c: char| !c.is_ascii_alphanumeric()).unwrap_or(rest.len()),
            _ => 1,
        };
        let (part, behind) = rest.split_at(length);
        let korean = NAMES.iter().find(|(name, _)| *name == part).map(|(_, korean)| *korean);
        assert!(korean.is_some() || !first.is_ascii_alphabetic() || KEYWORDS.contains(&part), "{part} has no Korean name");
        out += korean.unwrap_or(part);
        rest = behind;
    }
    out.into_bytes()
}

/// The scripts of a kiosk, no two of all kiosks alike. In the last one a colon is missing at the end of a line, so it is refused.
pub fn of_kiosk(kiosk: u64) -> Vec<Vec<u8>> {
    let mut scripts: Vec<Vec<u8>> = (0..EACH).map(|number| script(kiosk * EACH + number)).collect();
    if let Some(last) = scripts.last_mut() {
        let colon = last.windows(2).position(|w| w == b":\n").expect("a script has a block");
        last.remove(colon);
    }
    scripts
}

fn script(number: u64) -> Vec<u8> {
    let mut random = Random::new(number);
    let mut out = format!("# Kiosk {number}: how far it is to E.\n");
    graph(&mut random, &mut out);
    distance(&mut random, &mut out);
    let first = random.below(4);
    condition(first, &mut random, &mut out);
    condition((first + 1 + random.below(3)) % 4, &mut random, &mut out);
    last(&mut random, &mut out);
    out.into_bytes()
}

/// The five nodes and their edges, and the distances so far.
fn graph(random: &mut Random, out: &mut String) {
    let [ab, ac, bd, cb, cd, de, far] = std::array::from_fn(|_| 10 + random.below(90));
    *out += &format!("graph = {{\"A\": [(\"B\", {ab}), (\"C\", {ac})], \"B\": [(\"D\", {bd})], ");
    *out += &format!("\"C\": [(\"B\", {cb}), (\"D\", {cd})], \"D\": [(\"E\", {de})], \"E\": []}}\n");
    *out += &format!("far = {{\"A\": 0, \"B\": {far}0, \"C\": {far}0, \"D\": {far}0, \"E\": {far}0}}\n");
}

/// The distance to E.
fn distance(random: &mut Random, out: &mut String) {
    let pace = random.pick(&["1.25", "0.8", "1.5e0", "0.95"]);
    *out += &format!(
        "\ndef distance(start):\n  far[start] = 0\n  for node in [\"A\", \"B\", \"C\", \"D\"]:\n    for edge in graph[node]:\n      \
         if far[node] + edge[1] < far[edge[0]]:\n        far[edge[0]] = far[node] + edge[1]\n  return far[\"E\"] * {pace}\n"
    );
}

/// A function with a condition.
fn condition(which: u64, random: &mut Random, out: &mut String) {
    let hour = 5 + random.below(6);
    let hall = random.pick(&["North", "South gate", "Hall 4", "Arcade"]);
    *out += &match which {
        0 => format!("\ndef open(hour):\n  if {hour} <= hour and hour < {}:\n    return True\n  return False\n", hour + 12),
        1 => format!("\ndef lift(node, chair):\n  if chair and node != \"{hall}\":\n    return lifts[node].works()\n  else:\n    return None\n"),
        2 => format!("\ndef crowd(count):\n  while count > {hour}0:\n    count = count // 2 - {hour}\n  return count % 7\n"),
        _ => format!("\ndef sign(node):\n  if node == \"E\":\n    return \"exit\"\n  elif node == 'A':\n    return \"{hall}\\n\", {hour}\n  return node\n"),
    };
}

/// What is shown.
fn last(random: &mut Random, out: &mut String) {
    let limit = 60 + random.below(200);
    let from = random.pick(&["A", "B", "C"]);
    *out += &format!("\nroute = distance(\"{from}\")\nif route > {limit} or not late:\n  show(\"far\", route - {limit})\nelse:\n  show(\"E\", route)\n");
}

/// A source of exactly `size` bytes: scripts from number `first` on, then short lines, then a comment.
pub fn sized(size: usize, first: u64) -> Vec<u8> {
    const LINE: &[u8] = b"hops = hops + 1\n";
    let mut out = Vec::new();
    for number in first.. {
        let next = script(number);
        if out.len() + next.len() > size {
            break;
        }
        out.extend(next);
    }
    while out.len() + LINE.len() <= size {
        out.extend(LINE);
    }
    match size - out.len() {
        0 => (),
        1 => out.push(b'\n'),
        rest => out.extend(format!("#{}\n", "-".repeat(rest - 2)).bytes()),
    }
    out
}

/// A source with every token, and with characters that are not ASCII, in names too. It is checked, and not timed.
pub fn every_token() -> Vec<u8> {
    let lines = [
        "# é, €, 😀\n",
        "class Lift:\r\n",
        "  def up(self, t_2):\n",
        "    while None == 0 or True != False and not iff:\n",
        "      if a < 1: break\n",
        "      elif b <= 22 or c > 3.5: pass\n",
        "      else: continue\n",
        "      # as deep as before\n",
        "\n",
        "    for each in t{1, -2, +3, - 4}:\n",
        "      x = [continued * 2 / 3, a // 4 % 5, {\"é\": '\\'', \"\\\"€\\\\\": ''}]\n",
        "  def down(self): return self.at >= 4.25E+2\n",
        "y = lambda u, v: u\t+ v - 0.5e1.e2; z = 1.e5\n",
        "역_4, é = ifα.℘·1(𐐀), e\u{301}; classé=-é\n",
        "if y:\n",
        "  return z or y\n",
        "#",
    ];
    lines.concat().into_bytes()
}
