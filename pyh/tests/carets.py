"""Below lines in many scripts the caret must stand where Python's unicodedata counts: no column for marks, two for wide characters. Column and place, too."""
import json
import os
import random
import re
import subprocess
import unicodedata

LINES = 300

# signs of Arabic, Syriac and Kaithi that stand before numbers or at the ends of verses: Cf, and yet they are seen
SEEN = [(0x600, 0x605), (0x6DD, 0x6DD), (0x70F, 0x70F), (0x890, 0x891), (0x8E2, 0x8E2), (0x110BD, 0x110BD), (0x110CD, 0x110CD)]

# Latin, Greek, Hebrew, Arabic, Devanagari, Tamil, Thai, decomposed Hangul, that of old, accents, kana, ideographs, Hangul, forms of ASCII, Deseret, symbols
# of mathematics, emoji, ideographs beyond U+FFFF
RANGES = SEEN + [
    (0xC0, 0x24F), (0x370, 0x3FF), (0x591, 0x5F4), (0x620, 0x6D3), (0x900, 0x97F), (0xB82, 0xBFA), (0xE01, 0xE5B), (0x1100, 0x115E), (0x1161, 0x11FF),
    (0xA960, 0xA97C), (0xD7B0, 0xD7FB), (0x300, 0x34E), (0x3041, 0x30FF), (0x4E00, 0x9FA5), (0xAC00, 0xD7A3), (0xFF01, 0xFF9F), (0x10400, 0x1044F),
    (0x1D400, 0x1D7FF), (0x1F600, 0x1F64F), (0x20000, 0x2A6D6),
]  # fmt: skip


def run(cases, work, tally):
    some = random.Random(1)
    scripts = []
    for k in range(LINES):
        # behind a string a name does not fit; each has characters of its own range, and of others
        front = '"%s" ' % "".join(character(some, RANGES[k % len(RANGES)] if i % 2 else some.choice(RANGES)) for i in range(some.randrange(1, 40)))
        scripts.append((front, front + character(some, (0xAC00, 0xD7A3)) + "\n"))
    for k, (_, text) in enumerate(scripts):
        with open(os.path.join(work, "%03d.pyh" % k), "w", encoding="utf8", newline="") as file:
            file.write(text)
    names = ["%03d.pyh" % k for k in range(LINES)]
    shown = subprocess.run(["pyh", "show"] + names, cwd=work, capture_output=True, timeout=60).stdout.decode()
    carets = [len(caret) for caret in re.findall(r"^    \| ( *)\^$", shown, re.M)]
    said = subprocess.run(["pyh", "check", "--format", "json"] + names, cwd=work, capture_output=True, timeout=60).stdout.decode()
    places = [(r["column"], r["place"]) for r in map(json.loads, said.splitlines()) if r["kind"] == "refused"]
    for found, count in ((carets, width), (places, lambda front: (len(front) + 1, len(front.encode())))):
        wrong = ["%r: %s, and not %s" % (front, one, count(front)) for (front, _), one in zip(scripts, found) if one != count(front)]
        tally.case("carets: %d lines" % len(found), len(found) == LINES and not wrong, "\n".join(wrong[:5]))


def character(some, between):
    """One that has a width of its own: what no one sees is shown by another."""
    while True:
        c = chr(some.randint(*between))
        if unicodedata.category(c) not in ("Cn", "Cf") or between in SEEN:
            return c


def width(text):
    return sum(0 if is_mark(c) else 2 if unicodedata.east_asian_width(c) in "WF" else 1 for c in text)


def is_mark(c):
    return unicodedata.category(c) in ("Mn", "Me") or "\u1160" <= c <= "\u11ff" or "\ud7b0" <= c <= "\ud7fb"
