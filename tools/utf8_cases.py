"""The cases `u HEX` of the program `leaf_cases`: the UTF-8 check and its rounds. docs/CASES.md says how they are made; tools/leaf_cases.py writes the files.

tools/reference counts no rounds: it is a reader, and the reader's answer has none."""
import itertools
import re

TAIL = (0x80, 0xBF)
TABLE_3_7 = [
    [(0x00, 0x7F)],
    [(0xC2, 0xDF), TAIL],
    [(0xE0, 0xE0), (0xA0, 0xBF), TAIL],
    [(0xE1, 0xEC), TAIL, TAIL],
    [(0xED, 0xED), (0x80, 0x9F), TAIL],
    [(0xEE, 0xEF), TAIL, TAIL],
    [(0xF0, 0xF0), (0x90, 0xBF), TAIL, TAIL],
    [(0xF1, 0xF3), TAIL, TAIL, TAIL],
    [(0xF4, 0xF4), (0x80, 0x8F), TAIL, TAIL],
]


def damaged(row):
    """The lowest and the highest sequence of the row with each byte replaced by one below its range, one above and a letter, and cut off there."""
    for whole in [bytes(lo for lo, _ in row), bytes(hi for _, hi in row)]:
        for j, (lo, hi) in enumerate(row):
            for b in [lo - 1, hi + 1, 0x41]:
                if 0 <= b <= 0xFF:
                    yield whole[:j] + bytes([b]) + whole[j + 1 :]
            yield whole[:j]


def sequence_cases():
    prefixes = [text.encode() for text in ["", "a", "\u00e9", "ab\u20ac", "\U0001f600", "\ud7ff\ue000x", "x" * 60, "\u00e9" * 33, "\U0010ffff\u07ff\u0800\uffff"]]
    cases = prefixes + [bytes([b]) for b in range(0x100)] + [bytes([b, 0x80, 0x80, 0x80]) for b in range(0x80, 0x100)]
    cases += [bytes(ends) for row in TABLE_3_7 for ends in itertools.product(*row)]
    turn = itertools.cycle(prefixes)
    for row in TABLE_3_7:
        for bad in damaged(row):
            cases += [next(turn) + bad, next(turn) + bad + b"z", next(turn) + bad + "\u20ac".encode()]
    return cases + [b"a" * 2000 + b"\xc3", "\u00e9".encode() * 700 + b"\xed\xa0\x80", "\U0001f600".encode() * 500, b"\xc3\xa9\xff\xff"]


# ---- rounds ----

GOOD = [text.encode() for text in ["é", "한", "😀"]]  # two, three and four bytes
# A lone continuation byte, a byte of no row, two overlong forms, a surrogate, what would be U+110000, a sequence that an ASCII byte cuts
BAD = [b"\x80", b"\xfe", b"\xc0\xaf", b"\xe0\x80\x80", b"\xed\xa0\x80", b"\xf4\x90\x80\x80", b"\xe2\x82a"]
CUT = [b"\xc3", b"\xe2\x82", b"\xf0\x9f\x98"]  # by the end of the text
KOREAN = ["전시실은 열 시에 열고 여섯 시에 닫습니다.\n", 'hall = "전시실 7"\nif open_at(hall, 10):\n  say("안녕하세요")\n']


def low(n):
    return b"a" * n


def good_rounds():
    for n in [*range(18), 63, 64, 65, 66, 714, 1000]:
        yield low(n)
    for good in GOOD:
        for n in range(24):
            yield low(n) + good + low(9 + n % 8)
        for n in range(18):
            yield good + low(n)
        for n in range(10):
            yield low(3) + good + low(n) + good + low(8)
    for bound in [b"\x7f", b"\xc2\x80"]:
        for n in range(8):
            yield b"\0" * n + bound + b"\0" * (7 - n) + b"\x7f" * 9
    for n in [6, 7, 8, 9]:
        for between in [GOOD[0], GOOD[1] + GOOD[2]]:
            yield (low(n) + between) * 6
    for text in KOREAN:
        yield text.encode() * 2


def bad_rounds():
    for n in range(18):
        for bad in BAD:
            yield low(n) + bad + low(9)
        for cut in CUT:
            yield low(n) + cut
    for n, good, bad in itertools.product(range(10), GOOD, [BAD[0], CUT[1]]):
        yield good + low(n) + bad
    for text in KOREAN:
        yield text.encode() + BAD[-1] + text.encode()


# ---- all of them ----


def utf8_cases():
    return sequence_cases() + [*good_rounds(), *bad_rounds()]


def rounds(text):
    """Document 02, change 2: "each taking the next eight bytes if all are under 128, else one sequence", which is one character where all are good."""
    count = len(re.findall(r"[\0-\x7f]{8}|.", text.decode("utf-8"), re.DOTALL))
    # "for n bytes under 128, n / 8 rounded down and one for each byte left"
    assert not text.isascii() or count == len(text) // 8 + len(text) % 8, text
    return count


def utf8_expected(text):
    try:
        return f"well-formed {rounds(text)}"
    except UnicodeDecodeError as error:
        # "good or bad": behind what is good, the bad sequence is the last round
        return f"{error.start} {rounds(text[: error.start]) + 1}"
