#!/usr/bin/env python3
"""Writes the stored cases of the program `reader_cases` and what it must print. docs/CASES.md says how each list is made.

    python3 tools/reader_cases.py crates/reader_cases

The sources are those of tools/reader_sources.py. Every expected line is what tools/reference/read.py answers and leaves in the slices, a reader that
was written from documents 01 and 02 alone; where document 01 says number and place itself, or a whole tree, the reader's answer is held to that. Where the
source has tokens, it is held to the ordered trial as well. Nothing is taken from what the program prints.
"""
import itertools
import sys

import reader_sources as sources
import check_answers
import check_commas
import cut_cases
import name_cases
from descent import descent
from read import Answer, areas, read, with_deep_stack
from scan import scan
from tree import KIND_NAMES
from trial import trial

LARGEST_FILE = 65536  # the program reads a file into a buffer of this size
SMALL = 1023  # sources up to this size are shown word by word
GUARD_WORD, GUARD_BYTE = 2863311530, 255  # what the slices hold before the call
TRIED = 10000  # up to this size the trial is run too
FEWEST = 15  # cases of each number
UNFIT = (14, 15, 16)  # a token does not fit the grammar

# A slice's length: one short of its area, its area, so many more, or none.
SHORT, EXACT, EMPTY = "-", "0", "."
# Three marks: the token slice, the text slice, the tree slice. Each source of a list takes the next of these.
USUAL = ["000", "111", "000", "939"]
# Each of the sources that EVERY names takes all of these: exact, each one short, several short or empty, longer.
ALL = ["000", "-00", "0-0", "00-", "---", "0--", "-0-", "--0", "...", "0..", "99.", "9-9", "100", "010", "001", "999"]
EVERY = [b"", b"a", b"\n", b"'x' + 'y'\n", b"a<b<c\n", b"if a:\n  b\n", b"class A:\n  def f(): 'a'\n", b"\xff", b"a'\xc3'", b"\t", b" ", b"  a\n ", b"'a' !",
         b"9223372036854775808", b"1.0e24", b"'x' \xe2\x82\xac", b"\xed\x95\x9c = '\xc3\xa9'", b"(" * 65, b"'x' )", b"a-1", b"if a:\n  ", b"'x' +", b"'x' +\n", b"'x', = 'y',\n"]


# 1 to 4 at a smallest n.
SMALLEST_SLICES = [([(b" ", 65537)], "000"), (b"", "-00"), (b"a", "0-0"), (b"", "00-")]


def size(area, mark):
    if mark == EMPTY:
        return 0
    return max(area - 1, 0) if mark == SHORT else area + int(mark)


def spelt(pieces):
    """A source as the data files have it: hexadecimal, rows of one piece as PIECE*COUNT, joined by +. An empty one is a dash."""
    if isinstance(pieces, bytes):
        pieces = short_rows(pieces)
    return "+".join(piece.hex() + (f"*{count}" if count > 1 else "") for piece, count in pieces if count) or "-"


def joined(pieces):
    return pieces if isinstance(pieces, bytes) else b"".join(piece * count for piece, count in pieces)


def short_rows(source):
    """Rows of ten and more of one byte are pieces of their own."""
    pieces, plain = [], b""
    for byte, row in itertools.groupby(source):
        count = len(list(row))
        if count < 10:
            plain += bytes([byte]) * count
        else:
            pieces += [(plain, int(plain != b"")), (bytes([byte]), count)]
            plain = b""
    return pieces + [(plain, int(plain != b""))]


def runs(words):
    """Every word of a slice, a row of equal ones as WORD*COUNT."""
    shown = []
    for word, row in itertools.groupby(words):
        count = len(list(row))
        shown.append(f" {word}*{count}" if count > 1 else f" {word}")
    return "".join(shown)


def digest(words):
    """How many words, and two sums of them, each modulo a prime."""
    a = b = 0
    for word in words:
        a = (a * 65599 + word + 1) % 4294967291
        b = (b * 69069 + word + 1) % 4294967279
    return f" {len(words)} {a} {b}"


def written(source, answer):
    """The nodes written, "in a refusal as well, where the answer shows 0 for N"."""
    return len(descent(scan(source)[0]).nodes) if answer.number in (0, 13, *UNFIT) else 0


def agrees(source, answer, records):
    """The ordered trial accepts exactly what the answer accepts, 13 set aside, and with the same records."""
    if answer.number in (0, *UNFIT) and len(source) <= TRIED:
        tree = trial(scan(source)[0])
        assert (tree is not None) == (answer.number == 0), source
        assert tree is None or [word for node in tree for word in node] == records, source


def expected(source, marks):
    """The answer, and the slices as the program shows them."""
    lent = [size(area, mark) for area, mark in zip(areas(len(source)), marks)]
    tokens, text, tree = [GUARD_WORD] * lent[0], bytearray([GUARD_BYTE]) * lent[1], [GUARD_WORD] * lent[2]
    answer = read(source, tokens, text, tree)
    agrees(source, answer, tree[8:8 + 8 * answer.nodes])
    if len(source) <= SMALL:
        shown = [runs(tokens), f" {text.hex()}" if text else "", runs(tree)]
    else:
        shown = [digest(tokens), digest(text), digest(tree)]
    kinds = {tree[8 + 8 * node] for node in range(answer.nodes)}
    return answer, " ".join(map(str, [*answer, written(source, answer)])) + "".join(" |" + part for part in shown), kinds


def with_marks(listed, usual=USUAL):
    return [(source, marks) for source, marks in zip(listed, itertools.cycle(usual))]


def lists():
    """For each file its cases: a source, as bytes or as a row of pieces, and its marks."""
    by_paper = [case[0] for case in [*sources.SCRIPTS, *sources.SMALLEST, *check_answers.COUNTED]]
    refused = [*sources.scripts(sources.SIMPLES_REFUSED), *sources.scripts(sources.BLOCKS_REFUSED)]
    yield "document", [(source, marks) for source in dict.fromkeys(by_paper) for marks in ("000", "939")] + SMALLEST_SLICES + with_marks(sources.KINDS)
    yield "slices", [(source, marks) for source in EVERY for marks in ALL]
    yield "statements", with_marks([*sources.scripts(sources.SIMPLES), *sources.scripts(sources.BLOCKS), *refused])
    yield "expressions", with_marks(sources.expressions())
    yield "scanner", with_marks([*sources.scanner(), *sources.ill_formed(), *sources.order()])
    yield "names", with_marks(sources.names())
    yield "floats", with_marks(sources.floats())
    yield "commas", with_marks(sources.commas())
    yield "limits", with_marks([source for source, _ in [*sources.nested(), *sources.mixed()]]) + with_marks(sources.longest(), ["000", "999"]) + at_the_limits()
    yield "generated", with_marks([*sources.generated(140, 11), *sources.soups(60, 12)])
    yield "damaged", with_marks(sources.damaged(300, 13))
    known = {*by_paper, *sources.expressions(), *sources.scripts(sources.SIMPLES), *sources.scripts(sources.BLOCKS), *refused}
    cut = [source for source in dict.fromkeys(sources.cut()) if source not in known]
    yield "cut", with_marks(cut)
    yield "prefixes", with_marks([source for source in dict.fromkeys(sources.prefixes()) if source not in known.union(cut)])


def at_the_limits():
    """1 comes before 2, 3 and 4; and these at the largest n."""
    most, more = [(b"\n", sources.MOST)], [(b"\n", sources.MOST + 1)]
    return [(more, "---"), (more, "..."), (more, "0-0"), (most, "-00"), (most, "0-0"), (most, "00-"), (most, "--0"), (most, "..."), ([(b"\xff", sources.MOST + 1)], "000")]


def hold_to_the_paper():
    """What document 01 says itself: number and place of its scripts, the empty script's counts, the tree of `a<b<c` word by word; and what was counted or
    told by hand from the sentences of 01 and 02: openings and nodes written of some scripts, who is accepted, who is too deep, which script has which kind,
    span, r and s of each Float of the scripts of float_cases, N, kinds and spans of those of comma_cases, number and place of those of name_cases and cut_cases."""
    check_answers.scripts_of_01()
    check_answers.counted()
    check_answers.floats()
    check_commas.by_hand()
    check_commas.longest()
    for source, number in [*sources.nested(), *sources.mixed()]:
        assert expected(source, "000")[0].number == number, source
    for number, (source, marks) in enumerate(SMALLEST_SLICES, 1):
        assert expected(joined(source), marks)[0] == Answer(number, 0, 0, 0, 0, 0)
    by_hand = [(text.encode(), number, place) for text, number, place in name_cases.BY_HAND] + list(cut_cases.cases())
    for source, number, place in sources.SCRIPTS + sources.SMALLEST + by_hand:
        answer, _, _ = expected(source, "000")
        assert (answer.number, answer.place) == (number, place), source
    assert expected(b"", "000")[0] == Answer(0, 0, 0, 1, 0, 1)
    assert expected(b"a<b<c\n", "000")[1].endswith(CHAIN)
    for block, fits in ((sources.SIMPLES, True), (sources.BLOCKS, True), (sources.SIMPLES_REFUSED, False), (sources.BLOCKS_REFUSED, False)):
        for source in sources.scripts(block):
            assert (expected(source, "000")[0].number == 0) == fits, source
    for kind, source in enumerate(sources.KINDS, 1):
        assert kind in expected(source, "000")[2], (kind, source)


# The printed tree of 01, with 02's version, as words: the header, 8 records without their index and with none as 4294967295, and zeros up to the area's 112 words.
HEADER, *RECORDS = map(str.split, check_answers.A_CHAIN.split("\n"))
CHAIN = runs([4294967295 if word == "-" else int(word) for line in [HEADER, *(record[1:] for record in RECORDS)] for word in line] + [0] * 40)


def main():
    crate = sys.argv[1]
    hold_to_the_paper()
    stdout, numbers, kinds, names = [], {}, set(), []
    for name, cases in lists():
        lines = {}
        for source, marks in cases:
            line = f"{marks} {spelt(source)}"
            if line not in lines:
                answer, shown, made = expected(joined(source), marks)
                lines[line] = shown
                numbers[answer.number] = numbers.get(answer.number, 0) + 1
                kinds |= made
        text = "".join(line + "\n" for line in lines)
        assert len(text) < LARGEST_FILE, (name, len(text))
        open(f"{crate}/data/{name}", "w").write(text)
        stdout += [f"{line} = {shown}\n" for line, shown in lines.items()]
        names.append(name)
        print(f"{name}: {len(lines)} cases, {len(text)} bytes")
    assert kinds == set(range(1, len(KIND_NAMES) + 1)), kinds
    assert all(numbers.get(number, 0) >= FEWEST for number in range(17) if number != 12) and 12 not in numbers, numbers
    open(f"{crate}/args", "w").write("".join(name + "\n" for name in names))
    open(f"{crate}/stdout", "w").write("".join(stdout))
    print(f"{len(stdout)} cases, {sum(map(len, stdout))} bytes; " + ", ".join(f"{number}: {numbers[number]}" for number in sorted(numbers)))


if __name__ == "__main__":
    with_deep_stack(main)
