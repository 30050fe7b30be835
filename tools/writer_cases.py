#!/usr/bin/env python3
"""Writes the stored cases of the program `writer_cases` and what it must print. docs/CASES.md says how each list is made.

    python3 tools/writer_cases.py crates/writer_cases

A line of a data file is the three marks of the reader's slices and the source, both spelt as those of reader_cases are, and between them the length of the slice that is
lent for the text. The expected line adds the seven numbers of the answer, length and two sums of each of the reader's slices, and the whole slice of the text: in
hexadecimal up to 1,023 bytes, beyond that by its length and two sums. All slices hold guards before the call. Every expected line is what tools/reference/write.py
answers and leaves there, a writer that was made from document 02 alone; where write_cases has the text by hand, it is held to that, else to the laws of write_laws.
Nothing is taken from what the program prints.
"""
import itertools
import os
import random
import sys

import reader_cases
import reader_sources
import check_write
import generate
import write_cases
import write_forms
from read import LONGEST, areas, with_deep_stack
from write import read_and_write

LARGEST_FILE, SMALL, GUARD_WORD, GUARD_BYTE = reader_cases.LARGEST_FILE, reader_cases.SMALL, reader_cases.GUARD_WORD, reader_cases.GUARD_BYTE
FEWEST = {0: 500, 17: 30, 18: 60, **{number: 4 for number in range(1, 17) if number != 12}}  # cases of each number
# The reader's slices; each case of a list takes the next of these.
MARKS = reader_cases.USUAL
# What a slice has more or less than the text; each source of a list takes the next of these.
USUAL = [0, 0, 7, -1, 0, 100]
# Each source of a few takes all of these.
ALL = [-LONGEST, -2, -1, 0, 1, 2, 64]
# Each refusal takes slices of these lengths: no byte, some, more than its text could have, and one that is shown by its sums.
ANY = [0, 1, 40, 1100]
# Refused by the reader: its numbers 5 to 16.
REFUSED = [b"\xff", b"'a' \xc3", b"\t", b"if a:\n\tb", b" a", b"  a\n ", b"if a:\n  b\n c", b"$", b"9223372036854775808", b"1.0e24", b"(" * 65, b")", b"a b", b"(", b"x =", b"x =\n", b"()",
           b"if a:\n", b"if a:\n  #", b"if a:\n  \r", b"class A:\n  "]
# Refused for their length or their slices, by 1 to 4, though they have a text, an empty block, or another cause of refusal.
UNLENT = [([(b"n", LONGEST + 1)], "000"), ([(b"n", LONGEST + 1)], "..."), (b"a", "-00"), (b"'x'\n", "0-0"), (b"a\n", "00-"), (b"if a:\n  ", "-00"), (b"if a:\n  ", "0-0"), (b"if a:\n  ", "00-"),
          (b"if a:\n  ", "..."), (b"\xff", "00-"), (b"()", "0--"), (b"", "-00"), (b"", "00-")]

# Source and text by hand, where change 6 and what 01 says of its grammar could be read in two ways.
DOCUMENT = [("a - -1", "a - -1\n"), ("- 1", "- 1\n"), ("-1", "-1\n"), ("-1.x", "-1.x\n"), ("1.e5", "1.e5\n"), ("not a == b", "not a == b\n"), ("a == not b", "a == not b\n"),
            ("(lambda: 1)()", "(lambda: 1)()\n"), ("lambda: 1, 2", "lambda: 1, 2\n"), ("lambda: (1, 2)", "lambda: (1, 2)\n"), ("x = 1,", "x = 1,\n"), ("((a,),)", "(a,),\n"), ("[())]", "[())]\n"),
            ("t{}", "t{}\n"), ("(a < b) < c", "(a < b) < c\n"), ("a < b < c and d", "a < b < c and d\n"), ("a and (b and c)", "a and (b and c)\n"),
            ("x = 'a\\'b\"\\n\\q'", 'x = "a\'b\\"\\n\\\\q"\n'), ("007", "7\n"), ("+5", "5\n"), ("if a:b;c", "if a:\n  b\n  c\n"), ("", "")]


def seven(given, done):
    """The reader's six numbers, the writer's in the place of its number and place where it refuses an accepted tree, and the length."""
    return [done.number, done.place, *given[2:], done.length]


def expected(source, marks, room):
    """The writer's answer, the line that shows it, and the text."""
    tokens, text, tree = (reader_cases.size(area, mark) for area, mark in zip(areas(len(source)), marks))
    lent = [GUARD_WORD] * tokens, bytearray([GUARD_BYTE]) * text, [GUARD_WORD] * tree, bytearray([GUARD_BYTE]) * room
    given, done = read_and_write(source, *lent)
    *read, out = lent
    shown = reader_cases.digest(out) if room > SMALL else f" {out.hex()}" if out else ""
    return done, " ".join(map(str, seven(given, done))) + "".join(" |" + part for part in [*map(reader_cases.digest, read), shown]), bytes(out[:done.length])


def roomy(listed, more=USUAL):
    """Sources with slices of about their texts' lengths: of refused ones, of about their own."""
    for source, extra, marks in zip(listed, itertools.cycle(more), itertools.cycle(MARKS)):
        whole = reader_cases.joined(source)
        _, done = read_and_write(whole, *[[0] * area for area in areas(len(whole))], bytearray(LONGEST))
        yield marks, max((done.length if done.number == 0 else min(len(whole), 40)) + extra, 0), source


def refused():
    yield from ((marks, room, source) for source, marks in UNLENT for room in ANY)
    yield from (("000", room, source) for source in REFUSED for room in ANY)
    yield from roomy(reader_sources.damaged(60, 22), [0, 9])


def by_hand():
    """Every text by hand once, and every fourth behind return, as target and value and in a block."""
    scripts = [source for source, _ in write_cases.scripts()]
    expressions = 4 * len(write_cases.expressions())
    return scripts[:expressions:4], [*scripts[1:expressions:16], *scripts[2:expressions:16], *scripts[3:expressions:16]], scripts[expressions:]


def every_room():
    few = [b"", b"#c", b"a", b"a=b", b"a<b<c", b"if a:b;c", b"x='\t'", b"(1,)", b"())", b"a-(b-c)", b"class A:\n  def f():a\n", b"if a:\n  ", b"b\nclass A:\n  def f():\n    "]
    return [case for source in few for case in roomy([source] * len(ALL), ALL)]


def at_the_limit():
    """Texts of 65,536 bytes and of one more, as rows of pieces."""
    for number, row in enumerate(write_forms.ROWS):
        (before, part, behind), (text_before, text_part, text_behind) = row
        for length in (LONGEST, LONGEST + 1) if number % 3 == 0 else (LONGEST,):
            room = length - len(text_before) - len(text_behind) - 2
            count, over = divmod(room, len(text_part))
            pieces = [(b"n", 1 + over), (b"\n" + before.encode(), 1), (part.encode(), count), (behind.encode(), int(behind != ""))]
            yield "000", LONGEST + number % 3 if length == LONGEST else LONGEST + 9, pieces
    # a source of 65,536 bytes with its last line feed and without it, one byte less, and 17 before 18
    most, end = (b"n", LONGEST - 1), (b"\n", 1)
    yield from (("999", room, [most, end]) for room in (LONGEST, LONGEST + 1, LONGEST - 1, 0))
    yield from (("999", room, [most, (b"n", 1)]) for room in (LONGEST, LONGEST + 1, LONGEST + 64))
    yield from (("000", room, [most]) for room in (LONGEST, LONGEST - 1))
    yield from (("000", room, [(b"n", LONGEST - 9), (b"\nif a:\n  ", 1)]) for room in (0, 9, LONGEST))


def generated():
    rng = random.Random(21)
    made = (source for source in write_forms.deeper(rng, 1000) if 8 <= len(source) <= 110 and check_write.scanned(source))
    return list(dict.fromkeys(itertools.islice(made, 230)))


def lists():
    alone, placed, statements = by_hand()
    yield "document", [case for source, _ in DOCUMENT for case in roomy([source.encode()] * 3, [0, -1, 9])]
    yield "expressions", list(roomy(alone))
    yield "places", list(roomy(placed))
    yield "statements", list(roomy(statements))
    yield "slices", every_room()
    yield "empty", list(roomy([source.encode() for source in write_cases.EMPTY], [0, -40])) + list(roomy([source.encode() for source, _ in write_cases.LIKE_EMPTY]))
    yield "refused", list(refused())
    yield "forms", list(roomy(list(dict.fromkeys(write_forms.pairs()))[::11]))
    yield "nested", list(roomy([generate.nested(sort, depth) for sort in generate.NESTED for depth in (62, 63)]))
    yield "generated", list(roomy(generated()))
    yield "limits", list(at_the_limit())


BY_HAND = {**dict(write_cases.scripts()), **{source.encode(): text.encode() for source, text in DOCUMENT}}


def hold(source, text):
    """To what is by hand, or to the laws. check_write asks these of the longest texts."""
    if source in BY_HAND:
        assert text == BY_HAND[source], source
    elif len(source) <= SMALL:
        check_write.lawful(source)


def main():
    crate = sys.argv[1]
    os.makedirs(f"{crate}/data", exist_ok=True)
    stdout, numbers, names = [], {}, []
    for name, cases in lists():
        lines = {}
        for marks, room, source in cases:
            line, whole = f"{marks} {room} {reader_cases.spelt(source)}", reader_cases.joined(source)
            if line not in lines:
                done, lines[line], text = expected(whole, marks, room)
                numbers[done.number] = numbers.get(done.number, 0) + 1
                if done.number == 0:
                    hold(whole, text)
        data = "".join(line + "\n" for line in lines)
        assert len(data) < LARGEST_FILE, (name, len(data))
        open(f"{crate}/data/{name}", "w").write(data)
        stdout += [f"{line} = {shown}\n" for line, shown in lines.items()]
        names.append(name)
        print(f"{name}: {len(lines)} cases, {len(data)} bytes")
    assert all(numbers.get(number, 0) >= fewest for number, fewest in FEWEST.items()), numbers
    open(f"{crate}/args", "w").write("".join(name + "\n" for name in names))
    open(f"{crate}/stdout", "w").write("".join(stdout))
    print(f"{len(stdout)} cases, {sum(map(len, stdout))} bytes; " + ", ".join(f"{number}: {numbers[number]}" for number in sorted(numbers)))


if __name__ == "__main__":
    with_deep_stack(main)
