"""Checks of change 6 of document 02: texts by hand, the lent slices, 17 and 18, the laws of every
text, and texts as long as can be.

    python3 tools/reference/check_write.py           all of these, as check.py runs them
    python3 tools/reference/check_write.py --wrong   that they find each of the wrong writers
"""
import functools
import random
import sys
import time

import write
import write_cases
import write_forms
import write_laws
import wrong_writers
from read import LONGEST, areas, read, with_deep_stack
from scan import Code, scan
from write import Written
from write_laws import SHOWN, all_needed, placeless, scanned

GUARD = 7

# The writer under check: wrong ones take its place.
writer = write


def writes(source, strings, nodes, room=LONGEST):
    """The writer's answer and what it leaves in a slice of so many bytes."""
    lent = bytearray([GUARD]) * room
    return writer.write(source, strings, nodes, lent), bytes(lent)


def zeroed(lent):
    return lent.count(0) == len(lent)


def text_of(source, strings, nodes, room=LONGEST):
    """The text; None where the writer refuses. Else the slice is as 02 says."""
    done, lent = writes(source, strings, nodes, room)
    # "a number without a named place has place 0"; "both zero that slice"
    if done.number:
        assert done in (Written(17, 0, 0), Written(18, 0, 0)), (source[:SHOWN], done)
        assert zeroed(lent), (source[:SHOWN], done)
        return None
    # "a text written is answered by 0 and its length, the slice past it zeroed"
    assert done == Written(0, 0, done.length) and zeroed(lent[done.length:]), (source[:SHOWN], done)
    return lent[:done.length]


def accepted(source):
    """The strings and the records of a source that the reader accepts."""
    made = scanned_once(source) if len(source) <= SHOWN else scanned(source)
    assert made is not None, source[:SHOWN]
    return made


# Short sources are read once for all the wrong writers.
scanned_once = functools.cache(scanned)


def by_hand():
    cases = list(write_cases.scripts())
    for source, text in cases:
        assert text_of(source, *accepted(source)) == text, (source, text)
        # "writing that again gives the same text"
        assert text_of(text, *accepted(text)) == text, text
    return 2 * len(cases)


def slices():
    """Slices of no byte, one too few, just enough, more, and more than any text may have."""
    cases = 0
    for source, text in write_cases.scripts():
        strings, nodes = accepted(source)
        n = len(text)
        for room in {0, max(n - 1, 0), n, n + 1, n + 9, LONGEST + 3}:
            given = text_of(source, strings, nodes, room)
            assert given == (text if room >= n else None), (source, room)
            if given is None:
                assert writes(source, strings, nodes, room)[0].number == 18, (source, room)
            cases += 1
    return cases


def whole(source, room):
    """read_and_write, with the reader's three slices beside those that read leaves alone."""
    sizes = areas(len(source))
    ours, alone = ([[GUARD] * sizes[0], bytearray([GUARD]) * sizes[1], [GUARD] * sizes[2]]
                   for _ in range(2))
    lent = bytearray([GUARD]) * room
    given, done = writer.read_and_write(source, *ours, lent)
    # "a part's refusal leaves the accepted tree"
    assert given == read(source, *alone) and ours == alone, source
    return given, done, lent


def refusals():
    """"Once the reader has accepted, the writer answers 17 where some block has no statement and
    then 18": 17 in any room. "a refusal by the reader leaves the part's own slice"."""
    cases = 0
    for source in write_cases.EMPTY:
        for room in (0, 1, 5, 300, LONGEST + 1):
            given, done, lent = whole(source.encode(), room)
            assert (given.number, done) == (0, Written(17, 0, 0)), (source, given, done)
            assert zeroed(lent), source
            cases += 1
    for source, number in write_cases.LIKE_EMPTY:
        given, done, lent = whole(source.encode(), 20)
        assert given.number == number, (source, given)
        if number:
            assert done == Written(number, given.place, 0) and set(lent) == {GUARD}, source
        else:
            assert done.number == 0, source
        cases += 1
    return cases


def limits():
    """A text of 65,536 bytes and one of 65,537, in slices of these lengths and more; and 17 before
    18 where no room would do."""
    cases = 0
    for size in (LONGEST, LONGEST + 1):
        source = b"n" * (size - 5) + b"=b"
        strings, nodes = accepted(source)
        for room in (size - 1, size, size + 5):
            fits = size == LONGEST and room >= size
            text = source[:-2] + b" = b\n" if fits else None
            assert text_of(source, strings, nodes, room) == text, (size, room)
            cases += 1
    source = b"n" * LONGEST
    assert writes(source, *accepted(source), LONGEST)[0] == Written(18, 0, 0)
    source = b"n" * (LONGEST - 9) + b"\nif a:\n  "
    assert writes(source, *accepted(source), LONGEST)[0] == Written(17, 0, 0)
    return cases + 2


def lawful(source):
    """The laws on one source: how many parentheses and commas of its text were tried."""
    strings, nodes = accepted(source)
    tokens, _ = scan(source)
    # The Dedent behind an Indent: a Block that has no Line.
    empty = any(token.code == Code.Indent and after.code == Code.Dedent
                for token, after in zip(tokens, tokens[1:]))
    text = text_of(source, strings, nodes)
    assert (text is None) == empty, source[:SHOWN]
    if text is None:
        assert writes(source, strings, nodes)[0].number == 17, source
        return 0
    alike = list(placeless(source, strings, nodes))
    tokens = write_laws.hold(alike, text, text_of)
    return all_needed(text, tokens, alike)


def pairs():
    """Every form within every form. Needed parentheses are many among them."""
    cases = tried = 0
    for source in write_forms.pairs():
        tried += lawful(source)
        cases += 1
    assert tried >= 1000, tried
    return cases


def generated():
    rng = random.Random(7)
    cases = 0
    for source in write_forms.deeper(rng, 1200):
        if scanned(source) is not None:  # else too deep
            lawful(source)
            cases += 1
    assert cases >= 1100, cases
    return cases


def by_chance():
    """Of these the reader accepts some, and the writer some of those."""
    cases = empty = 0
    for source in write_forms.by_chance(random.Random(8)):
        made = scanned(source)
        if made is not None:
            lawful(source)
            cases += 1
            empty += writes(source, *made)[0].number == 17
    assert cases >= 3000 and empty >= 15, (cases, empty)
    return cases


def nested():
    """The text's depth is never larger: 13 does not come, at the limit either."""
    cases = 0
    for sort in write_forms.generate.NESTED:
        for depth in (62, 63):
            lawful(write_forms.generate.nested(sort, depth))
            cases += 1
    return cases


def longest():
    """Rows of 65,536 bytes of text, and of one more: 18, though the source is no longer than 65,536
    and the slice would hold it."""
    for row in write_forms.ROWS:
        source, text = write_forms.at_length(row, LONGEST)
        strings, nodes = accepted(source)
        assert text_of(source, strings, nodes, LONGEST + 1) == text, source[:SHOWN]
        write_laws.hold(list(placeless(source, strings, nodes)), text, text_of)
    for row in write_forms.ROWS[::4]:
        source, _ = write_forms.at_length(row, LONGEST + 1)
        assert len(source) <= LONGEST, source[:SHOWN]
        assert writes(source, *accepted(source), LONGEST + 5)[0].number == 18, source[:SHOWN]
    return len(write_forms.ROWS) + len(write_forms.ROWS[::4]) + far_longer()


def far_longer():
    """Sources whose text is far longer than they are."""
    deep = b"".join(b"  " * level + b"if a:\n" for level in range(62)) + b"  " * 62
    sources = [deep + b"a;" * 4000 + b"\n", b"a<" * 32767 + b"aa", b"-" * 65535 + b"a"]
    for source in sources:
        assert writes(source, *accepted(source), 3 * LONGEST)[0].number == 18, source[:SHOWN]
    return len(sources)


PARTS = [
    ("texts by hand", by_hand),
    ("slices for a text", slices),
    ("17, 18 and the reader's refusals", refusals),
    ("the longest text and one more byte", limits),
    ("texts of every form within every form", pairs),
    ("texts of deeper forms and of scripts", generated),
    ("texts of what the reader accepts by chance", by_chance),
    ("texts at the limit of depth", nested),
    ("texts of 65,536 bytes and more", longest),
]


def find_wrong():
    """Each wrong writer in the writer's place: some part must find it."""
    global writer
    for what, wrong in wrong_writers.writers():
        writer, began = wrong, time.time()
        for name, part in PARTS:
            try:
                part()
            except (AssertionError, LookupError, TypeError):
                print(f"{what}: {name} ({time.time() - began:.1f} s)", flush=True)
                break
        else:
            sys.exit(f"{what}: NOT FOUND")
    writer = write


def main():
    if sys.argv[1:] == ["--wrong"]:
        return find_wrong()
    for name, part in PARTS:
        began = time.time()
        print(f"{name}: {part()} ({time.time() - began:.1f} s)", flush=True)


if __name__ == "__main__":
    with_deep_stack(main)
