"""Compares three writers of change 6 of document 02: tools/reference/write.py and the plain writer of compare/src/writer, each made from 02 by a hand of its own, and the
verified one through the static library.

    python3 -B compare/written.py [--count N] [--seed S] [--driver FILE]

All are given the same sources, and slices of the same lengths; number, place and length of the answer and every byte of the slice must be the same, and where a text
is known by hand, it must be that. Each text is then given to all as a source, in a slice as long as it is: the readers must accept it and the writers give it again,
and its nodes, by tools/reference, must be the source's apart from places. N sources are random, by the generators of tools/reference, and half as many by those of the
driver; the others are the same in each run, but that of the driver's nests a run takes one in five, which ones by the seed. It prints how many sources each number
answered, and the shortest that differ; the exit status is 1 where there is one. compare/write.sh builds the driver unless another is named.
"""
import argparse
import collections
import functools
import itertools
import multiprocessing
import os
import random
import re
import struct
import subprocess
import sys
import time

from cpython import BATCH, HERE, ROOT, reference
from reference import cut

reference()  # from here on modules of tools/reference are found
import generate  # noqa: E402
import write_cases  # noqa: E402
import write_forms  # noqa: E402
from characters import Untold  # noqa: E402
from read import LONGEST, areas, with_deep_stack  # noqa: E402
from write import read_and_write  # noqa: E402
from write_laws import placeless  # noqa: E402

# The driver's words for its two writers.
SIDES = {"--writes": "the plain writer", "--library-writes": "the library"}
# What the lent slices hold before: DIRT of compare/src/lent.rs.
DIRT = 0xA5
# Of the driver's nests each run takes one of so many.
NESTS = 5
# How much of a long source is shown.
SHOWN = 300
Asked = collections.namedtuple("Asked", "sort source room text", defaults=[None])


# The sides: for each source and length of a slice the three numbers of the answer, and the slice.

def build():
    """The driver, and the library that it links."""
    said = subprocess.run([os.path.join(HERE, "write.sh"), "--build"], stdout=subprocess.PIPE, check=True, text=True).stdout
    return os.path.join(ROOT, said.strip())


def by_side(driver, side, asked):
    request = b"".join(struct.pack("<2I", room, len(source)) + source for source, room in asked)
    reply = subprocess.run([driver, side], input=request, stdout=subprocess.PIPE, check=True).stdout
    at = 0
    for _, room in asked:
        yield struct.unpack_from("<3I", reply, at), reply[at + 12:at + 12 + room]
        at += 12 + room
    assert at == len(reply)


def by_driver(driver, asked):
    """What each side of the driver made, side by side."""
    return zip(*(by_side(driver, side, asked) for side in SIDES))


def by_reference(source, room):
    """The nodes too, as they are apart from places."""
    tokens, text, tree = areas(len(source))
    decoded, words, lent = bytearray(text), [0] * tree, bytearray([DIRT]) * room
    given, done = read_and_write(source, [0] * tokens, decoded, words, lent)
    records = [words[at:at + 8] for at in range(8, 8 + 8 * given.nodes, 8)]
    return (tuple(done), bytes(lent)), list(placeless(source, bytes(decoded), records))


# Sources.

def by_hand(sort, cases):
    """Each in a slice just as long as the text, in one too short and in a longer one."""
    for source, text in cases:
        yield from (Asked(sort, source, max(len(text) + more, 0), text) for more in (0, -1, 9))


RUST_STRING = r'"((?:[^"\\]|\\.)*)"'


def rust_string(spelt):
    escapes = {"n": "\n", "t": "\t", "r": "\r"}
    return re.sub(r"\\(?:u\{([0-9a-f]+)\}|(.))", lambda found: chr(int(found[1], 16)) if found[1] else escapes.get(found[2], found[2]), spelt).encode()


def of_rust_tests():
    """Source and text of each pair of strings in the tests of the plain writer; of an expression's text the line feed is added."""
    for name in ("expressions", "lines"):
        with open(os.path.join(HERE, "src", "tests", "written", f"{name}.rs"), encoding="utf8") as file:
            for source, text in re.findall(rf"\({RUST_STRING}, {RUST_STRING}\)", file.read()):
                text = rust_string(text)
                yield rust_string(source), text if name == "lines" or text.endswith(b"\n") else text + b"\n"


def empty_of_rust_tests():
    with open(os.path.join(HERE, "src", "tests", "written", "refused.rs"), encoding="utf8") as file:
        empty = re.search(r"let empty = \[(.*?)\];", file.read(), re.DOTALL)[1]
    return [rust_string(spelt) for spelt in re.findall(RUST_STRING, empty)]


def fixed():
    for number, row in enumerate(write_forms.ROWS):
        source, text = write_forms.at_length(row, LONGEST)
        yield Asked("texts of 65,536 bytes", source, LONGEST + number % 3, text)
        if number % 3 == 0:
            yield Asked("texts of 65,537 bytes", write_forms.at_length(row, LONGEST + 1)[0], LONGEST + 9)
    yield Asked("texts of 65,537 bytes", b"n" * LONGEST, LONGEST + 1)
    yield from by_hand("by hand, tools/reference", write_cases.scripts())
    rust = list(of_rust_tests())
    yield from by_hand("by hand, compare", rust)
    for source, _ in rust:
        if b"\n" not in source:
            for place in write_forms.PLACES:
                yield Asked("by hand, in other places", write_forms.fill(place, itertools.repeat(source.decode())).encode(), 900)
    for source in [*map(str.encode, [*write_cases.EMPTY, *dict(write_cases.LIKE_EMPTY)]), *empty_of_rust_tests()]:
        for room in (0, 9, 900):
            yield Asked("empty blocks, and nearly so", source, room)
    for source in write_forms.pairs():
        yield Asked("forms within forms", source, 900)
    for sort in generate.NESTED:
        for depth in range(60, 67):
            yield Asked("nested", generate.nested(sort, depth), LONGEST)


def some(rng, deeper):
    """A random source, and of which sort it is."""
    sort = rng.random()
    if sort < 0.6:
        return "scripts, and forms of forms", next(deeper)
    if sort < 0.75:
        return "damaged", generate.damaged(rng, generate.script(rng, 2, 2))
    if sort < 0.85:
        return "cut", cut(rng)
    if sort < 0.95:
        script = generate.script(rng, 2, 2)
        return "cut to an empty block", script[:rng.randrange(len(script) + 1)] + rng.choice(write_forms.ENDS)
    return "soups", generate.soup(rng, rng.randrange(1, 9))


def made_by(driver, *words):
    """The sources that the driver makes."""
    reply = subprocess.run([driver, *words], stdout=subprocess.PIPE, check=True).stdout
    at = 0
    while at < len(reply):
        length, = struct.unpack_from("<I", reply, at)
        yield reply[at + 4:at + 4 + length]
        at += 4 + length


def random_ones(driver, count, seed):
    """Mostly with room enough, some with less or none."""
    rng = random.Random(seed)
    deeper = write_forms.deeper(rng, count)
    made = (some(rng, deeper) for _ in range(count))
    nests = (("nests of the driver", source) for source in itertools.islice(made_by(driver, "--nests"), seed % NESTS, None, NESTS))
    theirs = (("generated by the driver", source) for source in made_by(driver, "--sources", "--count", str(count // 2), "--seed", str(seed)))
    for sort, source in itertools.chain(nests, made, theirs):
        yield Asked(sort, source, rng.randrange(2 * len(source) + 2) if rng.random() < 0.1 else 4 * len(source) + 300)


# The comparison.

def compared(driver, batch):
    """What differs, each with its source, and the numbers and texts of each sort."""
    figures = collections.defaultdict(collections.Counter)
    return with_deep_stack(lambda: list(differences(driver, batch, figures))), figures


def shown(side, text):
    """An answer and its slice, without the zeros behind a text."""
    return f"{side[0]} {side[1].rstrip(bytes(1))[:SHOWN]} {text}"


def all_shown(ours, theirs):
    return ", ".join([shown(ours, "by tools/reference"), *(shown(made, f"by {side}") for made, side in zip(theirs, SIDES.values()))])


def differences(driver, batch, figures):
    texts = []
    for one, theirs in zip(batch, by_driver(driver, [(one.source, one.room) for one in batch])):
        try:
            ours, nodes = by_reference(one.source, one.room)
        except Untold:
            figures[one.sort]["set aside"] += 1
            continue
        (number, _, length), lent = ours
        figures[one.sort].update({"sources": 1, "bytes": len(one.source), number: 1})
        if any(made != ours for made in theirs):
            yield one.source, all_shown(ours, theirs)
        elif one.text is not None and (number, lent[:length]) != ((0, one.text) if one.room >= len(one.text) else (18, b"")):
            yield one.source, shown(ours, f"by all, {one.text[:SHOWN]} by hand")
        elif number == 0:
            texts.append((one, lent[:length], nodes))
    for (one, text, nodes), theirs in zip(texts, by_driver(driver, [(text, len(text)) for _, text, _ in texts])):
        ours, again = by_reference(text, len(text))
        figures[one.sort].update({"texts": 1, "bytes of texts": len(text), "other than the source": text != one.source})
        if any(made != ((0, 0, len(text)), text) for made in (ours, *theirs)):
            yield one.source, f"written {text[:SHOWN]}, and again " + all_shown(ours, theirs)
        elif again != nodes:
            yield one.source, f"written {text[:SHOWN]}, which has other nodes"


def show(figures, seconds):
    whole = collections.Counter()
    for sort, figure in figures.items():
        whole.update(figure)
        refused = sum(times for number, times in figure.items() if number in range(1, 17))
        print(f"{sort}: {figure['sources']} sources, {figure['bytes']} bytes; 0: {figure[0]}, 17: {figure[17]}, 18: {figure[18]}, refused by the reader: {refused}")
    print(f"all: {whole['sources']} sources, {whole['bytes']} bytes, {seconds:.0f} seconds")
    print(f"set aside for a character of which tools/reference tells nothing: {whole['set aside']}")
    print("by number:", ", ".join(f"{number}: {whole[number]}" for number in range(19) if whole[number]))
    print(f"texts read and written again by all: {whole['texts']}, {whole['bytes of texts']} bytes, {whole['other than the source']} other than the source")


def compare(arguments):
    driver, begun = arguments.driver or build(), time.time()
    asked = itertools.chain(fixed(), random_ones(driver, arguments.count, arguments.seed))
    batches = iter(lambda: list(itertools.islice(asked, BATCH)), [])
    figures, found = collections.defaultdict(collections.Counter), []
    with multiprocessing.Pool() as pool:
        for differing, counted in pool.imap(functools.partial(compared, driver), batches):
            found += differing
            for sort, figure in counted.items():
                figures[sort].update(figure)
    show(figures, time.time() - begun)
    print("differences:", len(found))
    for source, what in sorted(found, key=lambda pair: len(pair[0]))[:10]:
        print(f"{source[:SHOWN]}: {what}")
    return 1 if found else 0


def main():
    parser = argparse.ArgumentParser()
    parser.add_argument("--count", type=int, default=20000)
    parser.add_argument("--seed", type=int, default=1)
    parser.add_argument("--driver")
    return compare(parser.parse_args())


if __name__ == "__main__":
    sys.exit(main())
