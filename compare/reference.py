"""Compares a library's answers with those of tools/reference, on generated sources, many of which are cut short or refused.

    tools/staticlib.sh
    python3 compare/reference.py [--count N] [--seed S] [--library FILE]

The library is the verified one, or the plain reader of compare/ in its place: compare/plain.sh, and --library target/plain/libffi.a. All six numbers of the
answer must be the same, and of an accepted source the header, all records and the text. It prints how many sources each number answered; at the first
difference it prints that and ends with status 1. The nodes written before a refusal are not compared: the answer does not show them.
"""
import argparse
import collections
import os
import random
import sys

from cpython import BATCH, ROOT, build, read_all, read_by_reference, reference

reference()  # from here on modules of tools/reference are found
import generate  # noqa: E402
from scan import Refusal, scan  # noqa: E402

# What may stand behind a cut.
ENDS = [b"", b"", b"\n", b"\n", b"\n", b" ", b" # c", b"\r\n", b" # c\n", b"\n\n", b"\nb\n", b"\n  b\n", b")", b" ,\n", b"]\n", b"\n\r-a", b"\n\rnot(a)\n", b"\n\rreturn", b"\n\r(a"]


def cut(rng):
    """A short script cut behind a token or anywhere, with an end or with the rest on a line of its own."""
    source = generate.script(rng, 2, 2)[:300]
    place = rng.randrange(len(source) + 1)
    if rng.random() < 0.7:
        try:
            place = rng.choice(scan(source)[0]).end
        except Refusal:
            pass
    return source[:place] + (b"\n" + source[place:] if rng.random() < 0.1 else rng.choice(ENDS))


def sources(count, seed):
    rng = random.Random(seed)
    for _ in range(count):
        sort = rng.random()
        if sort < 0.2:
            source = generate.soup(rng, rng.randrange(1, 14))
        elif sort < 0.3:
            source = generate.script(rng, 3, 2)
        elif sort < 0.5:
            source = generate.damaged(rng, generate.script(rng, 3, 2))
        elif sort < 0.55:
            source = generate.damaged(rng, generate.nested(rng.choice(generate.NESTED), rng.randrange(58, 68)))
        else:
            source = cut(rng)
        yield source


def compare(arguments):
    driver, numbers = build(arguments.library), collections.Counter()
    todo = list(sources(arguments.count, arguments.seed))
    for first in range(0, len(todo), BATCH):
        batch = todo[first:first + BATCH]
        for source, ours, theirs in zip(batch, read_all(driver, batch), read_by_reference(batch)):
            numbers[theirs[0][0]] += 1
            if ours[0] != theirs[0] or ours[0][0] == 0 and ours != theirs:
                print(f"{source!r}: {ours} by the library, {theirs} by tools/reference")
                return 1
    print(f"{len(todo)} sources, {sum(map(len, todo))} bytes, no difference")
    print(", ".join(f"{number}: {numbers[number]}" for number in sorted(numbers)))
    return 0


def main():
    parser = argparse.ArgumentParser()
    parser.add_argument("--count", type=int, default=20000)
    parser.add_argument("--seed", default="1")
    parser.add_argument("--library", default=os.path.join(ROOT, "target", "staticlib", "libffi.a"))
    arguments = parser.parse_args()
    return reference().with_deep_stack(lambda: compare(arguments))


if __name__ == "__main__":
    sys.exit(main())
