"""Compares the reader's trees with CPython's, on generated sources that both accept.

    tools/staticlib.sh
    python3 compare/cpython.py [--count N] [--seed S] [--library FILE]

Each source of python_sources.py is read by CPython, whose nodes and tokens python_tree.py puts into the words of document 01, and by the reader through
the static library. All words of all N records, the text, T, N and all of the answer and the header but the openings must be the same. It prints what
was compared and the shortest sources that differ; the exit status is 1 where there is one.

    python3 compare/cpython.py --reference [--count N] [--seed S]

compares tools/reference in the same way, the reader in Python from which other stored cases are made, and wants no library.

    python3 compare/cpython.py --cases crates/python_cases

writes the fixed sample that `rt ci` replays, with what CPython says of it. This runs no program of this repository.
"""
import argparse
import collections
import functools
import importlib
import os
import platform
import struct
import subprocess
import sys

import python_cases
from python_sources import sources
from python_tree import KIND, KINDS, OPERATORS, VERSION, Tree

HERE = os.path.dirname(os.path.abspath(__file__))
ROOT = os.path.dirname(HERE)

BATCH = 1000
# Departures of 01 from the Reference that CPython's `ast` reads: each run tries first that these are seen as different.
DEPARTURES = [
    "not a == b\n", "a-1\n", "-1 .b\n", "- 1.5 + -1.5\n", "a[b,]\n", "for a in b,: c\n", "()\n", "(a,\nb)\n", "1_0\n", "'\\x41'\n", "'a' 'b'\n",
    "if a:\n    b\n", "if a:\n\tb\n", "if a:\n  b", "a\n  ", "if a: b\n\nelse: c\n", "class A:\n  def f(): b\n\na\n",
]


def build(library):
    """The driver that reads sources through the library."""
    if not os.path.exists(library):
        sys.exit(f"no {library}: tools/staticlib.sh writes it")
    folder = os.path.join(ROOT, "target", "compare")
    os.makedirs(folder, exist_ok=True)
    driver = os.path.join(folder, "words")
    subprocess.run(["gcc", "-O2", "-o", driver, os.path.join(HERE, "words.c"), library], check=True)
    return driver


def read_all(driver, batch):
    """For each source the six numbers, and where it is accepted header, records and text."""
    request = b"".join(struct.pack("<I", len(data)) + data for data in batch)
    reply = subprocess.run([driver], input=request, stdout=subprocess.PIPE, check=True).stdout
    at = 0
    for _ in batch:
        answer = struct.unpack_from("<6I", reply, at)
        at += 24
        if answer[0]:
            yield answer, (), [], b""
            continue
        words = struct.unpack_from(f"<{8 + 8 * answer[3]}I", reply, at)
        at += 4 * len(words)
        yield answer, words[:8], [list(words[i:i + 8]) for i in range(8, len(words), 8)], reply[at:at + answer[4]]
        at += answer[4]
    assert at == len(reply)


@functools.cache
def reference():
    """The module of tools/reference that reads a source. The stored cases are made without it."""
    sys.path.insert(0, os.path.join(ROOT, "tools", "reference"))
    return importlib.import_module("read")


def read_by_reference(batch):
    """The same by tools/reference."""
    for data in batch:
        tokens, text, tree = reference().areas(len(data))
        decoded, words = bytearray(text), [0] * tree
        answer = reference().read(data, [0] * tokens, decoded, words)
        end = 8 + 8 * answer.nodes
        yield tuple(answer), tuple(words[:8]), [words[i:i + 8] for i in range(8, end, 8)], bytes(decoded[:answer.text])


def difference(tree, answer, header, records, text):
    """What of the reader's answer is not as CPython says, or None."""
    if answer[0]:
        return f"refused by {answer[0]} at {answer[1]}"
    count = len(tree.records)
    if answer[:5] != (0, 0, tree.count, count, len(tree.text)):
        return f"answer {answer}, by CPython {tree.count} tokens, {count} nodes and {len(tree.text)} bytes of text"
    if header != (VERSION, count, tree.count, len(tree.text), 8, count - 1, answer[5], tree.size):
        return f"header {header}"
    for number, (ours, theirs) in enumerate(zip(records, tree.records)):
        if ours != theirs:
            return f"node {number} is {KINDS[ours[0] - 1]} {ours}, by CPython {KINDS[theirs[0] - 1]} {theirs}"
    return None if text == tree.text else f"text {text!r}, by CPython {tree.text!r}"


class Figures:
    def __init__(self):
        self.kinds, self.operators = collections.Counter(), collections.Counter()
        self.noted, self.sources, self.bytes, self.longest = collections.Counter(), 0, 0, 0
        self.differences = []

    def add(self, tree):
        self.sources += 1
        self.bytes += tree.size
        self.longest = max(self.longest, tree.size)
        self.noted.update(tree.noted)
        for record in tree.records:
            self.kinds[KINDS[record[0] - 1]] += 1
            if record[0] == KIND["Binary"]:
                self.operators[OPERATORS[record[4] - 1]] += 1
            if record[0] == KIND["Unary"]:
                self.operators["before: " + ("not", "-", "+")[record[4] - 1]] += 1

    def show(self):
        print(f"CPython {platform.python_version()}: {self.sources} sources, {self.bytes} bytes, the longest {self.longest}")
        print(f"nodes {sum(self.kinds.values())}:", ", ".join(f"{kind} {self.kinds[kind]}" for kind in KINDS))
        print("operators:", ", ".join(f"{name} {self.operators[name]}" for name in sorted(self.operators)))
        print("among them:", ", ".join(f"{name} {self.noted[name]}" for name in sorted(self.noted)))

    def show_differences(self):
        print("differences:", len(self.differences))
        for source, what in sorted(self.differences, key=lambda pair: len(pair[0]))[:10]:
            print(repr(source), what)


def try_departures(reader):
    for source, reply in zip(DEPARTURES, reader([source.encode() for source in DEPARTURES])):
        if difference(Tree(source), *reply) is None:
            sys.exit(f"no difference seen: {source!r}")


def compare(arguments):
    reader = read_by_reference if arguments.reference else functools.partial(read_all, build(arguments.library))
    try_departures(reader)
    figures, batch = Figures(), []

    def finish():
        for source, reply in zip(batch, reader([source.encode() for source in batch])):
            try:
                tree = Tree(source)
            except SyntaxError as error:
                figures.differences.append((source, f"refused by CPython: {error}"))
                continue
            figures.add(tree)
            what = difference(tree, *reply)
            if what:
                figures.differences.append((source, what))
        batch.clear()

    for source in sources(arguments.count, arguments.seed):
        batch.append(source)
        if len(batch) == BATCH:
            finish()
    finish()
    figures.show()
    figures.show_differences()
    return 1 if figures.differences else 0


def main():
    parser = argparse.ArgumentParser()
    parser.add_argument("--count", type=int, default=20000)
    parser.add_argument("--seed", default="1")
    parser.add_argument("--library", default=os.path.join(ROOT, "target", "staticlib", "libffi.a"))
    parser.add_argument("--reference", action="store_true")
    parser.add_argument("--cases")
    arguments = parser.parse_args()
    if arguments.cases:
        figures = Figures()
        for tree in python_cases.write(arguments.cases):
            figures.add(tree)
        figures.show()
        return 0
    return reference().with_deep_stack(lambda: compare(arguments))


if __name__ == "__main__":
    sys.exit(main())
