"""Compares standard texts with their sources, by CPython's own `ast`.

    python3 -B compare/cpython_write.py [--count N] [--seed S] [--driver FILE]

Each source of python_sources.py is read and written by the verified writer, through the static library; CPython must read the text as it reads the source, by `ast.dump`
with no places. It prints what was compared and the shortest sources that differ; the exit status is 1 where there is one. compare/write.sh builds the driver unless
another is named.

    python3 -B compare/cpython_write.py --reference [--count N] [--seed S]

asks the same of the texts that tools/reference/write.py gives, and wants no library.

Where 01 departs from the Reference, CPython is told so: "Int: optional sign, digits", and a text has an Int's minus only; "All group left", so `(a and b) and c` is
`a and b and c`. Some texts leave the subset that is shared, since 02 has no parentheses where 01 needs none: `not` as the operand of a tighter operator, and an Int before a
dot or bracket. CPython gets these with parentheses there.
"""
import argparse
import ast
import collections
import itertools
import platform
import sys
import warnings

from cpython import BATCH, reference
from python_sources import sources

reference()  # from here on modules of tools/reference are found
from descent import descent  # noqa: E402
from read import LONGEST, with_deep_stack  # noqa: E402
from scan import scan  # noqa: E402
from tree import END, P, START, Kind  # noqa: E402
from write import standard_text  # noqa: E402
from written import build, by_side  # noqa: E402

NOT, WORDS = 1, (13, 14)  # operators of 01: not; and, or
# What each run tries first: a source, and a text that has another tree.
WRONG = [("a - (b - c)\n", "a - b - c\n"), ("(a < b) < c\n", "a < b < c\n"), ("a < b and b < c\n", "a < b < c\n"), ("(a,),\n", "a,\n"), ("- 1\n", "1\n"), ("'\\n'\n", '"n"\n'),
         ("lambda: (1, 2)\n", "lambda: 1, 2\n"), ("a and (b and c)\n", "a and b and c\n"), ("0.10\n", "0.01\n"), ("if a: b\nelse: c\n", "if a:\n  b\nc\n")]


class AsIn01(ast.NodeTransformer):
    """What 01 reads otherwise, as 01 reads it."""

    def visit_UnaryOp(self, node):
        """The sign that touches an Int's digits is the Int's own: of plus, and of minus before 0, the text has nothing."""
        self.generic_visit(node)
        digits = node.operand
        touching = isinstance(digits, ast.Constant) and type(digits.value) is int and (digits.lineno, digits.col_offset) == (node.lineno, node.col_offset + 1)
        if touching and (isinstance(node.op, ast.UAdd) or isinstance(node.op, ast.USub) and digits.value == 0):
            return digits
        return node

    def visit_BoolOp(self, node):
        """"All group left": a first operand of the same operator is a part of the row."""
        self.generic_visit(node)
        first = node.values[0]
        if isinstance(first, ast.BoolOp) and type(first.op) is type(node.op):
            node.values[:1] = first.values
        return node


def dumped(source):
    with warnings.catch_warnings():
        warnings.simplefilter("ignore")
        return ast.dump(AsIn01().visit(ast.parse(source)))


def by_reference(source):
    """The text, however long."""
    tokens, strings = scan(source)
    done = descent(tokens)
    assert done.number == 0, (source, done)
    return standard_text(source, strings, done.nodes)


def parted(nodes):
    """The nodes of a text that CPython would read as something else where they stand."""
    for kind, _, _, _, p, q, r, _ in nodes:
        if kind in (Kind.Call, Kind.Attribute, Kind.Index) and nodes[p][0] == Kind.Int:
            yield p
        operands = [q] if kind == Kind.Unary and p != NOT else [q, r] if kind == Kind.Binary and p not in WORDS else []
        yield from (operand for operand in operands if nodes[operand][0] == Kind.Unary and nodes[operand][P] == NOT)


def for_python(text):
    """The text with parentheses around those, and how many."""
    nodes = descent(scan(text)[0]).nodes
    put = collections.Counter()
    chosen = set(parted(nodes))
    for number in chosen:
        put[nodes[number][START], b"("] += 1
        put[nodes[number][END], b")"] += 1
    for (place, mark), count in sorted(put.items(), reverse=True):
        text = text[:place] + mark * count + text[place:]
    return text.decode(), len(chosen)


def by_library(driver, batch):
    """The texts; None for 18, where the text must be over 65,536 bytes by tools/reference."""
    asked = [(source, LONGEST) for source in batch]
    for source, ((number, _, length), lent) in zip(batch, by_side(driver, "--library-writes", asked)):
        assert number == 0 or number == 18 and len(by_reference(source)) > LONGEST, (source, number)
        yield lent[:length] if number == 0 else None


def written(made, driver):
    """Each source and its text, by the library where a driver is given."""
    for batch in iter(lambda: list(itertools.islice(made, BATCH)), []):
        encoded = [source.encode() for source in batch]
        yield from zip(batch, by_library(driver, encoded) if driver else map(by_reference, encoded))


def compare(count, seed, driver):
    assert all(dumped(source) != dumped(text) for source, text in WRONG)
    figures, differences = collections.Counter(), []
    for source, text in written(iter(sources(count, seed)), driver):
        if text is None:
            figures["refused by 18"] += 1
            continue
        asked, put = for_python(text)
        try:
            same = dumped(source) == dumped(asked)
        except SyntaxError as error:
            same, text = False, text + f" ({error})".encode()
        figures.update({"sources": 1, "with another text": text != source.encode(), "with parentheses for CPython": put > 0, "bytes of text": len(text)})
        if not same:
            differences.append((source, text.decode()))
    print(f"CPython {platform.python_version()}:", ", ".join(f"{what} {figures[what]}" for what in sorted(figures)))
    print("differences:", len(differences))
    for source, text in sorted(differences, key=lambda pair: len(pair[0]))[:10]:
        print(repr(source[:300]), repr(text[:300]))
    return 1 if differences else 0


def main():
    parser = argparse.ArgumentParser()
    parser.add_argument("--count", type=int, default=20000)
    parser.add_argument("--seed", default="1")
    parser.add_argument("--driver")
    parser.add_argument("--reference", action="store_true")
    arguments = parser.parse_args()
    driver = None if arguments.reference else arguments.driver or build()
    return with_deep_stack(lambda: compare(arguments.count, arguments.seed, driver))


if __name__ == "__main__":
    sys.exit(main())
