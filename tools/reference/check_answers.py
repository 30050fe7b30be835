"""Checks of single answers: the scripts of document 01, the lent slices, UTF-8 places, names,
Floats."""
import ast
import itertools
import struct
import sys

import float_cases
import generate
import name_cases
from characters import LATER, of_3_2
from descent import descent
from python_places import read_by_python
from read import Answer, areas, program, read
from scan import Code, Refusal, scan, utf8
from tree import END, NONE, P, Q, R, S, START, Kind


def answer(source):
    """The answer of a reader lent exactly the areas, and the records of its tree."""
    tokens, text, tree = areas(len(source))
    words = [7] * tree
    given = read(source, [7] * tokens, bytearray(text), words)
    if given.number:
        assert not any(words) or given.number <= 5
    return given, [words[at:at + 8] for at in range(8, 8 + 8 * given.nodes, 8)]


def refused(source, number, place):
    given, _ = answer(source)
    assert (given.number, given.place) == (number, place), (source, given)


def accepted(source, kind=None):
    """The records; kind is that of the first statement's expression."""
    given, records = answer(source)
    assert given.number == 0, (source, given)
    if kind is not None:
        assert records[first_expression(records)][0] == kind, (source, records)
    return records


def first_expression(records):
    statement = records[records[-1][P]]
    assert statement[0] == Kind.Expr
    return statement[P]


# 01's listing, but its first number: "The header's version becomes 2." (02)
A_CHAIN = """2 8 6 0 8 7 19 6
0 23 0 1 - 0 1 0 0
1 23 2 3 - 2 3 0 0
2 25 0 3 - 9 0 1 0
3 23 4 5 - 4 5 0 0
4 25 2 5 - 9 1 3 0
5 25 0 5 - 13 2 4 0
6 12 0 5 - 5 0 0 0
7 1 0 6 - 6 0 0 0"""


def scripts_of_01():
    """Section "Scripts and their outcome", in its order."""
    assert answer(b"")[0] == Answer(0, 0, 0, 1, 0, 1)
    refused(b"a-1", 14, 1)
    refused(b"-1.5", 14, 3)
    accepted(b"1.e5", Kind.Attribute)
    refused(b"()", 15, 2)  # 14 in 01; "so `()` answers the first of these at 2" (02)
    records = accepted(b"())", Kind.Tuple)
    assert records[first_expression(records)][P] == NONE
    records = accepted(b"not a == b", Kind.Binary)
    equal = records[first_expression(records)]
    assert equal[P] == 7
    assert records[equal[Q]][0] == Kind.Unary and records[equal[Q]][P] == 1
    assert records[equal[R]][0] == Kind.Variable
    accepted(b"1,", Kind.Tuple)  # Int in 01; "Case `1,` becomes Tuple." (02)
    refused(b"if a:\n  b", 14, 9)
    accepted(b"if a:\n  b\n")
    records = accepted(b"if a:\n  ")
    assert records[records[-1][P]][Q] == NONE
    refused(b"9223372036854775808", 10, 0)
    accepted(b"-9223372036854775808", Kind.Int)
    refused(b"\ta", 6, 0)
    refused(b"if a:\n   b\n", 7, 6)
    accepted(b"1.0e23", Kind.Float)
    refused(b"1.0e24", 11, 0)
    accepted(generate.nested("parentheses", 63), Kind.Variable)
    refused(generate.nested("parentheses", 64), 13, 64)
    assert program(b"a<b<c\n") == A_CHAIN.split("\n")
    assert program(b"a" * 1023)[0].startswith("2 3 1 ")
    assert program(b"a" * 1024) == ["no 1 0"]
    # "Likely slips"
    assert accepted(b"a = 1")[0][START:END + 1] == [0, 5]
    accepted(b"if a: b\nelse: c\n")
    refused(b"if a: b\n\nelse: c\n", 14, 9)
    accepted(b"if a:\n  b\n\nelse: c\n")
    return 27


# Source; number, place, openings and nodes written, counted by hand from the sentences:
# "Descent opens a rule only on a token that can begin it", "the opening that 13 refuses isn't
# counted", "a node is complete once its required parts are read and the next token begins no
# further one". A statement's expression opens Line, Simple and the eight from E to F.
COUNTED = [
    (b"a", 0, 0, 11, 3),
    (b"a b", 14, 2, 11, 2),
    (b"(", 15, 1, 11, 0),
    (b"(\n", 14, 1, 11, 0),
    (b"not", 15, 3, 10, 0),
    (b"not\n", 16, 3, 10, 0),
    (b"a or", 15, 4, 11, 1),
    (b"a or\n", 16, 4, 11, 1),
    (b"a + b * )", 14, 8, 14, 2),
    (b"a < b <", 15, 7, 15, 3),
    (b"a < b <\n", 16, 7, 15, 3),
    (b"a, b )", 14, 5, 19, 4),
    (b"a,", 0, 0, 11, 4),
    (b"a, )", 14, 3, 11, 3),
    (b"a,,", 14, 2, 11, 3),
    (b"return a,", 0, 0, 11, 4),
    (b"return a,,", 14, 9, 11, 3),
    (b"a, = b,", 0, 0, 19, 6),
    (b"a, =", 15, 4, 11, 2),
    (b"a, =\n", 16, 4, 11, 2),
    (b"a, = b, = c", 14, 8, 19, 5),
    (b"a, b = )", 14, 7, 19, 3),
    (b"a, b =\n", 16, 6, 19, 3),
    (b"x =", 15, 3, 11, 1),
    (b"x =\n", 16, 3, 11, 1),
    (b"if a:\n  x =", 16, 11, 21, 2),
    (b"if a:\n  if b:", 14, 13, 21, 2),
    (b"return\n", 16, 6, 3, 0),
    (b"while\n", 16, 5, 2, 0),
    (b"for a in\n", 16, 8, 2, 0),
    (b"lambda a b", 14, 9, 4, 1),
    (b"lambda", 15, 6, 4, 0),
    (b"lambda\n", 14, 6, 4, 0),
    (b"lambda a:\n", 16, 9, 4, 1),
    (b"x[\n", 16, 2, 11, 1),
    (b"f(\n", 14, 2, 11, 1),
    (b"if a: b\nelif", 15, 12, 20, 3),
    (b"if a: b\nelif\n", 16, 12, 20, 3),
    (b"if a: b\n)", 14, 8, 20, 4),
    (b"class", 15, 5, 3, 0),
    (b"class A:\n", 15, 9, 3, 0),
    (b"class A:\n  def f(): a\n)", 14, 22, 13, 4),
    (b"class A:\n  def f(): a\n\n", 14, 22, 13, 3),
    (b"def f", 15, 5, 2, 0),
    (b"t{", 15, 2, 11, 0),
    (b"f(())", 15, 5, 19, 2),
    (b"{a: b, c}", 14, 8, 35, 4),
    (b"{a: b, c:\n", 16, 9, 35, 4),
    (b"(" * 64 + b"a", 13, 64, 3 + 64 * 8, 0),
    (b"(" * 64 + b"]", 14, 64, 3 + 64 * 8, 0),
    (b"f[" * 64 + b"\n", 16, 128, 3 + 64 * 8, 64),
]


def counted():
    for source, *expected in COUNTED:
        given, _ = answer(source)
        nodes = descent(scan(source)[0]).nodes
        assert [given.number, given.place, given.openings, len(nodes)] == expected, (source, given)
    return len(COUNTED)


def slices():
    """Questions 1 to 4, and which words are touched."""
    cases = 0
    for source in (b"", b"a", b"'x' + 'y'\n", b"$", b"\xff", b"(", b"a<b<c\n"):
        sizes = areas(len(source))
        for short in range(3):
            lent = [size - (which == short) for which, size in enumerate(sizes)]
            if min(lent) < 0:
                continue
            tokens, text, tree = [7] * lent[0], bytearray(b"\7" * lent[1]), [7] * lent[2]
            assert read(source, tokens, text, tree) == Answer(2 + short, 0, 0, 0, 0, 0)
            assert set(tokens) | set(text) | set(tree) <= {7}
            cases += 1
        tokens, text, tree = [[7] * (size + 3) for size in sizes]
        given = read(source, tokens, text, tree)
        if given.number == 5:
            assert set(tokens + text + tree) == {7}
        for lent, size in zip((tokens, text, tree), sizes):
            assert lent[size:] == [7] * 3
            assert given.number < 6 or not any(lent[:size])
        if given.number == 0:
            assert not any(tokens[3 * (given.tokens + 1):sizes[0]])
            assert not any(text[given.text:sizes[1]])
            assert not any(tree[8 + 8 * given.nodes:sizes[2]])
        cases += 1
    assert read(b"a" * 65537, [], b"", []) == Answer(1, 0, 0, 0, 0, 0)
    return cases + 1


# Unicode table 3-7: the first byte, then the range of each byte after it.
TAIL = (0x80, 0xBF)
TABLE_3_7 = [
    ((0x00, 0x7F),), ((0xC2, 0xDF), TAIL), ((0xE0, 0xE0), (0xA0, 0xBF), TAIL),
    ((0xE1, 0xEC), TAIL, TAIL), ((0xED, 0xED), (0x80, 0x9F), TAIL), ((0xEE, 0xEF), TAIL, TAIL),
    ((0xF0, 0xF0), (0x90, 0xBF), TAIL, TAIL), ((0xF1, 0xF3), TAIL, TAIL, TAIL),
    ((0xF4, 0xF4), (0x80, 0x8F), TAIL, TAIL),
]


def first_bad(source):
    at = 0
    while at < len(source):
        for row in TABLE_3_7:
            part = source[at:at + len(row)]
            if len(part) == len(row) and all(low <= byte <= high
                                             for byte, (low, high) in zip(part, row)):
                at += len(row)
                break
        else:
            return at
    return None


def utf8_places():
    """The decoder's place against the table, over telling bytes."""
    telling = [0x61, 0x7F, 0x80, 0x8F, 0x90, 0x9F, 0xA0, 0xBF, 0xC1, 0xC2, 0xE0, 0xED, 0xEF,
               0xF0, 0xF3, 0xF4, 0xF5]
    cases = 0
    for length in range(5):
        for source in map(bytes, itertools.product(telling, repeat=length)):
            try:
                utf8(source)
                place = None
            except Refusal as no:
                place = no.place
            assert place == first_bad(source), source
            cases += 1
    return cases


def one_name(text):
    """Whether the text is one name, by the scanner."""
    try:
        tokens, _ = scan(text.encode())
    except Refusal:
        return False
    return [token[:3] for token in tokens[:-1]] == [(Code.Identifier, 0, len(text.encode()))]


def one_name_of_python(text):
    """Whether it is one by CPython's own parser, from the first byte to the last."""
    try:
        node = ast.parse(text, mode="eval").body
    except SyntaxError:
        return False
    return isinstance(node, ast.Name) and node.end_col_offset == len(text.encode())


def names():
    """What 02 says of single sources; and of every character over 127 that Unicode 3.2 has,
    alone and behind a letter, whether it is a name by the scanner and by CPython's parser."""
    for text, number, place in name_cases.BY_HAND:
        given, _ = answer(text.encode())
        assert (given.number, given.place) == (number, place), (text, given)
    cases = len(name_cases.BY_HAND)
    for c in map(chr, range(128, sys.maxunicode + 1)):
        if of_3_2(c) and c not in LATER:
            for text in (c, "a" + c):
                assert one_name(text) == one_name_of_python(text), text
                cases += 1
    return cases


def floats_of_python(source):
    """Start and end of each Float by CPython's own parser, or None where it refuses the source."""
    by_python = read_by_python(source)
    if by_python is None:
        return None
    tree, span = by_python
    return sorted(span(node) for node in ast.walk(tree)
                  if isinstance(node, ast.Constant) and isinstance(node.value, float))


def floats():
    """Spans, r and s that were counted by hand, the value that Python has for the bytes from r
    to s, and the places that CPython's parser gives where it reads the source too."""
    read_by_python = 0
    for text, expected in float_cases.BY_HAND:
        source = text.encode()
        found = [record for record in accepted(source) if record[0] == Kind.Float]
        assert [(node[START], node[END], node[R], node[S]) for node in found] == expected, text[:99]
        for node in found:
            value = float(source[node[R]:node[S]])
            assert struct.pack("<II", node[P], node[Q]) == struct.pack("<d", value), text[:99]
        places = floats_of_python(source)
        if places is not None:
            assert [(node[R], node[S]) for node in found] == places, text[:99]
            read_by_python += 1
    # It has no literal for a target, no `t{..}` and no `not` behind a sign.
    assert read_by_python >= 50
    for text, lines in float_cases.PRINTED.items():
        assert program(text.encode()) == lines.split("\n"), text
    return len(float_cases.BY_HAND) + len(float_cases.PRINTED)
