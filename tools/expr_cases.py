#!/usr/bin/env python3
"""Writes the stored cases of the program `expr_cases` and what it must print. docs/CASES.md says how the list is made.

    python3 tools/expr_cases.py crates/expr_cases

Every expected line is made by tools/reference: scan.py, the method t of descent.py on its tokens, and cut.py. A refusal is by 13, or by what is handed on:
16 where only an expression or operand could stand, whatever token does not fit, and 14 for all else (`Parsed`, crates/leaves). Tokens, tree and
what could stand are by documents 01 and 02 alone. Nothing is taken from what the program prints.
"""
import os
import random
import sys

sys.dont_write_bytecode = True
sys.path.insert(0, os.path.join(os.path.dirname(os.path.abspath(__file__)), "reference"))
import comma_cases  # noqa: E402
import cut_cases  # noqa: E402
import float_cases  # noqa: E402
import generate  # noqa: E402
from cut import wanted  # noqa: E402
from descent import descent  # noqa: E402
from scan import Refusal, scan, utf8  # noqa: E402
from tree import KIND_NAMES  # noqa: E402

LARGEST_FILE = 65536  # the program reads its input into a buffer of this size
LONGEST_SOURCE = 1023  # and has areas for a source of this size
STATEMENTS = "Program If While For Def Return Assign Class Break Continue Pass Expr Method Elif Else".split()

# Cases are separated by blanks of two or more, and by lines; escapes are Python's.
LITERALS = r"""
None  True  False  0  -0  007  9223372036854775807  -9223372036854775808  +9223372036854775807  4294967296  -1
0.0  1.5  00.10e+2  1.0e22  1.0e-21  900719925474099.2
''  'a' 'b'  ['a', "bc", 'd']  ['\\n', '\\\\', '\\q', "\\'"]  ('', 'x', '', 'yz')  f('a\nb')['c']  {'k': 'v', 'kk': 'vv'}  '\xe9' + '\u20ac'
'a' < 'bb' < 'ccc'  lambda a: 'x' + 'y'  t{'a', 'b'}  'a'.b('c')  not 'a'
"""

FORMS = r"""
a  t  (a)  (((a)))  ( a )  [a]  [a,]  [a, b]  [a, b,]  []  [[], [a], [[b, c], d]]
{}  {a}  {a,}  {a, b}  {a, b,}  {a: b}  {a: b,}  {a: b, c: d}  {a: b, c: d,}  {{a}: {b: {c, d}}}  {(a): [b]}
t{}  t{a}  t{a,}  t{a, b}  t{a, b,}  t{t{t}}  t {a}  t(a)  t.t  tt{a}  (t){a}  a{b}
(a,)  (a, b)  (a, b,)  (a, b, c)  ())  (()))  ((a, b), c)  ()) + a  [())]  f(()))  ()),
lambda: a  lambda a: a  lambda a,: a  lambda a, b: a  lambda a, b,: a + b  lambda a: lambda b: a(b)  lambda a: a, b  (lambda a: a)(b)
[lambda: a, lambda b: b]  {lambda: a: b}  f(lambda a: a, b)  lambda t: t{t}
f()  f(a)  f(a,)  f(a, b)  f(a, b,)  f()()  f(g(h(a)))  a.b  a.b.c  a.b().c[d]  a[b]  a[b][c]  a[b[c]]  a[lambda: b]  a[(b, c)]
1.5.a  1 .a  None.a  [a].b  {a}.b  {}.b  t{a}.b  (a).b  (a, b)[0]  ()).a  (a)(b)  -a.b  not a[b]
-a  +a  not a  --a  not not a  - not a  - 1  --1  -(1)  +-+a  not(a)  -(a, b)  -t{a}
"""

OPERATORS = r"""
a or b  a or b or c  a and b  a and b and c  a or b and c  a and b or c  (a or b) and c  not a or b  a or not b and not c
a == b  a != b  a < b  a <= b  a > b  a >= b  a < b < c  a < b <= c > d  a != b >= c < d > e  (a < b) < c  a < (b < c)  not a < b
a < b < c or d  a + b < c + d  -a < -b
a + b  a - b  a + b - c  a -1  1+2  a - -1  a - (b - c)
a * b  a // b  a / b  a % b  a * b // c / d % e  a * b + c  a + b * c  a * -b  (a + b) * c  a // (b // c)
a or b and c < d + e * -f  a * b + c < d and e or f
"""

COMMAS = r"""
a,  a, b  a, b,  a, b, c  a, b, c,  (a), b  a, (b,)  [a], {b}  lambda: a,  lambda: a, lambda: b  a + b, c < d  -a,
a b  a, b c  a;  a, ;  a = b  a, b = c  a:  a)  a, )  a\n  a, b\nc  a,\nb  a if b  a.b c  a\n\x20\x20b  a #c  a, #c
"""

# Refusals: where an E or what is under it, a name, a colon or a closer must stand and does not.
REFUSED = r"""
)  ]  }  ,  :  ;  .  =  <  *  or  if  return  \n  \x20\x20a
a or  a or or b  a and  a and ]  a <  a < b <  a < )  a +  a + *  a -  a * *  a //  a / )  a %
-  not  - -  -)  not or  - lambda: a  a + lambda: a  a < lambda: a  a or lambda: a
[  [,  [a  [a,  [a b]  [a, ,b]  [a)  [a, b)  [a:b]  [[a]
(  ()  (,)  (a  (a,  (a b)  (a,,)  (a, b]  (a, b c)  (a:b)  () + a  (()  f(())
{  {,}  {:  {a  {a,  {a b}  {a,,}  {a:  {a:}  {a: b  {a: b,  {a: b c}  {a: b, c}  {a: b, c:}  {a: b, c: d  {a: b,,}  {a, b: c}  {a]  {a: b]
t{  t{,}  t{a  t{a,  t{a b}  t{a: b}  t{a]
lambda  lambda a  lambda a,  lambda a b: a  lambda ,: a  lambda 1: a  lambda a,,: a  lambda:)  lambda a:  lambda a: lambda  lambda a = b: a
f(  f(,)  f(a  f(a,  f(a b)  f(a,,)  f(a]  f(a = b)  a.  a.1  a.(b)  a.if  a..b  a[  a[]  a[a  a[a,]  a[a, b]  a[a)  a[a:b]
a, b or  a, [  a, b, (  a, b.  a, not  a().  a[b](
[\n\x20\x20a]  (a\n)  f(\na)  {a:\nb}  a +\nb  lambda:\na  not\na
"""

# Names in any script: as operands, attributes, parameters; `t` with a character more is no `t`.
NAMES = r"""
\xe9  a\xe9  \u2118  \ufb01 + fi  \uff49\uff46  e\u0301  \u0e01\u0e33[\u0e01]  \xe9.\xe9  \xe9.a\xb7b  \xe9(\xe9, \xe9)  \xe9[\xe9]  [\xe9, \ud55c]  {\xe9: \u03b1}  t{\xe9}  \u03b1 < \u03b2 < \u03b3
lambda \xe9: \xe9  lambda \xe9, \ud55c,: \xe9 + \ud55c  -\xe9  not \xe9  not\xe9  \xe9or \xe9  1.\xe9  1 .\xe9  \xe9, \xe9  \xe9 if  (\U00010300)  \U00010300.\U0001d431  \u0645\u0663 * \u0928\u093e\u092e
t\xe9{a}  \uff54{a}  \xe9{a}  \xe9 \xe9  1\xe9  1.5\xe9  '\xe9'\xe9  \xe9'\xe9'  lambda 1\xe9: a  a.1\xe9  [\xe9  (\xe9  {\xe9:  \xe9.  \xe9 +  lambda \xe9  lambda\xe9: a
\xe9 \xb7  \xe9.\xb7  (\u20ac)  \xe9\U0001f600  \xa0  \xe9 + \u0663  lambda \u0301: a  'a' \u2028
"""

SCANNER = r"""
$  a $  (a $  9223372036854775808  -9223372036854775809  a + 1.0e24  0.1e-22  'a  ["a  \u20ac  a.\u20ac  \x20\x20\x20a  a\n\x20\x20b\n\x20c  a\n\tb  a !b  ) $
"""

NESTED = [sort for sort in generate.NESTED if sort != "blocks"]


def listed(block):
    for line in block.strip("\n").split("\n"):
        for case in line.split("  "):
            if case:
                yield case.encode("ascii").decode("unicode_escape").encode("utf-8")


def nested():
    """63 and 64 of each sort around a name: with its own E the name is the 64th or the 65th. Signs open no E."""
    for sort in NESTED:
        for depth in (63, 64):
            yield generate.nested(sort, depth)
    for depth in (63, 64):
        inner = generate.nested("parentheses", depth)
        yield from [inner + b", a", b"a, " + inner, b"'b' < " + inner, b"-" + inner, inner[:-1], inner[:depth]]
    yield from [b"(" * 64 + b"$", b"(" * 63 + b")", b"(" * 64 + b")", b"[" * 63 + b"]" * 63, b"[" * 64 + b"]" * 64, b"[" * 65 + b"]" * 65]


def generated():
    """Expressions of the grammar, and damaged copies."""
    rng = random.Random(5)
    writer = generate.Writer(rng)
    for _ in range(4):
        source = writer.join(writer.t())
        yield source
        yield generate.damaged(rng, source)


def cut():
    """What a line feed cuts, with number and place by hand: 16 where only an expression or operand could stand."""
    for number, beginnings in ((16, cut_cases.only_in_t()), (14, cut_cases.also_in_t())):
        yield from (((text + "\n").encode(), number, len(text)) for text in beginnings)


def sources():
    blocks = (LITERALS, FORMS, OPERATORS, COMMAS, REFUSED, NAMES, SCANNER)
    yield b""
    for block in blocks:
        yield from listed(block)
    yield from nested()
    yield from generated()
    yield from float_cases.sources(float_cases.EXPRESSIONS)
    yield from (source for source, _, _ in cut())
    yield from comma_cases.sources([*comma_cases.EXPRESSIONS, *comma_cases.REFUSED])


def is_utf8(source):
    try:
        utf8(source)
    except Refusal:
        return False
    return True


def expected(source):
    """The line's answer, and the kinds of its nodes."""
    try:
        tokens, _ = scan(source)
    except Refusal as no:
        return f"no {no.number} {no.place}", ()
    done = descent(tokens, part="t")
    if done.number:
        return f"no {wanted(tokens, done, 't')} {done.place} {done.openings}", ()
    words = [done.at, len(done.nodes), done.openings] + [word for node in done.nodes for word in node]
    return " ".join(["ok", *map(str, words)]), [node[0] for node in done.nodes]


def main():
    crate = sys.argv[1]
    for source, number, place in cut():
        assert expected(source)[0].startswith(f"no {number} {place} "), source
    for text, nodes, tree in comma_cases.EXPRESSIONS:  # of N, all but the statement and Program
        made = expected(text.encode())[1]
        assert len(made) == nodes - 2 and KIND_NAMES[made[-1] - 1] == tree.split()[0], text
    kept = [source for source in dict.fromkeys(sources()) if is_utf8(source)]
    assert all(len(source) <= LONGEST_SOURCE for source in kept)
    text = "".join((source.hex() or "-") + "\n" for source in kept)
    assert len(text) < LARGEST_FILE, len(text)
    stdout, outcomes, kinds = [], {}, set()
    for source in kept:
        line, made = expected(source)
        stdout.append(f"{source.hex() or '-'} = {line}\n")
        outcome = line.split()[1] if line.startswith("no") else "ok"
        outcomes[outcome] = outcomes.get(outcome, 0) + 1
        kinds.update(made)
    missing = [name for kind, name in enumerate(KIND_NAMES, 1) if kind not in kinds and name not in STATEMENTS]
    assert not missing, missing
    open(f"{crate}/stdin", "w").write(text)
    open(f"{crate}/stdout", "w").write("".join(stdout))
    print(f"{len(kept)} sources, {len(text)} bytes; " + ", ".join(f"{o}: {outcomes[o]}" for o in sorted(outcomes, key=lambda o: (len(o), o))))


if __name__ == "__main__":
    main()
