"""The sources of the stored cases of `reader_cases`, list by list. docs/CASES.md says how each is made; tools/reader_cases.py writes the files."""
import os
import random
import sys

sys.dont_write_bytecode = True
sys.path.insert(0, os.path.join(os.path.dirname(os.path.abspath(__file__)), "reference"))
import comma_cases  # noqa: E402
import cut_cases  # noqa: E402
import expr_cases  # noqa: E402
import float_cases  # noqa: E402
import generate  # noqa: E402
import name_cases  # noqa: E402
import token_cases  # noqa: E402

MOST = 65536  # "n at most 65,536"

# Section "Scripts and their outcome" of document 01, in its order, the starred ones and the others: source, number, place. These three are the paper's own;
# of `()` 02 says 15.
SCRIPTS = [
    (b"", 0, 0), (b"a-1", 14, 1), (b"-1.5", 14, 3), (b"1.e5", 0, 0), (b"()", 15, 2), (b"())", 0, 0), (b"not a == b", 0, 0), (b"1,", 0, 0),
    (b"if a:\n  b", 14, 9), (b"if a:\n  b\n", 0, 0), (b"if a:\n  ", 0, 0), (b"9223372036854775808", 10, 0), (b"-9223372036854775808", 0, 0),
    (b"\t", 6, 0), (b"if a:\n   b\n", 7, 6), (b"1.0e23", 0, 0), (b"1.0e24", 11, 0), (b"(" * 63 + b"a" + b")" * 63, 0, 0),
    (b"(" * 64 + b"a" + b")" * 64, 13, 64), (b"a<b<c\n", 0, 0),
    # "Likely slips", and what the sections say of single scripts.
    (b"a = 1", 0, 0), (b"if a: b\n\nelse: c\n", 14, 9), (b"if a: b\nelse: c\n", 0, 0), (b"0.0e999", 11, 0),
]

# Each question at a smallest source: its no in number and place, by the sentence of 01. 1 to 4 are asked of n and the slices: see SMALLEST_SLICES in reader_cases.py.
SMALLEST = [
    (b"\xff", 5, 0), (b"\t", 6, 0), (b" ", 7, 0), (b"  a\n ", 8, 4), (b"!", 9, 0), (b"9223372036854775808", 10, 0), (b"1.0e24", 11, 0),
    (b"(" * 65, 13, 64), (b")", 14, 0), (b"(", 15, 1), (b"-\n", 16, 1),
]

# The first of each kind, in the order of the kinds (a Program is in all).
KINDS = [
    b"", b"if a:b", b"while a:b", b"for a in b:c", b"def f():a", b"return a", b"a=b", b"class A:\n  def f():a\n", b"break", b"continue", b"pass",
    b"a", b"class A:\n  def f(a):b\n", b"if a:b\nelif c:d", b"if a:b\nelse:c", b"def f(a,b):c", b"{a:b}", b"True", b"1", b"'a'", b"1.5", b"None",
    b"a", b"-a", b"a+b", b"f()", b"a.b", b"[]", b"{}", b"())", b"{a}", b"t{}", b"a[b]", b"lambda:a",
]

# Scripts, a line each: `|` parts them, `/` is a line feed, `_` a space. Those of SIMPLES and BLOCKS are accepted, the others refused.
SIMPLES = """
return a|return a,|return a, b|return a, b,|a = b|a = b,|a = b, c|a, b = c|a, b = c, d|a, = b|a, b, = c,|a.b = c|a[b] = c|f() = a|1 = 2|(a) = b|(a, b) = c|[a] = b
lambda: a = b|not a = b|a < b < c = d|t{a} = b|()) = a|break|continue|pass|a;|a; b|a; b;|break; continue; pass|a = b; return c; d|a, b; c|pass;/a;b/c;/
a/|a//|//a//|a//b///c|#c/a #d/|a/b|a/b/|/|//|#|a;/b;/|return 'x'; 'y'|a = 'x', 'y'|a/_/b|a #c|_/a|a/#c|//_#c/
"""
SIMPLES_REFUSED = """
return|return;|return,|return =|return return|return a = b|a = b = c|a =|a = =|= a|a = ;|a = , b|a, = |a = return|a = pass|a == = b|;|;;|a;;|a; ;b|;a|a b|a; b c|pass a|pass, a|pass = a
break b|continue;;|a,,b|a, , = b|, a|a; if b: c|a; def f(): b|a; class A|pass pass|a)|a]|a}|a:|a: b|a.|a..b|else|elif a: b|in|a in b|a not b|:|.|a = )|a;)|return )|pass )|a, b)|(a = b)
"""
BLOCKS = """
if a: b|if a: b/|if a: b; c;/|if a:/__b/|if a://__b/|if a:/#c/__b/|if a:/__b//__c/|if a:/__b//|if a:/__b/c/|if a:/__|if a:/__b; c/__d/
if a: b/else: c|if a: b/else: c/|if a: b/elif c: d/|if a: b/elif c: d/elif e: f/else: g/|if a:/__b/else:/__c/|if a:/__b/elif c:/__d/else:/__e/|if a:/__b//else: c/
if a:/__b/elif c: d/else:/__e/f/|if a:/__if b:/____c/|if a:/__if b: c/__else: d/|if a:/__if b:/____c/else: d/|if a:/__if b:/____c/__else: d/|if a:/__if b:/____c/__d/
while a: b|while a:/__b/|while a:/__|while a:/__break/__continue/|while a:/__while b:/____c/d/|for a in b: c|for a in b:/__c/|for t in t: t|for a in b:/__|for a in lambda: b: c
def f(): a|def f(a): b|def f(a,): b|def f(a, b): c|def f(a, b,):/__return a, b/|def f():/__|def f():/__def g():/____a/__b/|def t(t): t{t}|def f(): return 'x'/'y'
class A:/__def f(): a/|class A:/__def f():/____a/|class A://__def f(): a/|class A:/__def f(): a/__def g(): b/|class A:/__def f():/____a//__def g():/____b/|class A:/__def f(a, b,):/____a/b/
class A:/__def f():/____|class A:/__def f():/____class B:/______def g(): a/|if a:/__class A:/____def f(): b/__c/|class A:/__def f():/____if a: b/|class A:/__def f():/____a//
a/if b: c/d/while e: f/|if (a, b): c|if lambda: a: b|if {a: b}: c|if t{a}: b|if a: 'x'/elif 'y': 'z'/else: 'w'|if a: b = c, d|if a: return b|if a:/__b/#c/else: d/|if a:/__pass/#c/__#d/
if a:/__b/__/c/|if a:/__b/_#c/__c/|if a:/__'b/'/|if a:/__b/____#c/d|while not a: b|for a in [b, c,]:/__d; e/f = g/
"""
BLOCKS_REFUSED = """
if|if:|if a|if a b|if a, b: c|if a:|if a:/|if a:/b|if a: if b: c|if a: :|if a: )|if a:;|if a: b; ;|if a:/__)|if a:/__b)|if a:/__b|if a:/__b/__)|if a:/__;|if a:/____b|if a: b/__c|if a:/__b/else|if a: b/else c|if a: b/else:
if a: b/else:/|if a: b/else:/c|if a: b/elif|if a: b/elif c|if a: b/elif:|if a: b/elif c:|if a: b/else: c/else: d|if a: b/else: c/elif d: e|if a: b//elif c: d|if a: b/#c/else: d|if a: b; else: c|if a:/__b/__else: c
if a: b/_/else: c|if a:/__if b: c//__else: d/|if a:/__if b: c|if a:/__class A:/____def f(): b|else: a|elif a: b|if = a|if a = b: c|if a; b|if a:/__/b|if a:/__#c/|if a:/#|if a::|if a: else: b|if a:/__else: b/
while|while:|while a|while a:|while a: b/else: c|while a:/b|while a:/__b|while a while|for|for a|for a in|for a in b|for a in b:|for 1 in b: c|for a.b in c: d|for a, b in c: d|for (a) in b: c|for a of b: c|for in a: b|for a in b, c: d
for a in: b|for a in b:/c|for a in b/|for a = b: c|def|def f|def f(|def f()|def f():|def f(a|def f(a b): c|def f(,): a|def f(a,,b): c|def f(1): a|def f(a=b): c|def f: a|def f() a|def (): a|def f()():a|def f():/a|def 1(): a
def f(a.b): c|def f(*a): b|def f(a):/|def if(): a|class|class A|class A:|class A: pass|class A:/|class A:/b|class A:/__|class A:/__pass/|class A:/__a = b/|class A:/__def f(): a|class A:/__def f(): a//|class A:/__def f(): a//__def g(): b/
class A:/__def f(): a/__b/|class A:/__def f(): a/__#c/__def g(): b/|class A(B):/__def f(): a/|class A():/__def f(): a/|class 1:|class A:/__def f()/|class A:/__def/|class A:/__def f(): a/)|class A: def f(): a|class A:/__def f():/____a
class A;|class A:/__class B:/____def f(): a/|class A:/__def f(): a; def g(): b/|class A:/__if a: b/|class A:/__def f(1): a/|class A:/__def f(): a/__)|class = a|class A:/__def f(): a//b/|class A:/__def f(): )|class A:/__def f():/__a/
"""


def scripts(block):
    for case in "|".join(block.strip("\n").split("\n")).split("|"):
        yield case.replace("/", "\n").replace("_", " ").encode()


def expressions():
    """Those of expr_cases, as scripts: what follows t is now asked for. The Floats and commas among them too."""
    return list(dict.fromkeys(expr_cases.sources()))


def floats():
    """Statements with a Float: parentheses and an assignment widen its node, and its r and s stay."""
    return float_cases.sources(float_cases.STATEMENTS)


def commas():
    """Statements with one E and a trailing comma in each place: a Tuple of one. N and trees are by hand."""
    return comma_cases.sources(comma_cases.STATEMENTS)


# Good scripts that are cut at every byte: written as those above.
CUT = """
if a:/__b/elif c:/__d/else:/__e/|class A:/__def f(a, b,):/____a/b/|for a in [b, c,]:/__d; e/f = g/|def f(a, b,):/__return a, b/|if a: 'x'/elif 'y': 'z'/else: 'w'|while not a: b|a, b, = c,
a < b < c = d|a = b; return c; d|if {a: b}: c|for a in lambda: b: c|if a:/__if b:/____c/__else: d/|class A:/__def f(): a/__def g(): b/|while a:/__break/__continue/
{a: b, c: d,}|{{a}: {b: {c, d}}}|t{a, b,}|a.b().c[d]|a or b and c < d + e * -f|lambda a, b,: a + b|f(lambda a: a, b)|[[], [a], [[b, c], d]]|()) + a|(a, b)[0]
"""
CUT_WIDE = ["\ud55c\uad6d = \xe9(\ufb01, [1.50]) # \u20ac\n", "x = 'a\\n\xe9'\r\n- y // 2.5\n"]


def cut():
    """Scripts that end too soon and what is like them, whose number and place are by hand."""
    return [source for source, _, _ in cut_cases.cases()]


def prefixes():
    """Every beginning of the good scripts above, alone and with a line feed behind it."""
    for source in [*scripts(CUT), *(text.encode() for text in CUT_WIDE)]:
        for end in range(1, len(source)):
            yield from [source[:end], source[:end] + b"\n"]


def scanner():
    """Every fourth of those that scan_cases has by hand, short ones, but the names below."""
    named = set(name_cases.sources())
    return [source for source in [s for s in token_cases.picked() if s not in named][::4] if len(source) < 60]


# Ill-formed UTF-8 (table 3-7), and the place of its first byte is told by what stands before it.
ILL_FORMED = [
    b"\x80", b"\xbf", b"\xc0\x80", b"\xc1\xbf", b"\xc2", b"\xc2A", b"\xc2\xc0", b"\xe0\x9f\x80", b"\xe0\xa0", b"\xe1\x80\x7f", b"\xed\xa0\x80", b"\xef\xbf",
    b"\xf0\x8f\x80\x80", b"\xf0\x90\x80", b"\xf4\x90\x80\x80", b"\xf5\x80\x80\x80", b"\xfe", b"\xff",
]


def ill_formed():
    """5 where a token would start, in a string, in a comment and behind causes of 6, 9, 11 and 14, which are asked later."""
    for bad in ILL_FORMED:
        yield from [bad, b"'\xc3\xa9" + bad + b"'", b"a #" + bad, b"\t$ 1.0e24 )" + bad + b"\xff"]


def names():
    """Those of 02, in any script, and ill-formed ones: 5 comes first."""
    return list(dict.fromkeys([*name_cases.sources(), *name_cases.ill_formed()]))


def order():
    """The earliest in the source of 6 to 11, each before and behind the others; then 13 and 14, by the earliest token."""
    causes = [b"\n\t", b"\n   a", b"\n  a\n a", b" $", b" 9223372036854775808", b" 1.0e24", b" \xe2\x82\xac", b" )"]
    for first in causes:
        for second in causes:
            if first != second:
                yield b"a" + first + second
    deep = b"(" * 65
    yield from [b") " + deep, deep + b")", deep + b" $", deep + b"\n\t", b"$" + deep, deep[:64] + b")", deep[:64] + b"]", b"a b " + deep]


def blocks(depth, inner, indent=b"  "):
    """So many Blocks, each in the one before, around a line."""
    return b"".join(indent * level + b"if a:\n" for level in range(depth)) + indent * depth + inner + b"\n"


def mixed():
    """64 and 65 E and Block open at once: so many Blocks and the rest parentheses, the innermost a name, a Block or neither. The number is that of 01:
    13 where one more than 64 would be open, 14 where the token there can begin none."""
    for depth in (1, 2, 8, 31, 32, 62, 63):
        rest = 64 - depth
        yield from [(blocks(depth, b"(" * (rest - 1) + b"a" + b")" * (rest - 1)), 0), (blocks(depth, b"(" * rest + b"a" + b")" * rest), 13)]
        yield from [(blocks(depth, b"[" * rest + b"]" * rest), 0), (blocks(depth, b"(" * rest + b"]"), 14)]
    yield from [(blocks(63, b"a = b, c"), 0), (blocks(64, b"pass"), 0), (blocks(64, b"a"), 13), (blocks(64, b")"), 14), (blocks(65, b"a"), 13)]
    yield from [(blocks(63, b"if a: pass"), 0), (blocks(63, b"if a: b"), 13), (blocks(62, method(63) + b"pass"), 0), (blocks(62, method(63) + b"a"), 0)]
    yield from [(blocks(63, method(64) + b"pass"), 0), (blocks(63, method(64) + b"a"), 13)]
    for depth in (63, 64, 65):
        lines = [b"  " * level + method(level + 1) + b"\n" for level in range(0, 2 * depth, 2)]
        yield b"".join(lines) + b"  " * (2 * depth) + b"pass\n", 0 if depth < 65 else 13
    for depth in (30, 31, 32):
        yield b"if " + b"(" * depth + b"a" + b")" * depth + b": " + b"[" * 62 + b"b" + b"]" * 62, 0
        yield blocks(depth, b"f(" * depth + b"{a: [b]}" + b")" * depth), 0 if 2 * depth + 3 <= 64 else 13


def method(level):
    """A class on this line and its method on the next, at so many steps. Class counts for nothing, the method's Block does."""
    return b"class A:\n" + b"  " * level + b"def f(): "


def nested():
    """Each sort of nesting alone, 62 to 65 deep, and its number. Signs open no E."""
    for sort in generate.NESTED:
        for depth in (62, 63, 64, 65):
            yield generate.nested(sort, depth), 0 if depth < 64 or sort == "signs" else 13


def longest():
    """n = 65,536 and one more. Each is a row of pieces and how often each stands."""
    for n in (MOST, MOST + 1):
        yield from [[(b" ", n)], [(b"\n", n)], [(b"a", n)], [(b"#", n)], [(b")", n)], [(b"'", 1), (b"x", n - 2), (b"'", 1)], [(b"#", n - 1), (b"\n", 1)]]
        yield from [[(b"#", n - 1), (b"\xff", 1)], [(b"#", n - 2), (b"\n", 1), (b"(", 1)], [(b"#", n - 2), (b"\n", 1), (b"\t", 1)], [(b"a\n", n // 2), (b"\n", n % 2)]]
    yield from [[(b"a;", MOST // 2)], [(b"a,", MOST // 2)], [(b"a<", MOST // 2 - 1), (b"b\n", 1)], [(b"''\n ", 1), (b"\n\n", MOST // 2 - 2)], [(b"-", MOST - 1), (b"a", 1)]]
    yield from [[(b"[", 1), (b"'x',", MOST // 4 - 1), (b"  ]", 1)], [(b"if a:b\nelse:c\n#\n", MOST // 16)], [(b"a+b*c-d\n", MOST // 8)], [(b"0", MOST - 1), (b"\n", 1)]]
    yield from [[(b"\n", MOST - 1), (b")", 1)], [(b"\xc3\xa9", MOST // 2)], [(b"\xed\x95\x9c", MOST // 3), (b"a", 1)], [(b"\xf0\x90\x8c\x80", MOST // 4)], [(b"\xc3\xa9 ", MOST // 3), (b"a", 1)], [(b"#", MOST - 2), (b"\xc3\xa9", 1)], [(b"(", 64), (b")", MOST - 64)], [(b"(", MOST)]]
    yield from float_cases.sources(float_cases.LONGEST)
    yield from (pieces for pieces, _, _ in comma_cases.LONGEST)


def generated(count, seed, shortest=8, most=90):
    """Scripts of the grammar, of some size, without repeats."""
    rng = random.Random(seed)
    kept = {}
    while len(kept) < count:
        source = generate.script(rng, 3, 2)
        if shortest <= len(source) <= most:
            kept[source] = None
    return list(kept)


def damaged(count, seed):
    """Damaged copies of further such scripts, and of the accepted ones above."""
    rng = random.Random(seed)
    good = generated(count // 2, seed + 1) + [source for source in [*scripts(BLOCKS), *scripts(SIMPLES)] if source]
    return list(dict.fromkeys(generate.damaged(rng, rng.choice(good)) for _ in range(count)))


def soups(count, seed):
    rng = random.Random(seed)
    return list(dict.fromkeys(generate.soup(rng, rng.randrange(2, 12)) for _ in range(count)))
