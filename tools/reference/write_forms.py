"""Sources for the laws of change 6 of document 02: forms within forms, all in parentheses, and rows at the largest n."""
import itertools

import generate

OPERATORS = "or and == != < <= > >= + - * // / %".split()
# Each with one place for an E in parentheses, {}.
FORMS = [
    *(f"{{}} {operator} a" for operator in OPERATORS), *(f"a {operator} {{}}" for operator in OPERATORS),
    "- {}", "+ {}", "not {}", "{}.a", "{}(a)", "{}[a]", "f({})", "f(a, {},)", "a[{}]", "[{}]", "[a, {}]", "t{{{}}}", "{{{}}}", "{{{}: a}}", "{{a: {}}}", "({},)", "({}, a)", "(a, {})", "lambda: {}", "lambda a, b: {}",
    "{} < a < b", "a < {} < b", "a < b < {}", "{} == {} != a", "{} < a and a < {}", "{} < a < b and {}", "{} + {} * {}", "{} or {} and {}", "- {} % not {}",
]
ATOMS = ["a", "t", "é", "1", "-1", "+7", "007", "0.10", "'a\\n'", "())", "[]", "{}", "None", "True"]
# Statements around an E.
PLACES = [
    "{}", "{},", "({},)", "{}, {}", "({}, {})", "return {}", "return {},", "x = {}", "{} = x", "{} = {}", "{}, = {},", "if {}: a", "while {}: a", "for a in {}: b", "if a: {}; {}\nelif {}: a\nelse: {}", "def f(): return {}",
    "class A:\n  def f(a,):\n    {}\n",
]


def fill(form, parts):
    """The form with the next part in each of its places."""
    pieces = form.replace("{{", "\0").replace("}}", "\1").split("{}")
    made = pieces[0]
    for piece in pieces[1:]:
        made += next(parts) + piece
    return made.replace("\0", "{").replace("\1", "}")


def within(rng, depth):
    """A form of forms, so deep, each in parentheses of its own."""
    if depth == 0:
        return rng.choice(ATOMS)
    return fill(rng.choice(FORMS), (f"({within(rng, rng.randrange(depth))})" for _ in range(9)))


def pairs():
    """Every form within every form, and each within each place of a statement."""
    for outer in FORMS:
        for inner in FORMS:
            made = fill(inner, iter("bcde"))
            yield fill(outer, iter([f"({made})", "(c)", "(d)"])).encode()
    for place in PLACES:
        for form in FORMS + ATOMS:
            made = fill(form, iter("bcde")) if form in FORMS else form
            yield fill(place, iter([made] * 4)).encode()


def deeper(rng, count):
    """Forms of forms in places of statements, and scripts of the grammar, some of which end in an empty block."""
    for number in range(count):
        if number % 2:
            made = fill(rng.choice(PLACES), (within(rng, rng.randrange(1, 5)) for _ in range(4))).encode()
        else:
            made = generate.script(rng)
        if made.endswith(b"\n") and rng.random() < 0.1:
            made += rng.choice([b"if a:\n  ", b"while b:\n\n  ", b"class A:\n  def f():\n    ", b"if a: b\nelse:\n  "])
        yield made


# What a cut script ends with: the spaces of a block with no statement among them.
ENDS = [b"", b"\n", b"\n  ", b"\n    ", b":\n  ", b":\n    ", b":\n\r\n  "]


def by_chance(rng):
    """Short strings, words in any order, and scripts damaged or cut, many of which the reader refuses."""
    for length in range(5):
        for source in itertools.product(b"at1-<,()\n \r'", repeat=length):
            yield bytes(source)
    for _ in range(2000):
        yield generate.soup(rng, rng.randrange(1, 9))
        script = generate.script(rng, 2, 2)
        yield generate.damaged(rng, script)
        yield script[:rng.randrange(len(script) + 1)] + rng.choice(ENDS)


# Rows as long as a text can be: what stands before, the part and what stands behind, in the source and in the text.
ROWS = [
    (("a", "+a", ""), ("a", " + a", "\n")), (("a", "*a", ""), ("a", " * a", "\n")), (("a", " and a", ""), ("a", " and a", "\n")),
    (("a", " or a", ""), ("a", " or a", "\n")), (("a", "<a", ""), ("a", " < a", "\n")), (("a", "==a!=b", ""), ("a", " == a != b", "\n")), (("a", ".b", ""), ("a", ".b", "\n")), (("a", "()", ""), ("a", "()", "\n")),
    (("a", "[b]", ""), ("a", "[b]", "\n")), (("a", ".b(c)[d]", ""), ("a", ".b(c)[d]", "\n")), (("", "-", "a"), ("", "- ", "a\n")), (("", "not ", "a"), ("", "not ", "a\n")), (("", "+-", "a"), ("", "+ - ", "a\n")),
    (("x=[a", ",a", ",]"), ("x = [a", ", a", "]\n")), (("f(a", ",(a,)", ")"), ("f(a", ", (a,)", ")\n")), (("a", ",a", ""), ("a", ", a", "\n")), (("return(a", ",b", ",)"), ("return a", ", b", "\n")),
    (("{a:b", ",a:b", "}"), ("{a: b", ", a: b", "}\n")), (("t{a", ",())", "}"), ("t{a", ", ())", "}\n")), (("lambda a", ",a", ":a"), ("lambda a", ", a", ": a\n")), (("def f(a", ",a", "):b"), ("def f(a", ", a", "):\n  b\n")),
    (("a", ";a", ""), ("a\n", "a\n", "")), (("a", "\na=b", ""), ("a\n", "a = b\n", "")), (("if a:b\n", "elif a:b\n", "else:c"), ("if a:\n  b\n", "elif a:\n  b\n", "else:\n  c\n")), (("'", "\\q", "'"), ('"', "\\\\q", '"\n')), (("'", "\t", "'"), ('"', "\\t", '"\n')),
    (("if a:\n  b\n", "  b;b\n", ""), ("if a:\n  b\n", "  b\n  b\n", "")), (("class A:\n  def f():a\n", "  def f():a\n", ""), ("class A:\n  def f():\n    a\n", "  def f():\n    a\n", "")), (("a-(", "b-", "c)"), ("a - (", "b - ", "c)\n")),
    (("a<(b", "<b", ")"), ("a < (b", " < b", ")\n")), (("a", "+ 07", ""), ("a", " + 7", "\n")),
]


def at_length(row, length):
    """Source and text of a row, the text of so many bytes: a name on a line before it takes what is over."""
    (before, part, behind), (text_before, text_part, text_behind) = row
    room = length - len(text_before) - len(text_behind) - 2
    count = room // len(text_part)
    name = "n" * (1 + room - count * len(text_part)) + "\n"
    source, text = name + before + part * count + behind, name + text_before + text_part * count + text_behind
    assert len(text) == length
    return source.encode(), text.encode()
