"""The sources that are not left to chance: every row of two and three operators, each sort of nesting, names in other scripts, spellings of Floats, and commas behind one
E."""

COMPARISONS = "== != < <= > >=".split()
TERMS, FACTORS = "+ -".split(), "* / // %".split()
BINARY = FACTORS + TERMS + COMPARISONS + ["and", "or"]
# Names with characters over 127. All are of Unicode 3.2, so that every CPython from 3.10 on knows them. CPython's parser normalises a name to NFKC, which
# changes some of these, to each other's spelling too or to a keyword's; the comparison is of their bytes in the source.
WIDE = (
    "é aé éa _é ñ1 ifé continueé continuée tt\xb7t α Ελλάδα αίθουσα_1 имя 한국 전시실1 名前 قاعة م٣ हॉल नाम ห้อง กำ שם "
    "e\u0301 \u1112\u1161\u11ab \ufb01 fi \uff49\uff46 \uff54 \uff41\uff11 \u2118 \u212a \u2126 \xb5 \u2160 l\xb7l a\u0387 x\u203fy \U00010300 \U0001d431\U0001d7d9 \U0002a6d6"
).split()

# Spellings of Floats, more than one for a value. The last has m at 2^53.
FLOATS = "0.10 0.1 00.100 1.50 0.0 007.0 100.000 1.0e5 1.0E+05 2.50e-3 0.10E0 900719925474099.2".split()

# One E with a trailing comma (02, change 5), alone and beside parentheses, which make a Tuple of one as well.
ONE_AND_A_COMMA = ["{} ,", "( {} ) ,", "( {} , ) ,", "( ( {} , ) , )", "( ( {} ) , ) ,"]
# What Python takes for a target, a list's and a tuple's members too.
TARGETS = ["a", "é", "a.b", "a[b]", "f(a,).b", "a[-1]", "[a,]", "[a, b]", "(a)", "((a))", "(a,)", "((a,))", "(a, b)", "(a, (b,),)"]


def systematic():
    """Every two and three binary operators in a row, every grouping by parentheses, and signs and `not` before each operand where both sides fit."""
    words = " and or ".split()
    for p in BINARY:
        for left, right in (("", ""), ("- ", "+ "), ("-", "--"), ("+", "- - ")):
            yield f"{left}a {p} {right}b\n"
        if p in words:
            yield f"not a {p} not not b\n"
        for q in BINARY:
            yield f"a {p} b {q} c\n"
            yield f"(a {p} b) {q} c\n"
            yield f"a {p} (b {q} c)\n"
            yield f"x = - a {p} (- (b)) {q} -c, ((d))\n"
            if p in words and q in words:
                yield f"not a {p} not b {q} not c\n"
            for r in BINARY:
                yield f"a {p} b {q} c {r} d\n"


def nested():
    """Each sort of nesting, up to 60 deep, two or more at a time too."""
    frames = ["({})", "[{}]", "f({})", "a[{}]", "{{{}}}", "{{a: {}}}", "(a, {})", "lambda: {}", "-({})", "not ({})", "{}.b" , "({})()"]
    for depth in (1, 2, 3, 7, 20, 40, 60):
        for frame in frames:
            yield nest([frame], depth)
        for i, frame in enumerate(frames):
            yield nest([frame, frames[i - 1], frames[i - 3]], min(depth, 50))
    for depth in (1, 2, 10, 40, 60):
        for head in ("if a:", "while a:", "for a in b:", "def a():"):
            yield "".join("  " * i + head + "\n" for i in range(depth)) + "  " * depth + "pass\n"


def nest(frames, depth):
    text = "a"
    for i in range(depth):
        frame = frames[i % len(frames)]
        fits = not (text.startswith("lambda") and frame == "{}.b") and not (text[0] in "-n" and frame == "{}.b")
        text = frame.format(text) if fits else "(" + text + ")"
    return text + "\n"


def wide():
    """Each name in another script as a variable, a target, an attribute, a parameter and the name of a function, a method, a class and a loop."""
    forms = [
        "{0} = {1}\n", "{0}.{1}({0})[{1}] # {0}\n", "def {0}({1}, {0}):\n  return {1}\n", "class {0}:\n  def {1}({0}): {1}\n", "for {0} in {1}: {0};{1}\n",
        "f(lambda {0}: {0} < {1} < 1, '{0}')\n", "{0}-{1}*{0}//a\n", "if {0}:\n  {1}\nelif{{{1}:{0}}}: {0}\nelse:\n  ({1}).{0}=-{0}\n",
    ]
    for i, name in enumerate(WIDE):
        for k, form in enumerate(forms):
            yield form.format(name, WIDE[(i + k + 1) % len(WIDE)])


def floats():
    """Each spelling with no parentheses around it, with some, beside names of more bytes than characters, and in each sort of node that holds an E."""
    forms = [
        "{0}\n", "({0})\n", "( ( ({0})) )\n", "x = ({0})\n", "({0}).real = {1}\n", "[{0}, ({1})]\n", "({0}, (({1})),)\n", "{{({0}), {1}}}\n",
        "{{({0}): {1}, {2}: ({1})}}\n", "{0} < ({1}) < {2}\n", "({0} < (({1})) < ({2}) <= {0})\n", "f({0}, ({1}))\n", "a[({0})]\n", "- ({0}) + {1} * ({2})\n",
        "lambda: ({0})\n", "return ({0}), {1}\n", "한국 = (({0})); é.αβ(({1}), 'é한', {2})\n", "if ({0}):\n  é = ({1}) # 한\nelif {2}: ({0})\nelse: ({1})\n",
        "while ({0}): {1}\nfor é in ({2}): ({0})\n",
    ]
    for i, spelling in enumerate(FLOATS):
        for k, form in enumerate(forms):
            yield form.format(spelling, FLOATS[(i + k + 1) % len(FLOATS)], FLOATS[(i + 2 * k + 5) % len(FLOATS)])


def commas():
    """Each of these with a trailing comma, alone and beside parentheses, in each place of a t."""
    others = [
        "1", "-1", "- 1", "1.50", "(1.50)", "'é'", "None", "not a", "- - a", "a + b", "a or b and c", "a < b < c", "(a < b) < c", "lambda: a", "lambda a,: a", "(lambda: a,)", "f()",
        "f(a,)", "f((a,),)", "[[a,],]", "[(a,),]", "{a,}", "{a: b,}", "{}", "a[(b,)]", "(a,) + b", "é.한국",
    ]
    made = [text for one in TARGETS + others for form in ONE_AND_A_COMMA for text in in_each_place(one, form)]
    return list(dict.fromkeys(made))


def in_each_place(one, form):
    """Behind return, as an expression, as a value and, where Python takes it, as a target; with blanks or without."""
    t = form.format(one) if len(one) % 2 else form.replace(" ", "").format(one)
    yield from (f"{t}\n", f"return {t}\n", f"x = {t}\n", f"if a: {t}; return {t}\nelse:\n  y={t} # {t}\n")
    if one in TARGETS:
        yield from (f"{t} = b\n", f"{t}={t}\n", f"한, {t} = c;{t} =b,\n")


def long_ones():
    """Sources of 65,536 bytes, the most that 01 takes: lines, a list, a string, a call, a chain, a row of `or`, names in other scripts, Floats, and commas behind one E."""
    for first, part, last in (
        ("", "a = b[-1] + 2.5 # x\n", ""), ("[", "a,", "]"), ("'", "\\n\\d\"é", "'"), ("f(", "(a), ", ")"), ("a", " < a", ""), ("a", " or a", ""),
        ("", "if a:\n  b\nelif c: d; e\nelse:\n  pass\n", ""), ("", "é.한국 = ﬁ(x·1)\n", ""), ("[", "(0.10), 1.50, ", "]"),
        ("", "é, = a,; (b,),\nreturn c,\n", ""),
    ):
        room = 65536 - len((first + last).encode()) - 1
        text = first + part * (room // len(part.encode())) + last
        fill = "\n" if text[-1] == "\n" else " "
        yield text + fill * (65535 - len(text.encode())) + "\n"
