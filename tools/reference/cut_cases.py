"""Sources for change 4 of document 02: scripts that end too soon, and what is like them.

Which list a beginning stands in, and so what number follows, is by hand from 02's sentences,
as are number and place of each script of BY_HAND; nothing here is taken from a reader. `|`
parts beginnings, escapes are Python's.
"""

OPERATORS = "or and == != < <= > >= + - * // / %".split()

# Behind these only an expression or operand could stand: in a t, in another line, behind lines,
# and behind lines with a block open.
ONLY_IN_T = r"""
not|-|+|not not|- -|+ - not|- not|a.b or|a < b <|a + b *|a * -|a and b or|not a ==|a, b +|a, not|a or b and|1.5 *|'s' +|-1 -|a() or|a[b] and
(a +|(a, b or|(not|(-|((a <|[a *|[a, not|[-|f(a %|f(a, b or|f(+|t{a <|t{a, -|{a or|{a, b and|{not|{a: b -|{a: b, c *|{a: -|{a: b, not|x[a //|x[not
x[|x[y[|f()[|a.b[|x[y][|(a)[|'s'[|{1:|{a: b, c:|{a: b, c: d, e:|{{a: b}:|{lambda: a:|{(a, b):|[{a:|f({a:|t{{a:
lambda:|lambda a:|lambda a,:|lambda a, b:|lambda: lambda:|(lambda:|[lambda a:|f(a, lambda:|{lambda:|{a: lambda:|x[lambda:|lambda: not|lambda: a +|lambda: a[
"""
ONLY_IN_A_LINE = r"""
x =|a, b =|a, =|a.b =|a[b] =|f() =|1 =|()) =|x = not|x = a or|x = a, b +|x = a[|x = {a:|x = lambda:|return|return -|return a, b or|return a[|return lambda:
if|if not|if a and|if a[|if {a:|if lambda:|while|while a <|while not|while (a +|for a in|for a in b or|for a in b[|for a in -|for a in {a:
a; b =|a; not|a; return|pass; x =|a; b; c *|x = a; y =|if a: return|if a: x =|if a: not|while a: b +|for a in b: c[|def f(): return|def f(a): x =|def f(a, b): {a:
"""
ONLY_BEHIND_LINES = r"""
if a: b\nelif|if a:\n  b\nelif|if a: b\nelif c: d\nelif|if a: b\nelif c or|if a: b\nelif c[|if a: b\nelse: x =|if a: b\nelse: return|if a: b\nelse: not|a\nb\nc =|\n#c\n\nx =
if a:\n  b\nx =|class A:\n  def f(): a\nreturn|while a:\n  b\nc\nd +|def f():\n  def g():\n    a\nx =
"""
ONLY_IN_A_BLOCK = r"""
if a:\n  b\n  x =|if a:\n  b\nelse:\n  return|class A:\n  def f(): return|class A:\n  def f(): a\n  def g(): x =|class A:\n  def f():\n    return|if a:\n  if b: c\n  elif
if a:\n  if b:\n    c\n  elif|for a in b:\n  c\n  d[|def f():\n  def g():\n    a\n  b +|if a:\n  while b:\n    c\n    not|if a:\n  #c\n\n  {b:
"""

# Behind these something else could stand: a closer, a name, a mark, an operator.
ALSO_IN_T = r"""
(|()|(a|(a,|(a, b|(a, b,|((a)|((|(a + b|(not a|f((|f(()|[|[a|[1,|[a, b|[a, b,|[[a]|[a or b|{|{a|{a,|{a, b|{a, b,|{a: b|{a: b,|{a: b, c|{a: b, c: d|{a: b, c: d,|{{|{-a
t{|t{a|t{a,|t{a, b,|t{t{|f(|f(a|f(a,|f(a, b|f(a, b,|f(g(|f(a)(|x[a|x[a or b|x[a](|a.|a.b.|f().|(a.|[a.|{a: b.|lambda|lambda a|lambda a,|lambda a, b|lambda a, b,
(lambda|[lambda a|f(lambda a,|{a: lambda|not (|- [|a or {|a + f(|a < t{|a, (|a, b.|x[(|x[[|x[{|{a: (|lambda: (|lambda: a.
"""
ALSO_IN_A_LINE = r"""
x = (|x = a.|a, b = [|return {|return f(|return (a,|if (|if a.|if a|if a or b|while a|while [|for|for a|for a in b|for a in (|def|def f|def f(|def f(a|def f(a,|def f(a, b|def f()
class|class A|a; (|a; b.|if a: (|if a: b.|def f(): [|for a in b: c(|while a: {|return lambda|x = lambda a
"""
# Behind these a line feed can stand, and an Indent behind that.
COLONS = "if a:|while a:|for a in b:|def f():|def f(a, b):|class A:"

BY_HAND = [
    # single scripts, most of which stand in the lists below too
    ("x =", 15, 3), ("x =\n", 16, 3), ("()", 15, 2), ("f(\n", 14, 2), ("[1,\n", 14, 3), ("(\n", 14, 1), ("{\n", 14, 1), ("class A:\n", 15, 9),
    ("x[\n", 16, 2), ("{1:\n", 16, 3), ("not\n", 16, 3), ("return\n", 16, 6), ("lambda:\n", 16, 7), ("if a:\n  x =", 16, 11), ("lambda\n", 14, 6),
    ("a.\n", 14, 2), ("def f(\n", 14, 6), ("if a:\n  if b:", 14, 13), ("a-1", 14, 1),
    # the end, behind blanks, comments and line feeds: "Eof is n"
    ("x = ", 15, 4), ("x =\t\r", 15, 5), ("x = #c", 15, 6), ("x = # \xe9", 15, 8), ("if a:\n\n", 15, 7), ("if a:\n#c", 15, 8), ("if a:\n#c\n", 15, 9), ("class A:\n\n\n", 15, 11),
    ("class A:\n#c\n", 15, 12), ("if a: b\nelse:", 15, 13), ("if a: b\nelse:\n", 15, 14), ("if a: b\nelif c:\n\n", 15, 17), ("if a:\n  ", 0, 0), ("class A:\n  ", 14, 11), ("if a:\n    ", 7, 6),
    ("\xe9 =", 15, 4), ("\ud55c[", 15, 4), ("(\ud55c", 15, 4),
    # the Newline, behind blanks and comments; what follows it is not looked at
    ("x = \n", 16, 4), ("x =\r\n", 16, 4), ("x = #c\n", 16, 6), ("x = # \xe9\n", 16, 8), ("\xe9 =\n", 16, 4), ("\ud55c[\n", 16, 4), ("x =\n\n\n", 16, 3), ("x = ''\ny =\n", 16, 10), ("x =\ny =", 16, 3),
    ("x =\n(", 16, 3), ("(\nx =\n", 14, 1), ("x = 'a\n' +\n", 16, 10), ("x =\n  y\n", 16, 3), ("x[\n  a]\n", 16, 2), ("f(\n  a)\n", 14, 2), ("a +\nb", 16, 3), ("{a:\nb}", 16, 3), ("(a,\nb)", 14, 3),
    # a Dedent at the end, the first of one or two
    ("if a:\n  if b:\n    not", 16, 21), ("if a:\n  if b:\n    (", 14, 19), ("if a:\n  x = #c", 16, 14), ("if a:\n  x = ", 16, 12), ("if a:\n  b", 14, 9), ("if a:\n  b;", 14, 10), ("if a:\n  b,", 14, 10),
    ("if a:\n  pass", 14, 12), ("if a:\n  return b", 14, 16), ("if a:\n  if b:\n", 14, 14), ("if a:\n  if b: c", 14, 15), ("if a:\n  class A:\n", 14, 17), ("class A:\n  def f(): a", 14, 21),
    ("class A:\n  def f():\n", 14, 20), ("class A:\n  def f(", 14, 17), ("class A:\n  def", 14, 14), ("if a:\n  '\xe9' +", 16, 14),
    # a Dedent with more behind it: after a carriage return and a token the flag is still set
    ("if a:\n  b\n\r-c\n", 16, 12), ("if a:\n  b\n\rnot(c)\n", 16, 14), ("if a:\n  b\n\rreturn(c)\n", 16, 17), ("if a:\n  b\n\rif(c): d\n", 16, 13), ("if a:\n  b\n\rwhile[c]: d\n", 16, 16),
    ("if a:\n  b\n\r+'c'\n", 16, 12), ("if a:\n  b\n\r-", 16, 12), ("if a:\n  b\n\r(c)\n", 14, 12), ("if a:\n  b\n\r[c]\n", 14, 12), ("if a:\n  b\n\rc=d\n", 14, 12), ("if a:\n  b\n\rlambda:c\n", 14, 17),
    ("if a:\n  if b:\n    c\n\r-d\n", 16, 22), ("if a:\n  if b:\n    c\n\r-  d\n", 16, 22), ("if a:\n  if b:\n    c\n\r(", 14, 22), ("if a:\n  b\n\r-    c\n", 14, 12), ("if a:\n  b\n\r-  c\n", 0, 0),
    # other tokens where only an expression or operand could stand
    ("x = ;", 14, 4), ("x = =", 14, 4), ("x = :", 14, 4), ("x = if", 14, 4), ("x = pass\n", 14, 4), ("x[]\n", 14, 2), ("{1:}", 14, 3), ("{a: b, c:}", 14, 9), ("not else", 14, 4), ("a or or b", 14, 5),
    ("a + lambda: b", 14, 4), ("- lambda: b", 14, 2), ("return return", 14, 7), ("\r-  a", 14, 2),
    # other tokens elsewhere
    ("a\n  b", 14, 2), ("a\n  ", 14, 2), ("if a: b\n  c", 14, 8), ("elif\n", 14, 0), ("else:", 14, 0), (")\n", 14, 0), ("=\n", 14, 0), (",\n", 14, 0), (";\n", 14, 0), (".", 14, 0), ("if a: b\n\nelse", 14, 9),
    # causes of other numbers come first, wherever they stand; and an accepted script is cut nowhere
    ("x =\n\t", 6, 4), ("x =\n   ", 7, 4), ("if a:\n  x =\n b", 8, 12), ("x =\n$", 9, 4), ("a <\\", 9, 3), ("x = 9223372036854775808", 10, 4), ("x = 1.0e24", 11, 4), ("x =\n\ud55c$", 9, 7), ("()\n$", 9, 3),
    ("a,", 0, 0), ("a;", 0, 0), ("return a,\n", 0, 0), ("\n", 0, 0), ("())\n", 0, 0),
    # 64 E are open: 13 is for a token that would open one more
    ("f[" * 64 + "a", 13, 128), ("f[" * 64, 15, 128), ("f[" * 64 + "\n", 16, 128), ("f[" * 64 + ")", 14, 128), ("(" * 64 + "\n", 14, 64), ("(" * 64, 15, 64), ("not " * 70 + "\n", 16, 280), ("not " * 70, 15, 280),
]


def beginnings(block):
    for line in block.strip("\n").split("\n"):
        yield from (text.encode().decode("unicode_escape") for text in line.split("|"))


def only_in_t():
    return [*beginnings(ONLY_IN_T), *(f"a {operator}" for operator in OPERATORS)]


def also_in_t():
    return list(beginnings(ALSO_IN_T))


BLOCK = "if a:\n  "


def in_lines():
    """Beginnings of one line, with what may follow them."""
    for count, text in enumerate([*only_in_t(), *beginnings(ONLY_IN_A_LINE)]):
        place = len(text)
        yield from [(text, 15, place), (text + "\n", 16, place), (BLOCK + text, 16, 8 + place)]
        yield BLOCK + text + ("\nb\n", "\n  b\n")[count % 2], 16, 8 + place
        yield text + (" )", " ,\n")[count % 2], 14, place + 1
    for text in [*also_in_t(), *beginnings(ALSO_IN_A_LINE)]:
        place = len(text)
        yield from [(text, 15, place), (text + "\n", 14, place), (BLOCK + text, 14, 8 + place)]
    for text in beginnings(COLONS):
        place = len(text)
        yield from [(text, 15, place), (text + "\n", 15, place + 1), (BLOCK + text, 14, 8 + place)]
        yield from [(BLOCK + text + "\n", 14, 9 + place), (BLOCK + text + "\nb\n", 14, 9 + place)]


def behind_lines():
    for block, end in ((ONLY_BEHIND_LINES, 15), (ONLY_IN_A_BLOCK, 16)):
        for text in beginnings(block):
            place = len(text)
            yield from [(text, end, place), (text + " #c\n", 16, place + 3), (text + "\nb\n", 16, place), (text + " )", 14, place + 1)]


def cases():
    """All of them: source, number, place."""
    for text, number, place in [*BY_HAND, *in_lines(), *behind_lines()]:
        yield text.encode(), number, place
