"""Generated scripts, each a function of a `random.Random` so that a seed fixes them.

soup: words of the language in any order. script: a script of the grammar of documents 01
and 02, accepted unless it nests too deep. damaged: a copy with a few bytes altered.
nested: deep nesting of one sort.
"""

NAMES = [b"a", b"b", b"t", b"_x1", b"ifs", b"Truely", b"e5", b"\xc3\xa9", b"a\xc3\xa9",
         b"\xed\x95\x9c\xea\xb8\x80", b"x\xc2\xb71", b"\xe2\x84\x98", b"\xf0\x90\x8c\x80"]
INTS = [b"0", b"1", b"+7", b"-1", b"007", b"9223372036854775807", b"-9223372036854775808"]
FLOATS = [b"1.5", b"0.0", b"1.0e22", b"2.5E-3", b"900719925474099.2", b"00.10e+2"]
STRINGS = [b'""', b"'a'", b'"a\\n\\t\\r\\\\\\"\\\'"', b"'\\q\\0'", b"'\xc3\xa9'", b"'\n  '", b'"#"',
           b"'\\\xe2\x82\xac'"]
WORDS = (b"if elif else while for in def return and or not class break continue pass lambda "
         b"None True False").split()
SIGNS = b"+ - * // / % == != < <= > >= = ( ) [ ] { } : , ; .".split()
BLANKS = [b"", b"", b" ", b" ", b"  ", b"\t", b"\r", b" \r ", b"#c\n"]
LINE_STARTS = [b"\n", b"\n", b"\n  ", b"\n  ", b"\n    ", b"\n\n", b"\n\r", b"\r\n", b"\n \n",
               b"\n   #c\n", b"#\n"]
ODD = [b"\n ", b"\n   ", b"\n\t", b"!", b"$", b"'", b'"', b"\\", b"\xe2\x82\xac", b"\xc2\xb7",
       b"9223372036854775808", b"1.0e24", b"900719925474099.3", b"\x00", b"1.", b".5", b"@"]


def soup(rng, length, odd=0.02):
    """Words in any order, mostly parted by blanks, some by line feeds."""
    parts = []
    for _ in range(length):
        sort = rng.random()
        if sort < odd:
            parts.append(rng.choice(ODD))
        elif sort < 0.15:
            parts.append(rng.choice(LINE_STARTS))
        elif sort < 0.45:
            parts.append(rng.choice(SIGNS))
        elif sort < 0.65:
            parts.append(rng.choice(WORDS))
        else:
            parts.append(rng.choice(rng.choice((NAMES, NAMES, INTS, FLOATS, STRINGS))))
        parts.append(rng.choice(BLANKS))
    return b"".join(parts)


def damaged(rng, source, blows=None):
    """A copy with a few bytes, or slices, removed, doubled, exchanged or put in."""
    made = bytearray(source)
    for _ in range(blows or rng.choice((1, 1, 1, 2, 3))):
        at = rng.randrange(len(made) + 1)
        to = min(len(made), at + rng.choice((1, 1, 2, 5)))
        blow = rng.randrange(5)
        if blow == 0:
            del made[at:to]
        elif blow == 1:
            made[at:at] = made[at:to]
        elif blow == 2:
            made[at:at] = rng.choice(SIGNS + WORDS + NAMES + LINE_STARTS + ODD)
        elif blow == 3:
            made[at:to] = rng.choice(SIGNS + BLANKS + LINE_STARTS)
        else:
            del made[at:]
    return bytes(made)


def nested(sort, depth):
    """Nesting of one sort: depth + 1 E or Block are open at once at the innermost, save that
    signs open none."""
    if sort == "blocks":  # depth Blocks, one E in the innermost
        lines = [b"  " * level + b"if a:\n" for level in range(depth)]
        return b"".join(lines) + b"  " * depth + b"b\n"
    opener, closer = {
        "parentheses": (b"(", b")"), "tuples": (b"(", b",)"), "lists": (b"[", b"]"),
        "braces": (b"{", b"}"), "pairs": (b"{a:", b"}"), "keys": (b"{", b":a}"),
        "tree sets": (b"t{", b"}"), "calls": (b"f(", b")"), "indexes": (b"f[", b"]"),
        "lambdas": (b"lambda:", b""), "signs": (b"not ", b""), "empty tuples": (b"(", b")"),
    }[sort]
    return opener * depth + (b"())" if sort == "empty tuples" else b"a") + closer * depth


NESTED = ["blocks", "parentheses", "tuples", "lists", "braces", "pairs", "keys", "tree sets",
          "calls", "indexes", "lambdas", "signs", "empty tuples"]


def script(rng, lines=4, depth=2):
    """A script that the grammar of 01 and 02 admits, with its whitespace and comments varied."""
    return Writer(rng).program(lines, depth)


class Writer:
    """Expressions are lists of words; statements are finished bytes."""

    def __init__(self, rng):
        self.rng = rng
        # Whether the last line may lack its Newline at the end of the source, and whether it
        # is the inline body of a class's last method, where no Newline fits before the Dedent.
        self.last_is_inline = self.tight = False

    def chance(self, share):
        return self.rng.random() < share

    def program(self, lines, depth):
        made = b"".join(self.blank_lines(0) for _ in range(self.rng.randrange(2)))
        made += self.lines(0, self.rng.randrange(lines + 1), depth)
        if made.endswith(b"\n") and self.last_is_inline and self.chance(0.3):
            made = made[:-1]
        elif not self.tight and self.chance(0.2):
            made += self.rng.choice((b"#end", b"\n", b"\r", b"  #", b"\n#\n"))
        return made

    def blank_lines(self, level):
        return self.rng.choice((b"\n", b"  \n", b"\r\n", b"   # c\n", b"#\n", b" \n" * level))

    def lines(self, level, count, depth):
        made = b""
        for _ in range(count):
            made += self.line(level, depth)
            if not self.tight and self.chance(0.15):
                made += self.blank_lines(level)
                self.last_is_inline = False
        return made

    def line(self, level, depth):
        pad = b"  " * level
        sort = self.rng.randrange(9) if depth else 0
        self.last_is_inline = self.tight = False
        if sort == 1:
            return self.class_(level, depth)
        if sort == 2:
            return self.def_(level, depth)
        if sort == 3:
            return self.headed([b"while"] + self.expr(1), level, depth)
        if sort == 4:
            head = [b"for", self.name(), b"in"] + self.expr(1)
            return self.headed(head, level, depth)
        if sort in (5, 6):
            made = self.headed([b"if"] + self.expr(1), level, depth)
            while self.chance(0.4):
                made += self.headed([b"elif"] + self.expr(1), level, depth)
            if self.chance(0.4):
                made += self.headed([b"else"], level, depth)
            return made
        self.last_is_inline = True
        return pad + self.simples()

    def headed(self, words, level, depth):
        """A keyword's line and its Block."""
        self.tight = False
        head = b"  " * level + self.join(words + [b":"])
        if self.chance(0.3):
            self.last_is_inline = True
            return head + self.blank() + self.simples()
        made = head + self.line_end()
        if self.chance(0.15):
            made += self.blank_lines(level)
        made += self.lines(level + 1, self.rng.randrange(1, 3), depth - 1)
        self.last_is_inline = False
        return made

    def names(self):
        return self.commas([[self.name()] for _ in range(self.rng.randrange(4))])

    def def_(self, level, depth):
        return self.headed([b"def", self.name(), b"("] + self.names() + [b")"], level, depth)

    def class_(self, level, depth):
        made = b"  " * level + self.join([b"class", self.name(), b":"]) + self.line_end()
        for _ in range(self.rng.randrange(1, 3)):
            made += self.def_(level + 1, depth)
            inline = self.last_is_inline
        self.tight = self.tight or inline
        self.last_is_inline = False
        return made

    def line_end(self):
        return self.rng.choice((b"\n", b"\n", b" \n", b"\r\n", b" # c\n", b"\t\n"))

    def simples(self):
        statements = [self.simple() for _ in range(self.rng.choice((1, 1, 1, 2, 3)))]
        words = statements[0]
        for statement in statements[1:]:
            words = words + [b";"] + statement
        if self.chance(0.2):
            words = words + [b";"]
        return self.join(words) + self.line_end()

    def simple(self):
        sort = self.rng.randrange(8)
        if sort == 0:
            return [self.rng.choice((b"break", b"continue", b"pass"))]
        if sort == 1:
            return [b"return"] + self.t()
        if sort in (2, 3):
            return self.t() + [b"="] + self.t()
        return self.t()

    def t(self):
        count = self.rng.choice((1, 1, 1, 2, 3))
        if count == 1 and self.chance(0.3):
            parts = self.rng.choice(ONE_AND_A_COMMA).split()
            return [word for part in parts for word in (self.expr(1) if part == b"E" else [part])]
        return self.commas([self.expr(self.rng.choice((0, 1, 1, 2))) for _ in range(count)])

    def commas(self, members):
        """Members with commas between, and sometimes one trailing."""
        words = []
        for member in members:
            words += [b","] * bool(words) + member
        return words + [b","] * (bool(words) and self.chance(0.2))

    def expr(self, size):
        if self.chance(0.06):
            return [b"lambda"] + self.names() + [b":"] + self.expr(size - 1)
        return self.operand(size)

    def operand(self, size):
        """Operators in any order fit: precedence only decides how they group."""
        words = self.signed(size)
        while self.chance(0.25):
            operator = self.rng.choice(
                b"or and < <= > >= == != + - * // / % < + or".split())
            words += [operator] + self.signed(size - 1)
        return words

    def signed(self, size):
        signs = []
        while self.chance(0.15):
            signs.append(self.rng.choice((b"not", b"-", b"+")))
        return signs + self.factor(size)

    def list(self, size):
        return self.commas([self.expr(size - 1) for _ in range(self.rng.randrange(3))])

    def factor(self, size):
        sort = self.rng.randrange(11) if size > 0 else self.rng.randrange(4)
        if sort in (0, 1, 2):
            words = [self.name()]
        elif sort == 3:
            words = [self.rng.choice(INTS + FLOATS + STRINGS + [b"None", b"True", b"False"])]
        elif sort == 4:
            words = [b"["] + self.list(size) + [b"]"]
        elif sort == 5:
            words = [b"t", b"{"] + self.list(size) + [b"}"]
        elif sort == 6:
            words = [b"{"] + self.list(size) + [b"}"]
        elif sort == 7:
            pairs = [self.expr(size - 1) + [b":"] + self.expr(size - 1)
                     for _ in range(self.rng.randrange(3))]
            words = [b"{"] + self.commas(pairs) + [b"}"]
        elif sort == 8:
            words = [b"("] + self.expr(size - 1) + [b")"]
        elif sort == 9:
            words = [b"("] + self.expr(size - 1) + [b","] + self.list(size) + [b")"]
        else:
            words = [b"(", b")", b")"]
        while self.chance(0.15):
            words += self.rng.choice((
                [b".", self.name()], [b"("] + self.list(size) + [b")"],
                [b"["] + self.expr(size - 1) + [b"]"]))
        return words

    def name(self):
        return self.rng.choice(NAMES)

    def blank(self):
        return self.rng.choice((b"", b" ", b" ", b"  ", b"\t", b"\r"))

    def join(self, words):
        """Words with blanks between, none only beside a bracket or one of , ; :"""
        made = words[0]
        for before, after in zip(words, words[1:]):
            close = before in SAFE or after in SAFE
            made += (self.blank() if close else self.blank() or b" ") + after
        return made


SAFE = b"( ) [ ] { } , ; :".split()
# "One E with a trailing comma" (02), alone and beside parentheses, which make a Tuple of one too.
ONE_AND_A_COMMA = [b"E ,", b"E ,", b"( E ) ,", b"( E , ) ,", b"( ( E , ) , )"]
