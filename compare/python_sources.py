"""Sources of the subset that document 01 shares with Python: what both read, and read alike but for what python_tree.py says.

Left out are 01's departures from the Reference (docs/DIFFERENCES.md): `not` beside a tighter operator, a sign that touches a Float's digits or an Int with
something behind it, `()`, t{..}, number and string forms and escapes of one side only, other steps of indentation,
carriage returns, line feeds in brackets, spaces alone at the end, a body at the end with no last line feed, keywords of Python alone, targets that
Python refuses, empty bodies, blank lines where they are refused, classes of other things than methods, and the forms that 01 has not.
"""
import random

from python_rows import COMPARISONS, FACTORS, ONE_AND_A_COMMA, TERMS, WIDE, commas, floats, long_ones, nested, systematic, wide

NAMES = (
    "a b c x y i n t t self _ __init__ total node_5 e5 E r1 If classes not_ nota true none None_ print match case type or_else "
    "distance_to_E aVeryLongNameWithManyLetters_and_1234567890"
).split() + WIDE
ATOMS = (["name"] * 10 + ["int"] * 5 + ["float"] * 2 + ["string"] * 4 + ["constant"] * 2)
GROUPS = ["paren"] * 4 + ["tuple", "list", "dict", "set"]
ESCAPES = ["\\n", "\\t", "\\r", "\\\\", "\\'", '\\"']
# Escapes that neither side knows: both keep the backslash.
KEPT = ["\\" + c for c in "cdeghijklmopqswyzABCDEFGHIJKLMOPQRSTVWXYZ .,;:!?#$%&()*+-/<=>@[]^_`{|}~89é"]
PIECES = list("abc XYZ 019_#;:,.()[]{}=+-*/<>!?@$&|~^`\t%") + ["é", "한", "🙂", "ß", "\xb7", "\u0301", "\u20ac", "\u2028", "\ufeff", "\x7f", "  ", "if", "# no comment"]


def wordlike(character):
    return ("a" + character).isidentifier()


def must_part(left, right):
    """Whether a blank must stand between two tokens, so that both sides read them as two."""
    if wordlike(left[-1]) and wordlike(right[0]):
        return True
    if left in ("+", "-") and right[0].isdigit():
        return True
    return left[-1].isdigit() and right == "."


class Source:
    """One random source, in `text`."""

    def __init__(self, seed, size):
        self.random = random.Random(seed)
        self.lines, self.blank_fits = [], True
        self.depth = self.random.randint(1, 4) if size > 1 else self.random.randint(0, 2)
        self.blanks = self.random.choice([["", ""], [" "], ["", " "], ["", " ", "  ", "\t"]])
        self.busy = self.random.choice([0.15, 0.3, 0.5])
        self.atoms, self.room = 0, 0
        self.body(0, size, self.random.randint(0, 3))
        self.blank_lines(0)
        self.text = "\n".join(self.lines) + "\n"
        if self.random.random() < 0.1 and self.lines[-1] and self.lines[-1][0] not in " \t":
            self.text = self.text[:-1]

    def chance(self, probability):
        return self.random.random() < probability

    def pick(self, things):
        return self.random.choice(things)

    def joined(self, tokens):
        text = tokens[0]
        for left, right in zip(tokens, tokens[1:]):
            blank = self.pick(self.blanks)
            text += (blank or " " if must_part(left, right) else blank) + right
        return text

    # Expressions: each method answers a list of tokens. `d` is how many brackets may still be opened.

    def row(self, part, operators, d):
        tokens = part(d)
        while self.atoms < self.room and self.chance(self.busy * 0.5):
            tokens = tokens + [self.pick(operators)] + part(d)
        return tokens

    def expression(self, d):
        if d > 0 and self.chance(0.06):
            return ["lambda"] + self.commas([[name] for name in self.some_names()]) + [":"] + self.expression(d - 1)
        return self.row(self.conjunction, ["or"], d)

    def conjunction(self, d):
        return self.row(self.negation, ["and"], d)

    def negation(self, d):
        if self.chance(0.12):
            return ["not"] * self.random.randint(1, 2) + self.signed(d)
        return self.row(self.sum, COMPARISONS, d)

    def sum(self, d):
        return self.row(self.product, TERMS, d)

    def product(self, d):
        return self.row(self.signed, FACTORS, d)

    def signed(self, d):
        signs = []
        while self.chance(0.12):
            signs.append(self.pick(TERMS))
        if self.chance(0.06):
            return signs + [self.pick(TERMS) + self.digits()]
        return signs + self.primary(d)

    def primary(self, d):
        tokens = self.atom(d)
        while self.chance(0.3):
            tokens = tokens + self.trailer(d)
        return tokens

    def trailer(self, d):
        kind = self.random.randint(0, 2)
        if kind == 0 or d <= 0:
            return [".", self.pick(NAMES)]
        if kind == 1:
            return ["("] + self.commas(self.some(d)) + [")"]
        return ["["] + self.expression(d - 1) + ["]"]

    def some(self, d, least=0):
        most = self.pick([2, 2, 4]) if self.atoms < self.room else 2
        return [self.expression(d - 1) for _ in range(self.random.randint(least, most))]

    def some_names(self):
        return [self.pick(NAMES) for _ in range(self.pick([0, 1, 1, 2, 3]))]

    def commas(self, members, must_end=False):
        """Members with commas between, and behind the last where it fits."""
        tokens = []
        for member in members:
            tokens += ([","] if tokens else []) + member
        return tokens + [","] if must_end or (members and self.chance(0.2)) else tokens

    def atom(self, d):
        self.atoms += 1
        if d > 0 and self.atoms < self.room and self.chance(self.busy):
            return self.group(self.pick(GROUPS), d)
        kind = self.pick(ATOMS)
        if kind == "name":
            return [self.pick(NAMES)]
        if kind == "constant":
            return [self.pick(["None", "True", "False"])]
        return [getattr(self, {"int": "digits", "float": "fraction", "string": "string"}[kind])()]

    def group(self, kind, d):
        if kind == "paren":
            return ["("] + self.expression(d - 1) + [")"]
        if kind == "tuple":
            members = self.some(d, 1)
            return ["("] + self.commas(members, len(members) == 1) + [")"]
        if kind == "list":
            return ["["] + self.commas(self.some(d)) + ["]"]
        if kind == "set":
            return ["{"] + self.commas(self.some(d, 1)) + ["}"]
        pairs = [self.expression(d - 1) + [":"] + self.expression(d - 1) for _ in range(self.random.randint(0, 3))]
        return ["{"] + self.commas(pairs) + ["}"]

    def digits(self):
        value = self.pick([self.random.randint(0, 12), self.random.randint(0, 10**6), self.random.randint(0, 2**63 - 1), 2**63 - 1, 2**31, 2**32])
        return str(value) if value or self.chance(0.9) else "00"

    def fraction(self):
        """An admitted Float: "m at most 2^53, p from -22 to 22"."""
        while True:
            before = str(self.random.randint(0, 10 ** self.random.randint(1, 15)))
            after = "".join(self.pick("0123456789") for _ in range(self.random.randint(1, 9)))
            exponent = self.random.randint(-25, 25) if self.chance(0.5) else None
            if int(before + after) <= 2**53 and -22 <= (exponent or 0) - len(after) <= 22:
                break
        if exponent is None:
            return ("0" if self.chance(0.1) else "") + before + "." + after
        sign = "-" if exponent < 0 else self.pick(["", "+"])
        return f"{before}.{after}{self.pick('eE')}{sign}{abs(exponent)}"

    def string(self):
        quote = self.pick("'\"")
        other = "'" if quote == '"' else '"'
        pieces = [self.pick([PIECES, PIECES, PIECES, ESCAPES, KEPT, [other]]) for _ in range(self.pick([0, 1, 3, 8]))]
        return quote + "".join(self.pick(piece) for piece in pieces) + quote

    # Statements.

    def listed(self):
        """The t of the grammar: one E, with a comma behind it or without, or more."""
        if self.chance(0.8):
            return self.one(self.expression(self.depth))
        return self.commas(self.some(self.depth, 2) or [["a"], ["b"]]) if self.depth > 0 else ["a", ",", "b"]

    def one(self, tokens):
        """One E or target, sometimes with a trailing comma, and then beside parentheses too."""
        if not self.chance(0.2):
            return tokens
        parts = self.pick(ONE_AND_A_COMMA).split()
        return [token for part in parts for token in (tokens if part == "{}" else [part])]

    def target(self, d):
        kind = self.random.randint(0, 9)
        if d <= 0 or kind < 4:
            return [self.pick(NAMES)]
        if kind == 4:
            return ["("] + self.target(d - 1) + [")"]
        if kind == 5:
            return ["["] + self.commas([self.target(d - 1) for _ in range(self.random.randint(0, 3))]) + ["]"]
        if kind == 6:
            members = [self.target(d - 1) for _ in range(self.random.randint(1, 3))]
            return ["("] + self.commas(members, len(members) == 1) + [")"]
        if kind == 7:
            return self.primary(d - 1) + ["["] + self.expression(d - 1) + ["]"]
        return self.primary(d - 1) + [".", self.pick(NAMES)]

    def simple(self):
        self.atoms, self.room = 0, self.pick([3, 8, 20])
        kind = self.random.randint(0, 9)
        if kind < 4:
            return self.listed()
        if kind < 7:
            targets = [self.target(self.depth) for _ in range(self.pick([1, 1, 1, 2, 3]))]
            left = self.commas(targets) if len(targets) > 1 else self.one(targets[0])
            return left + ["="] + self.listed()
        return ["return"] + self.listed() if kind < 8 else [self.pick(["break", "continue", "pass"])]

    def simples(self):
        tokens = self.simple()
        while self.chance(0.15):
            tokens = tokens + [";"] + self.simple()
        return tokens + [";"] if self.chance(0.06) else tokens

    def line(self, level, tokens):
        end = self.pick(["", "", "", "", " ", "\t", " # note", "# \"é\" (", " #"])
        self.lines.append("  " * level + self.joined(tokens) + end)
        self.blank_fits = True

    def blank_lines(self, level):
        while self.blank_fits and self.chance(0.12):
            self.lines.append(self.pick(["", "", " " * level, "   ", "# x", "#", "  " * level + "# (é", " " * self.random.randint(1, 9) + "#\t'"]))

    def body(self, level, size, blocks):
        """Lines at a level; `blocks` more levels may stand in it."""
        for _ in range(max(1, self.random.randint((size + 1) // 2, size))):
            self.blank_lines(level)
            if blocks > 0 and self.chance(0.4):
                self.pick([self.branches, self.branches, self.loop, self.function, self.cls])(level, size, blocks)
            else:
                self.line(level, self.simples())

    def block(self, level, head, size, blocks):
        """A head with its Block; answers whether this is on lines of its own."""
        if self.chance(0.35):
            self.line(level, head + [":"] + self.simples())
            return False
        self.line(level, head + [":"])
        self.body(level + 1, max(1, size - 1), blocks - 1)
        return True

    def branches(self, level, size, blocks):
        self.atoms, self.room = 0, 8
        own_lines = self.block(level, ["if"] + self.expression(self.depth), size, blocks)
        for _ in range(self.pick([0, 0, 1, 2])):
            if own_lines:
                self.blank_lines(level)
            own_lines = self.block(level, ["elif"] + self.expression(self.depth), size, blocks)
        if self.chance(0.4):
            if own_lines:
                self.blank_lines(level)
            self.block(level, ["else"], size, blocks)

    def loop(self, level, size, blocks):
        head = ["while"] if self.chance(0.5) else ["for", self.pick(NAMES), "in"]
        self.block(level, head + self.expression(self.depth), size, blocks)

    def function(self, level, size, blocks):
        names = self.commas([[name] for name in self.some_names()])
        return self.block(level, ["def", self.pick(NAMES), "("] + names + [")"], size, blocks)

    def cls(self, level, size, blocks):
        self.line(level, ["class", self.pick(NAMES), ":"])
        self.blank_lines(level + 1)
        for _ in range(self.random.randint(1, 3)):
            own_lines = self.function(level + 1, size, blocks - 1)
            self.blank_fits = self.blank_fits and own_lines
            self.blank_lines(level + 1)


def sources(count, seed):
    """Those of python_rows.py, and then random ones."""
    made = 0
    for text in [*systematic(), *nested(), *wide(), *floats(), *commas(), *long_ones()]:
        if made < count:
            yield text
            made += 1
    while made < count:
        yield Source(f"{seed}.{made}", (1, 1, 1, 2, 3, 5)[made % 6]).text
        made += 1
