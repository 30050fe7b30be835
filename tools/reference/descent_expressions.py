"""The descent of section "Grammar" of document 01: openings, nodes, expressions.

"Thirteen rules: Program (opened once, always), Line, Simple, Block, Class, E, O, A,
C, S, P, U, F; each call of one is an opening." "Descent opens a rule only on a token
that can begin it and decides by the next token, `{` after its first E".

Each rule is the method of its name, called through `open` alone. Nodes are written
once, in order, and never taken back.
"""
import sys

from scan import Code, Refusal
from tree import BINARY, END, LITERALS, NEXT, NONE, START, UNARY, Kind, literal

# 64 E open at once are some 1,200 calls of Python's.
sys.setrecursionlimit(max(10_000, sys.getrecursionlimit()))

# "A token can begin a rule when some reading of the rule starts with it".
BEGINS_F = frozenset(LITERALS + (Code.LBracket, Code.LBrace, Code.LParen, Code.Identifier))
BEGINS_U = BEGINS_F | UNARY.keys()
BEGINS_E = BEGINS_U | {Code.Lambda}
BEGINS_SIMPLE = BEGINS_E | {Code.Return, Code.Break, Code.Continue, Code.Pass}
BEGINS_LINE = BEGINS_SIMPLE | {Code.Class, Code.Def, Code.If, Code.While, Code.For}
BEGINS = {
    "Line": BEGINS_LINE, "Simple": BEGINS_SIMPLE, "Block": {Code.Colon}, "Class": {Code.Class},
    "E": BEGINS_E, "O": BEGINS_U, "A": BEGINS_U, "C": BEGINS_U, "S": BEGINS_U, "P": BEGINS_U,
    "U": BEGINS_U, "F": BEGINS_F,
}


class Chain:
    """"A list is its first node or none, then next." A member's next is set when the next
    member's node is complete."""

    def __init__(self, nodes, *members):
        self.nodes, self.first, self.last = nodes, NONE, NONE
        for member in members:
            self.add(member)

    def add(self, member):
        if self.first == NONE:
            self.first = member
        else:
            self.nodes[self.last][NEXT] = member
        self.last = member

    def into(self, chain):
        """This list after that one."""
        if chain.first == NONE:
            chain.first = self.first
        else:
            self.nodes[chain.last][NEXT] = self.first
        chain.last = self.last


class ExpressionRules:
    def __init__(self, tokens, limit):
        self.tokens, self.limit = tokens, limit
        self.at = self.depth = self.openings = 0
        self.nodes = []

    def next(self):
        return self.tokens[self.at].code

    def refuse(self, number):
        raise Refusal(number, self.tokens[self.at].start)

    def take(self, code):
        """The token that must stand here. "14 does it fit the grammar? (its start; Eof is n)" """
        if self.next() != code:
            self.refuse(14)
        self.at += 1
        return self.tokens[self.at - 1]

    def open(self, rule):
        if self.next() not in BEGINS[rule]:
            self.refuse(14)
        deeper = rule in ("E", "Block")
        # "the opening that 13 refuses isn't counted"
        if deeper and self.depth == self.limit:
            self.refuse(13)
        self.openings += 1
        self.depth += deeper
        made = getattr(self, rule)()
        self.depth -= deeper
        return made

    def write(self, kind, start, end, p=0, q=0, r=0, s=0):
        """"A node is written when its last part is read." """
        self.nodes.append([kind, start, end, NONE, p, q, r, s])
        return len(self.nodes) - 1

    def write_from(self, kind, start, *fields):
        """A node that ends with the last token taken."""
        return self.write(kind, start, self.tokens[self.at - 1].end, *fields)

    def here(self):
        return self.tokens[self.at].start

    def widen(self, node, start):
        """The node's span, from start to the last token taken."""
        self.nodes[node][START] = start
        self.nodes[node][END] = self.tokens[self.at - 1].end

    def names(self, closer):
        """Names, commas between and one trailing, up to the closer."""
        chain = Chain(self.nodes)
        while self.next() == Code.Identifier:
            name = self.take(Code.Identifier)
            chain.add(self.write(Kind.Name, name.start, name.end, name.start, name.end))
            if self.next() != Code.Comma:
                break
            self.at += 1
        self.take(closer)
        return chain.first

    # Expressions.

    def E(self):
        """"E: lambda names : E, or O." """
        if self.next() != Code.Lambda:
            return self.open("O")
        start = self.take(Code.Lambda).start
        names = self.names(Code.Colon)
        body = self.open("E")
        return self.write_from(Kind.Lambda, start, names, body)

    def binary(self, operator, left, right):
        return self.write(Kind.Binary, self.nodes[left][START], self.nodes[right][END],
                          BINARY[operator], left, right)

    def left(self, member, *operators):
        """"All group left." """
        made = self.open(member)
        while self.next() in operators:
            operator = self.next()
            self.at += 1
            made = self.binary(operator, made, self.open(member))
        return made

    def O(self):
        """"O: A by `or`." """
        return self.left("A", Code.Or)

    def A(self):
        """"A: C by `and`." """
        return self.left("C", Code.And)

    def C(self):
        """"A chain `a<b<c` is And(a<b, b<c), the middle node referred to twice" """
        made, middle = None, self.open("S")
        while self.next() in (Code.EqualEqual, Code.NotEqual, Code.Less, Code.LessEqual,
                              Code.Greater, Code.GreaterEqual):
            operator = self.next()
            self.at += 1
            right = self.open("S")
            compared = self.binary(operator, middle, right)
            made = compared if made is None else self.binary(Code.And, made, compared)
            middle = right
        return middle if made is None else made

    def S(self):
        """"S: P by + -." """
        return self.left("P", Code.Plus, Code.Minus)

    def P(self):
        """"P: U by * // / %." """
        return self.left("U", Code.Star, Code.SlashSlash, Code.Slash, Code.Percent)

    def U(self):
        """"U: any of not - +, then F." """
        signs = []
        while self.next() in UNARY:
            signs.append(self.take(self.next()))
        made = self.open("F")
        while signs:
            sign = signs.pop()
            made = self.write_from(Kind.Unary, sign.start, UNARY[sign.code], made)
        return made

    def members(self, closer, chain):
        """E's, commas between and one trailing, up to the closer."""
        while self.next() in BEGINS_E:
            chain.add(self.open("E"))
            if self.next() != Code.Comma:
                break
            self.at += 1
        self.take(closer)
        return chain.first

    def F(self):
        """"F: literal; [list]; t{list}; {} as Dict, {pairs}, {list}; parentheses; name; then
        .name (list) [E] repeated." """
        start = self.here()
        token = self.take(self.next())
        if token.code in LITERALS:
            kind, *fields = literal(token)
            made = self.write_from(kind, start, *fields)
        elif token.code == Code.LBracket:
            members = self.members(Code.RBracket, Chain(self.nodes))
            made = self.write_from(Kind.List, start, members)
        elif token.code == Code.LBrace:
            made = self.braces(start)
        elif token.code == Code.LParen:
            made = self.parentheses(start)
        elif token.value == b"t" and self.next() == Code.LBrace:
            self.at += 1
            members = self.members(Code.RBrace, Chain(self.nodes))
            made = self.write_from(Kind.TreeSet, start, members)
        else:
            made = self.write_from(Kind.Variable, start, token.start, token.end)
        while True:
            if self.next() == Code.Dot:
                self.at += 1
                name = self.take(Code.Identifier)
                made = self.write_from(Kind.Attribute, start, made, name.start, name.end)
            elif self.next() == Code.LParen:
                self.at += 1
                members = self.members(Code.RParen, Chain(self.nodes))
                made = self.write_from(Kind.Call, start, made, members)
            elif self.next() == Code.LBracket:
                self.at += 1
                inner = self.open("E")
                self.take(Code.RBracket)
                made = self.write_from(Kind.Index, start, made, inner)
            else:
                return made

    def braces(self, start):
        """"`{` after its first E": a colon for pairs, anything else for a list."""
        if self.next() == Code.RBrace:
            self.at += 1
            return self.write_from(Kind.Dict, start, NONE)
        first = self.open("E")
        if self.next() != Code.Colon:
            chain = Chain(self.nodes, first)
            return self.write_from(Kind.Set, start, self.rest(Code.RBrace, chain))
        chain = Chain(self.nodes, self.pair(first))
        while self.next() == Code.Comma:
            self.at += 1
            if self.next() not in BEGINS_E:
                break
            chain.add(self.pair(self.open("E")))
        self.take(Code.RBrace)
        return self.write_from(Kind.Dict, start, chain.first)

    def pair(self, key):
        self.take(Code.Colon)
        value = self.open("E")
        return self.write_from(Kind.Pair, self.nodes[key][START], key, value)

    def rest(self, closer, chain):
        """What follows a list's first member."""
        if self.next() != Code.Comma:
            self.take(closer)
            return chain.first
        self.at += 1
        return self.members(closer, chain)

    def parentheses(self, start):
        """"(E) is E with the wider span; (E, list) is a Tuple; `()` is refused and `())` is
        the empty Tuple." """
        if self.next() == Code.RParen:
            self.at += 1
            self.take(Code.RParen)
            return self.write_from(Kind.Tuple, start, NONE)
        first = self.open("E")
        if self.next() == Code.Comma:
            members = self.rest(Code.RParen, Chain(self.nodes, first))
            return self.write_from(Kind.Tuple, start, members)
        self.take(Code.RParen)
        self.widen(first, start)
        return first
