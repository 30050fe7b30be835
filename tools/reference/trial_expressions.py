"""The ordered trial of section "Grammar" of document 01: parts, nodes, expressions.

"Its state is a token number, at first 0, and the nodes kept, at first none. It
takes rules, lists, t and parentheses part by part, as written above."

Every method below is a part: it takes its tokens and returns what it made, or
raises Fail. E's outcome is remembered for each state it began in (token number
and count of nodes kept): E looks at nothing else, so taking a remembered outcome
is the same as trying again, and nested braces and parentheses don't double.
"""
from scan import Code
from tree import BINARY, END, LITERALS, NEXT, NONE, START, UNARY, Kind, literal


class Fail(Exception):
    """A part that doesn't fit."""


ABSENT = object()

PRODUCTS = (Code.Star, Code.SlashSlash, Code.Slash, Code.Percent)
SUMS = (Code.Plus, Code.Minus)
COMPARISONS = (Code.Less, Code.LessEqual, Code.Greater, Code.GreaterEqual,
               Code.EqualEqual, Code.NotEqual)


class Expressions:
    def __init__(self, tokens):
        self.tokens, self.at, self.nodes, self.known = tokens, 0, [], {}

    # How parts are taken.

    def ask(self, *codes):
        """"A token asked for fits where it stands next, and the number rises by one;
        Eof fits as end and stays." """
        token = self.tokens[self.at]
        if token.code not in codes:
            raise Fail
        if token.code != Code.Eof:
            self.at += 1
        return token

    def maybe(self, part):
        """"What may be absent ... is tried, and left out where it fails." "A part fails as
        soon as one of its own does; number, nodes, spans and links are then as where it
        began." A part alters spans and links of nodes of its own only, so they go with them."""
        at, kept = self.at, len(self.nodes)
        try:
            return part()
        except Fail:
            self.at = at
            del self.nodes[kept:]
            return ABSENT

    def choice(self, *parts):
        """"A choice keeps the first alternative that fits, in the order above, and tries
        no later one even if what follows fails." """
        for part in parts:
            made = self.maybe(part)
            if made is not ABSENT:
                return made
        raise Fail

    def repeated(self, part):
        """"A repeated part is taken while it fits" """
        while (made := self.maybe(part)) is not ABSENT:
            yield made

    def separated(self, member, separator):
        """One or more members, "a separator and the next member as one part", one
        trailing separator allowed."""
        members = [member()]
        members += self.repeated(lambda: (self.ask(separator), member())[1])
        self.maybe(lambda: self.ask(separator))
        return members

    def listed(self, member):
        """"Lists, of names and pairs too, may be empty and take commas, one trailing,
        none alone." """
        members = self.maybe(lambda: self.separated(member, Code.Comma))
        return [] if members is ABSENT else members

    # How nodes are made.

    def span(self, first):
        """"Spans run from first to last token taken" """
        return self.tokens[first].start, self.tokens[self.at - 1].end

    def node(self, kind, start, end, *fields):
        fields += (0,) * (4 - len(fields))
        self.nodes.append([kind, start, end, NONE, *fields])
        return len(self.nodes) - 1

    def chain(self, members):
        """"A list is its first node or none, then next." """
        for member, following in zip(members, members[1:]):
            self.nodes[member][NEXT] = following
        return members[0] if members else NONE

    def binary(self, operator, left, right):
        return self.node(Kind.Binary, self.nodes[left][START], self.nodes[right][END],
                         BINARY[operator], left, right)

    # E, O, A, C, S, P, U, F.

    def e(self):
        """"E: lambda names : E, or O." """
        state = self.at, len(self.nodes)
        if state not in self.known:
            made = self.maybe(lambda: self.choice(self.lambda_, self.o))
            self.known[state] = made, self.at, [record[:] for record in self.nodes[state[1]:]]
        else:
            made, self.at, records = self.known[state]
            self.nodes += [record[:] for record in records]
        if made is ABSENT:
            raise Fail
        return made

    def lambda_(self):
        first = self.at
        self.ask(Code.Lambda)
        names = self.listed(self.name)
        self.ask(Code.Colon)
        body = self.e()
        return self.node(Kind.Lambda, *self.span(first), self.chain(names), body)

    def name(self):
        token = self.ask(Code.Identifier)
        return self.node(Kind.Name, token.start, token.end, token.start, token.end)

    def rests(self, operators, member):
        """What follows the first member: operator and member, again and again."""
        return self.repeated(lambda: (self.ask(*operators).code, member()))

    def grouped(self, member, *operators):
        """"All group left." """
        left = member()
        for operator, right in self.rests(operators, member):
            left = self.binary(operator, left, right)
        return left

    def o(self):
        """"O: A by `or`." """
        return self.grouped(self.a, Code.Or)

    def a(self):
        """"A: C by `and`." """
        return self.grouped(self.c, Code.And)

    def c(self):
        """"C: S by comparisons." "A chain `a<b<c` is And(a<b, b<c), the middle node
        referred to twice" """
        whole = last = self.s()
        comparisons = 0
        for operator, right in self.rests(COMPARISONS, self.s):
            comparison = self.binary(operator, last, right)
            whole = self.binary(Code.And, whole, comparison) if comparisons else comparison
            last = right
            comparisons += 1
        return whole

    def s(self):
        """"S: P by + -." """
        return self.grouped(self.p, *SUMS)

    def p(self):
        """"P: U by * // / %." """
        return self.grouped(self.u, *PRODUCTS)

    def u(self):
        """"U: any of not - +, then F." """
        signs = list(self.repeated(lambda: self.ask(*UNARY)))
        operand = self.f()
        for sign in reversed(signs):
            operand = self.node(Kind.Unary, sign.start, self.nodes[operand][END],
                                UNARY[sign.code], operand)
        return operand

    def f(self):
        """"F: literal; [list]; t{list}; {} as Dict, {pairs}, {list}; parentheses; name; then
        .name (list) [E] repeated." """
        first = self.at
        made = self.choice(
            self.literal,
            lambda: self.enclosed(Kind.List, Code.LBracket, self.e, Code.RBracket),
            self.tree_set,
            lambda: self.enclosed(Kind.Dict, Code.LBrace, None, Code.RBrace),
            lambda: self.enclosed(Kind.Dict, Code.LBrace, self.pair, Code.RBrace),
            lambda: self.enclosed(Kind.Set, Code.LBrace, self.e, Code.RBrace),
            self.parentheses,
            self.variable)
        for kind, fields in self.repeated(lambda: self.choice(
                self.attribute, self.call, self.index)):
            made = self.node(kind, *self.span(first), made, *fields)
        return made

    def literal(self):
        token = self.ask(*LITERALS)
        kind, *fields = literal(token)
        return self.node(kind, token.start, token.end, *fields)

    def variable(self):
        token = self.ask(Code.Identifier)
        return self.node(Kind.Variable, token.start, token.end, token.start, token.end)

    def enclosed(self, kind, opener, member, closer, first=None):
        first = self.at if first is None else first
        self.ask(opener)
        members = self.listed(member) if member else []
        self.ask(closer)
        return self.node(kind, *self.span(first), self.chain(members))

    def tree_set(self):
        first = self.at
        if self.ask(Code.Identifier).value != b"t":
            raise Fail
        return self.enclosed(Kind.TreeSet, Code.LBrace, self.e, Code.RBrace, first)

    def pair(self):
        """"a Pair, key to value" """
        first = self.at
        key = self.e()
        self.ask(Code.Colon)
        value = self.e()
        return self.node(Kind.Pair, *self.span(first), key, value)

    def parentheses(self):
        """"Parentheses are tried as (E), (E, list), `())`." """
        first = self.at

        def inner():
            self.ask(Code.LParen)
            made = self.e()
            self.ask(Code.RParen)
            # "(E) is E with the wider span"
            self.nodes[made][START:END + 1] = self.span(first)
            return made

        def several():
            self.ask(Code.LParen)
            members = [self.e()]
            self.ask(Code.Comma)
            members += self.listed(self.e)
            self.ask(Code.RParen)
            return self.node(Kind.Tuple, *self.span(first), self.chain(members))

        def empty():
            self.ask(Code.LParen)
            self.ask(Code.RParen)
            self.ask(Code.RParen)
            return self.node(Kind.Tuple, *self.span(first), self.chain([]))

        return self.choice(inner, several, empty)

    def attribute(self):
        self.ask(Code.Dot)
        name = self.ask(Code.Identifier)
        return Kind.Attribute, (name.start, name.end)

    def call(self):
        self.ask(Code.LParen)
        members = self.listed(self.e)
        self.ask(Code.RParen)
        return Kind.Call, (self.chain(members),)

    def index(self):
        self.ask(Code.LBracket)
        inner = self.e()
        self.ask(Code.RBracket)
        return Kind.Index, (inner,)
