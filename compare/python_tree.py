"""The records of document 01, section "Tree", made from what CPython reads.

CPython's `ast` has the nodes and their places, its `tokenize` the brackets, line ends and dedents. This file adds the numbers of 01's kinds and
operators, the order "a node is written when its last part is read", and these sentences:

- "Spans run from first to last token taken, closing Dedent included; Program has 0 to n; a Pair, key to value"
- "(E) is E with the wider span"; "An Assign target takes the statement's span"
- "A chain `a<b<c` is And(a<b, b<c), the middle node referred to twice"; "All group left"
- "Int: optional sign, digits": a sign that touches digits is the Int's own

Names are places in the source. CPython's nodes have them normalised to NFKC, which 02 departs from (change 1), so a name's bytes are taken from the source at
the node's place, and only asked to normalise to what the node has. A Float's r and s (02, change 3) are the columns of CPython's own Constant, which no
parentheses widen; whether an Assign widens them is not compared, since Python refuses a literal as a target.

It shares nothing with tools/reference and knows no other departure of 01: `python_sources.py` writes none.
"""
import ast
import struct
import warnings

from python_tokens import Tokens

NONE = 4294967295
# "The header's version becomes 2" (02, change 3)
VERSION = 2

KINDS = (
    "Program If While For Def Return Assign Class Break Continue Pass Expr Method Elif Else Name Pair Bool Int String Float None "
    "Variable Unary Binary Call Attribute List Dict Tuple Set TreeSet Index Lambda"
).split()
KIND = {name: number for number, name in enumerate(KINDS, 1)}

UNARY = {ast.Not: 1, ast.USub: 2, ast.UAdd: 3}
BINARY = {
    ast.Add: 1, ast.Sub: 2, ast.Mult: 3, ast.Div: 4, ast.FloorDiv: 5, ast.Mod: 6, ast.Eq: 7, ast.NotEq: 8, ast.Lt: 9, ast.LtE: 10,
    ast.Gt: 11, ast.GtE: 12, ast.And: 13, ast.Or: 14,
}
OPERATORS = "+ - * / // % == != < <= > >= and or".split()


class Tree(Tokens):
    """`records`, the N lists of 8 words, and `text`, the decoded strings, beside the tokens."""

    def __init__(self, source):
        with warnings.catch_warnings():
            warnings.simplefilter("ignore")
            module = ast.parse(source)
        super().__init__(source)
        self.records, self.text = [], b""
        first, _, _ = self.statements(module.body, 0)
        self.node("Program", 0, self.size, first)

    def node(self, kind, start, end, *fields):
        self.records.append([KIND[kind], start, end, NONE, *fields, *[0] * (4 - len(fields))])
        return len(self.records) - 1

    def chain(self, numbers):
        """"A list is its first node or none, then next" """
        for number, following in zip(numbers, numbers[1:]):
            self.records[number][3] = following
        return numbers[0] if numbers else NONE

    # Expressions: each method answers the node's number. The tokens from low to high are those among which its own parentheses can stand.

    def expression(self, node, low, high):
        i, j = self.range_of(node)
        first, last = i, j
        while low < first and last < high and self.word(first - 1) == "(" and self.closer[first - 1] == last + 1:
            first, last = first - 1, last + 1
            self.noted["parentheses"] += 1
        span = self.tokens[first].start, self.tokens[last].end
        number = getattr(self, "read_" + type(node).__name__)(node, i, j)
        self.noted["Floats in parentheses"] += first < i and self.records[number][0] == KIND["Float"]
        self.records[number][1:3] = span
        return number

    def listed(self, nodes, low, high):
        return self.chain([self.expression(node, low, high) for node in nodes])

    def end_of(self, number):
        return self.records[number][2]

    def names(self, arguments):
        numbers = []
        for argument in arguments.args:
            start, end = self.name(self.range_of(argument)[0], argument.arg)
            numbers.append(self.node("Name", start, end, start, end))
        return self.chain(numbers)

    def binary(self, operator, left, right):
        return self.node("Binary", self.records[left][1], self.end_of(right), BINARY[type(operator)], left, right)

    def read_Constant(self, node, i, j):
        value = node.value
        if value is None:
            return self.node("None", 0, 0)
        if isinstance(value, bool):
            return self.node("Bool", 0, 0, int(value))
        if isinstance(value, int):
            return self.integer(value)
        if isinstance(value, float):
            return self.node("Float", 0, 0, *struct.unpack("<II", struct.pack("<d", value)), *self.places(node))
        data = value.encode()
        self.noted["strings with a backslash"] += "\\" in self.word(i)
        self.text += data
        return self.node("String", 0, 0, len(self.text) - len(data), len(data))

    def integer(self, value):
        return self.node("Int", 0, 0, *struct.unpack("<II", struct.pack("<q", value)))

    def read_Name(self, node, i, j):
        return self.node("Variable", 0, 0, *self.name(i, node.id))

    def read_UnaryOp(self, node, i, j):
        operand = node.operand
        digits = self.word(i + 1).isdigit() and self.tokens[i].end == self.tokens[i + 1].start
        if isinstance(operand, ast.Constant) and digits and i + 1 == j:
            self.noted["signed Ints"] += 1
            self.count -= 1
            return self.integer(-operand.value if isinstance(node.op, ast.USub) else operand.value)
        return self.node("Unary", 0, 0, UNARY[type(node.op)], self.expression(operand, i + 1, j))

    def read_BinOp(self, node, i, j):
        left = self.expression(node.left, i, j)
        return self.binary(node.op, left, self.expression(node.right, i, j))

    def read_BoolOp(self, node, i, j):
        result = self.expression(node.values[0], i, j)
        for value in node.values[1:]:
            result = self.binary(node.op, result, self.expression(value, i, j))
        return result

    def read_Compare(self, node, i, j):
        middle, result = self.expression(node.left, i, j), None
        self.noted["chains"] += len(node.ops) > 1
        for operator, operand in zip(node.ops, node.comparators):
            right = self.expression(operand, i, j)
            part = self.binary(operator, middle, right)
            result = part if result is None else self.binary(ast.And(), result, part)
            middle = right
        return result

    def read_Call(self, node, i, j):
        function = self.expression(node.func, i, j)
        opening = self.last[self.end_of(function)] + 1
        return self.node("Call", 0, 0, function, self.listed(node.args, opening + 1, j - 1))

    def read_Attribute(self, node, i, j):
        return self.node("Attribute", 0, 0, self.expression(node.value, i, j), *self.name(j, node.attr))

    def read_Subscript(self, node, i, j):
        value = self.expression(node.value, i, j)
        return self.node("Index", 0, 0, value, self.expression(node.slice, self.last[self.end_of(value)] + 2, j - 1))

    def read_Tuple(self, node, i, j):
        inside = 1 if self.closer.get(i) == j else 0
        return self.node("Tuple", 0, 0, self.listed(node.elts, i + inside, j - inside))

    def read_List(self, node, i, j):
        return self.node(type(node).__name__, 0, 0, self.listed(node.elts, i + 1, j - 1))

    read_Set = read_List

    def read_Dict(self, node, i, j):
        pairs = []
        for key, value in zip(node.keys, node.values):
            left = self.expression(key, i + 1, j - 1)
            right = self.expression(value, i + 1, j - 1)
            pairs.append(self.node("Pair", self.records[left][1], self.end_of(right), left, right))
        return self.node("Dict", 0, 0, self.chain(pairs))

    def read_Lambda(self, node, i, j):
        names = self.names(node.args)
        return self.node("Lambda", 0, 0, names, self.expression(node.body, i, j))

    def listed_bare(self, node, low, high, place):
        """The t of the grammar. That a Tuple's span includes its trailing comma is CPython's own."""
        comma = isinstance(node, ast.Tuple) and len(node.elts) == 1 and self.word(self.range_of(node)[1]) == ","
        self.noted[f"one E and a comma, {place}"] += comma
        return self.expression(node, low, high)

    # Statements: each method answers the node's number and the token behind it.

    def statements(self, nodes, at):
        """The list, the token behind its last statement and the `;` and Newline of that, and where this ends."""
        numbers = []
        for node in nodes:
            number, at = self.statement(node)
            numbers.append(number)
            simple = type(node).__name__ not in COMPOUND
            if simple and self.word(at) == ";":
                at += 1
            if simple and self.word(at) == "NEWLINE":
                at += 1
        return self.chain(numbers), at, self.tokens[at - 1].end if at else 0

    def block(self, nodes):
        at = self.range_of(nodes[0])[0]
        indented = self.word(at - 1) == "INDENT"
        self.noted["bodies on lines of their own" if indented else "bodies behind the colon"] += 1
        first, at, end = self.statements(nodes, at)
        if indented:
            assert self.word(at) == "DEDENT"
            return first, at + 1, self.tokens[at].end
        return first, at, end

    def statement(self, node):
        i, j = self.range_of(node)
        name = type(node).__name__
        if name in COMPOUND:
            return getattr(self, "read_" + name)(node, i, self.tokens[i].start)
        start, end, fields = self.tokens[i].start, self.tokens[j].end, []
        if name == "Assign":
            target = self.listed_bare(node.targets[0], i, j, "a target")
            self.records[target][1:3] = start, end
            fields = [target, self.listed_bare(node.value, i, j, "a value")]
        elif name in ("Expr", "Return"):
            fields = [self.listed_bare(node.value, i, j, "an expression" if name == "Expr" else "returned")]
        return self.node(name, start, end, *fields), j + 1

    def read_If(self, node, i, start):
        condition = self.expression(node.test, i + 1, len(self.tokens))
        first, at, end = self.block(node.body)
        elifs, otherwise = [], NONE
        while node.orelse:
            if self.word(at) == "elif":
                node, begin = node.orelse[0], self.tokens[at].start
                inner = self.expression(node.test, at + 1, len(self.tokens))
                body, at, end = self.block(node.body)
                elifs.append(self.node("Elif", begin, end, inner, body))
            else:
                assert self.word(at) == "else"
                begin = self.tokens[at].start
                body, at, end = self.block(node.orelse)
                otherwise = self.node("Else", begin, end, body)
                break
        return self.node("If", start, end, condition, first, self.chain(elifs), otherwise), at

    def read_While(self, node, i, start):
        condition = self.expression(node.test, i + 1, len(self.tokens))
        first, at, end = self.block(node.body)
        return self.node("While", start, end, condition, first), at

    def read_For(self, node, i, start):
        target = self.name(self.range_of(node.target)[0], node.target.id)
        over = self.expression(node.iter, i + 3, len(self.tokens))
        first, at, end = self.block(node.body)
        return self.node("For", start, end, *target, over, first), at

    def read_FunctionDef(self, node, i, start, kind="Def"):
        names = self.names(node.args)
        first, at, end = self.block(node.body)
        return self.node(kind, start, end, *self.name(i + 1, node.name), names, first), at

    def read_ClassDef(self, node, i, start):
        methods, at = [], None
        for method in node.body:
            begin = self.range_of(method)[0]
            number, at = self.read_FunctionDef(method, begin, self.tokens[begin].start, "Method")
            methods.append(number)
        assert self.word(at) == "DEDENT"
        return self.node("Class", start, self.tokens[at].end, *self.name(i + 1, node.name), self.chain(methods)), at + 1


COMPOUND = ("If", "While", "For", "FunctionDef", "ClassDef")
