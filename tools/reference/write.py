"""The writer of change 6 of document 02: "From an accepted source and its tree, a writer gives the
one standard text".

Quoted sentences are those of 02, and of 01 where it says so. Written from these papers alone.
Run as a program it reads a script from standard input and prints its standard text, or `no`,
number and place.
"""
import re
import sys
from collections import namedtuple
from types import SimpleNamespace

from read import LONGEST, areas, read, with_deep_stack
from scan import SPELLINGS
from tree import BINARY, NEXT, NONE, P, Q, R, S, UNARY, Kind

# "a number without a named place has place 0, a text written is answered by 0 and its length"
Written = namedtuple("Written", "number place length")

# The rules of 01's expressions, the loosest first. A text that one of these reads fits wherever an
# earlier one is asked for: "E: lambda names : E, or O. O: A by `or`. A: C by `and`. C: S by
# comparisons. S: P by + -. P: U by * // / %. All group left. U: any of not - +, then F." (01)
Rule = SimpleNamespace(**{name: rank for rank, name in enumerate("EOACSPUF")})

# What of each operator's rule reads its left and its right operand. "All group left": the left one
# is of the rule itself, but for a comparison, whose rule makes a chain of two.
OPERANDS = {
    Rule.O: (Rule.O, Rule.A), Rule.A: (Rule.A, Rule.C), Rule.C: (Rule.S, Rule.S),
    Rule.S: (Rule.S, Rule.P), Rule.P: (Rule.P, Rule.U),
}
RULE_OF = {b"or": Rule.O, b"and": Rule.A, b"+": Rule.S, b"-": Rule.S, b"*": Rule.P, b"//": Rule.P,
           b"/": Rule.P, b"%": Rule.P}
BINARY_WORDS = {BINARY[code]: word for word, code in SPELLINGS.items() if code in BINARY}
UNARY_WORDS = {UNARY[code]: word for word, code in SPELLINGS.items() if code in UNARY}
COMPARISONS = [number for number, word in BINARY_WORDS.items() if word not in RULE_OF]
AND = next(number for number, word in BINARY_WORDS.items() if word == b"and")

# "Strings stand in double quotes, with backslash, double quote, line feed, tab and carriage return
# escaped."
ESCAPED = re.compile(rb'[\\"\n\t\r]')
ESCAPES = {b"\\": b"\\\\", b'"': b'\\"', b"\n": b"\\n", b"\t": b"\\t", b"\r": b"\\r"}

# Where each kind with a Block has its statements.
BLOCKS = {Kind.If: Q, Kind.Elif: Q, Kind.Else: P, Kind.While: Q, Kind.For: S, Kind.Def: S,
          Kind.Method: S}
OPENERS = {Kind.List: (b"[", b"]"), Kind.Dict: (b"{", b"}"), Kind.Set: (b"{", b"}"),
           Kind.TreeSet: (b"t{", b"}")}
WORDS = {Kind.Break: b"break", Kind.Continue: b"continue", Kind.Pass: b"pass"}


class Text:
    """A part of the text is bytes, or a method with what it is asked of, which gives its own parts.
    The parts still to come stand on a stack, the next on top, so that no depth of a tree is one of
    calls."""

    def __init__(self, source, strings, nodes):
        self.source, self.strings, self.nodes = source, strings, nodes

    def whole(self):
        pieces, coming = [], [(self.statements, self.nodes[-1][P], 0)]
        while coming:
            part = coming.pop()
            if isinstance(part, bytes):
                pieces.append(part)
            else:
                give, *asked = part
                coming.extend(reversed(list(give(*asked))))
        return b"".join(pieces)

    def members(self, first):
        """"A list is its first node or none, then next." (01)"""
        while first != NONE:
            yield first
            first = self.nodes[first][NEXT]

    # Statements.

    def statements(self, first, level):
        for node in self.members(first):
            yield self.statement, node, level

    def line(self, level, *parts):
        """"two-space blocks, one statement a line, each line ended by a line feed" """
        yield b"  " * level
        yield from parts
        yield b"\n"

    def headed(self, level, first, *head):
        """The line of a keyword, and its statements on the lines below."""
        yield from self.line(level, *head, b":")
        yield self.statements, first, level + 1

    def statement(self, node, level):
        """"one space after if, elif, while, for, in, return, def, class ..", "one before in", "a
        space around =" """
        kind, _, _, _, p, q, r, s = self.nodes[node]
        if kind == Kind.If:
            yield from self.headed(level, q, b"if ", self.e(p))
            yield self.statements, r, level
            yield self.statements, s, level
        elif kind == Kind.Elif:
            yield from self.headed(level, q, b"elif ", self.e(p))
        elif kind == Kind.Else:
            yield from self.headed(level, p, b"else")
        elif kind == Kind.While:
            yield from self.headed(level, q, b"while ", self.e(p))
        elif kind == Kind.For:
            yield from self.headed(level, s, b"for ", self.source[p:q], b" in ", self.e(r))
        elif kind in (Kind.Def, Kind.Method):
            names = (self.listed, r)
            yield from self.headed(level, s, b"def ", self.source[p:q], b"(", names, b")")
        elif kind == Kind.Class:
            yield from self.headed(level, r, b"class ", self.source[p:q])
        elif kind == Kind.Return:
            yield from self.line(level, b"return ", (self.t, p))
        elif kind == Kind.Assign:
            yield from self.line(level, (self.t, p), b" = ", (self.t, q))
        elif kind == Kind.Expr:
            yield from self.line(level, (self.t, p))
        else:
            yield from self.line(level, WORDS[kind])

    def t(self, node):
        """"non-empty tuples of a whole statement bare": one that is all of a t, in return,
        assignment or expression."""
        kind, first = self.nodes[node][0], self.nodes[node][P]
        if kind == Kind.Tuple and first != NONE:
            yield from self.tuple_members(first)
        else:
            yield self.e(node)

    # Expressions.

    def e(self, node):
        """Where the grammar of 01 has an E: members, arguments, keys, values, an index, a lambda's
        body, a condition, what a for goes over."""
        return self.fitting, node, Rule.E

    def fitting(self, node, asked):
        """"parentheses only where the tree needs them": where the node's text is of a looser rule
        than the one asked for, which "(E) is E" (01) mends."""
        if self.rule(node) < asked:
            yield from (b"(", (self.bare, node), b")")
        else:
            yield self.bare, node

    def rule(self, node):
        """The rule that reads the node's text."""
        kind, operator = self.nodes[node][0], self.nodes[node][P]
        if kind == Kind.Lambda:
            return Rule.E
        if kind == Kind.Unary:
            return Rule.U
        if kind != Kind.Binary:
            return Rule.F
        return Rule.C if self.is_chain(node) else RULE_OF.get(BINARY_WORDS[operator], Rule.C)

    def is_chain(self, node):
        """"A chain `a<b<c` is And(a<b, b<c), the middle node referred to twice" (01): an `and`
        whose right side begins with the very node that its left side, or the last comparison of
        that, ends with."""
        kind, _, _, _, operator, left, right, _ = self.nodes[node]
        if kind != Kind.Binary or operator != AND or not self.is_comparison(right):
            return False
        if self.nodes[left][0] == Kind.Binary and self.nodes[left][P] == AND:
            left = self.nodes[left][R]
        return self.is_comparison(left) and self.nodes[left][R] == self.nodes[right][Q]

    def is_comparison(self, node):
        return self.nodes[node][0] == Kind.Binary and self.nodes[node][P] in COMPARISONS

    def bare(self, node):
        """The node's text with no parentheses around it."""
        kind, _, _, _, p, q, r, _ = self.nodes[node]
        if kind == Kind.Unary:
            # "a space .. after unary ones"
            yield from (UNARY_WORDS[p], b" ", (self.fitting, q, Rule.U))
        elif kind == Kind.Binary:
            yield from self.binary(node, p, q, r)
        elif kind == Kind.Call:
            yield from ((self.fitting, p, Rule.F), b"(", (self.listed, q), b")")
        elif kind == Kind.Attribute:
            yield from ((self.fitting, p, Rule.F), b".", self.source[q:r])
        elif kind == Kind.Index:
            yield from ((self.fitting, p, Rule.F), b"[", self.e(q), b"]")
        elif kind == Kind.Pair:
            # "a space .. after the colon of a pair or lambda"
            yield from (self.e(p), b": ", self.e(q))
        elif kind == Kind.Lambda:
            # "one space after .. lambda unless a colon follows"
            yield from (b"lambda", b" " if p != NONE else b"", (self.listed, p), b": ", self.e(q))
        elif kind == Kind.Tuple:
            yield from self.tuple(p)
        elif kind in OPENERS:
            opener, closer = OPENERS[kind]
            yield from (opener, (self.listed, p), closer)
        else:
            yield self.leaf(node)

    def binary(self, node, operator, left, right):
        """"a space around binary operators", "a shared middle as a chain" """
        word = BINARY_WORDS[operator]
        if self.is_chain(node):
            _, _, _, _, operator, _, last, _ = self.nodes[right]
            yield self.bare, left
            yield from (b" ", BINARY_WORDS[operator], b" ", (self.fitting, last, Rule.S))
        else:
            of_left, of_right = OPERANDS[RULE_OF.get(word, Rule.C)]
            yield self.fitting, left, of_left
            yield from (b" ", word, b" ", (self.fitting, right, of_right))

    def listed(self, first):
        """"list members parted by comma and space", of names and pairs too"""
        for node in self.members(first):
            if node != first:
                yield b", "
            yield self.e(node)

    def tuple_members(self, first):
        """"a trailing comma only in a tuple of one" """
        yield self.listed, first
        if self.nodes[first][NEXT] == NONE:
            yield b","

    def tuple(self, first):
        """"the empty tuple as `())`" """
        yield b"("
        if first == NONE:
            yield b")"
        else:
            yield from self.tuple_members(first)
        yield b")"

    def leaf(self, node):
        """"Floats use their kept spelling, Ints the shortest digits with a minus where negative."
        """
        kind, _, _, _, p, q, r, s = self.nodes[node]
        if kind in (Kind.Name, Kind.Variable):
            return self.source[p:q]
        if kind == Kind.Float:
            return self.source[r:s]
        if kind == Kind.Int:
            return b"%d" % (p + 2**32 * q - 2**64 * (q >= 2**31))
        if kind == Kind.String:
            value = self.strings[p:p + q]
            return b'"' + ESCAPED.sub(lambda found: ESCAPES[found.group()], value) + b'"'
        if kind == Kind.Bool:
            return b"True" if p else b"False"
        return b"None"


def standard_text(source, strings, nodes):
    """The text, however long, of a tree each of whose blocks has a statement."""
    return Text(source, strings, nodes).whole()


def write(source, strings, nodes, lent):
    """The writer's answer once the reader has accepted; lent, a bytearray, is written as 02 says.
    strings is the text area's decoded strings, nodes the records."""
    # "both zero that slice"; "the slice past it zeroed"
    lent[:] = bytes(len(lent))
    # "the writer answers 17 where some block has no statement and then 18 where the text is longer
    # than the lent slice or than 65,536 bytes"
    if any(node[0] in BLOCKS and node[BLOCKS[node[0]]] == NONE for node in nodes):
        return Written(17, 0, 0)
    text = standard_text(source, strings, nodes)
    if len(text) > len(lent) or len(text) > LONGEST:
        return Written(18, 0, 0)
    lent[:len(text)] = text
    return Written(0, 0, len(text))


def read_and_write(source, token_slice, text_slice, tree_slice, lent):
    """The reader's answer and the writer's, with all four slices written. "a part's refusal leaves
    the accepted tree, and a refusal by the reader leaves the part's own slice" """
    given = read(source, token_slice, text_slice, tree_slice)
    if given.number:
        return given, Written(given.number, given.place, 0)
    nodes = [tree_slice[at:at + 8] for at in range(8, 8 + 8 * given.nodes, 8)]
    return given, write(source, bytes(text_slice[:given.text]), nodes, lent)


def main():
    source, lent = sys.stdin.buffer.read(LONGEST + 1), bytearray(LONGEST)
    tokens, text, tree = areas(len(source))
    _, done = read_and_write(source, [0] * tokens, bytearray(text), [0] * tree, lent)
    if done.number:
        print("no", done.number, done.place)
    else:
        sys.stdout.buffer.write(lent[:done.length])


if __name__ == "__main__":
    with_deep_stack(main)
