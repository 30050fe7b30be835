"""The records of section "Tree" of document 01, with change 3 of document 02, shared by
trial and descent.

Only names for numbers, and the words of a literal, stand here: which nodes are
made, when and with what spans, each of the two says for itself.
"""
import struct
from types import SimpleNamespace

from scan import Code

# "The header's version becomes 2." (02)
VERSION = 2

# "none is 4294967295"
NONE = 4294967295

# "Kinds: 1 Program (p list), 2 If ... 34 Lambda"
KIND_NAMES = (
    "Program If While For Def Return Assign Class Break Continue Pass Expr Method Elif Else "
    "Name Pair Bool Int String Float None_ Variable Unary Binary Call Attribute List Dict "
    "Tuple Set TreeSet Index Lambda"
).split()
Kind = SimpleNamespace(**{name: kind for kind, name in enumerate(KIND_NAMES, 1)})
assert (Kind.Method, Kind.Name, Kind.Index, Kind.Lambda) == (13, 16, 33, 34)

# A record is "8 words: kind, start, end, next, p, q, r, s".
START, END, NEXT, P, Q, R, S = range(1, 8)

# The fields of each kind that hold a node number or none; `next` always does.
NODE_FIELDS = {
    Kind.Program: (P,), Kind.If: (P, Q, R, S), Kind.While: (P, Q), Kind.For: (R, S),
    Kind.Def: (R, S), Kind.Return: (P,), Kind.Assign: (P, Q), Kind.Class: (R,),
    Kind.Expr: (P,), Kind.Method: (R, S), Kind.Elif: (P, Q), Kind.Else: (P,),
    Kind.Pair: (P, Q), Kind.Unary: (Q,), Kind.Binary: (Q, R), Kind.Call: (P, Q),
    Kind.Attribute: (P,), Kind.List: (P,), Kind.Dict: (P,), Kind.Tuple: (P,),
    Kind.Set: (P,), Kind.TreeSet: (P,), Kind.Index: (P, Q), Kind.Lambda: (P, Q),
}

# "Operators count from 1 in enum order": UnaryOp and BinaryOp of ast.rs.
UNARY = {Code.Not: 1, Code.Minus: 2, Code.Plus: 3}
BINARY = {
    Code.Plus: 1, Code.Minus: 2, Code.Star: 3, Code.Slash: 4, Code.SlashSlash: 5,
    Code.Percent: 6, Code.EqualEqual: 7, Code.NotEqual: 8, Code.Less: 9, Code.LessEqual: 10,
    Code.Greater: 11, Code.GreaterEqual: 12, Code.And: 13, Code.Or: 14,
}

LITERALS = (Code.None_, Code.Bool, Code.Int, Code.String, Code.Float)


def halves(bits):
    """"p low, q high half of the 64 bits" """
    return bits & 0xFFFFFFFF, bits >> 32


def literal(token):
    """Kind and fields of a literal's node, from p on. "A Float record carries in r and s the
    start and end of its token, which differ from the node's span in parentheses or as an
    Assign target." (02) Who widens a node's span leaves these as they are."""
    if token.code == Code.None_:
        return Kind.None_, 0, 0
    if token.code == Code.Bool:
        return Kind.Bool, token.value, 0
    if token.code == Code.Int:
        return (Kind.Int, *halves(token.value % 2**64))
    if token.code == Code.Float:
        bits = struct.unpack("<Q", struct.pack("<d", token.value))[0]
        return (Kind.Float, *halves(bits), token.start, token.end)
    return (Kind.String, *token.value)


def show_record(index, record):
    """"index and record per node, none as `-` where a field holds a node number" """
    fields = (NEXT,) + NODE_FIELDS.get(record[0], ())
    words = ["-" if at in fields and word == NONE else str(word) for at, word in enumerate(record)]
    return " ".join([str(index)] + words)
