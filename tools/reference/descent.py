"""The predictive descent of section "Grammar" of document 01, with change 5 of document 02: its
statements, the whole, and questions 13 and 14. Openings, nodes and expressions are in
descent_expressions.py.
"""
from collections import namedtuple

from descent_expressions import BEGINS_E, BEGINS_LINE, BEGINS_SIMPLE, Chain, ExpressionRules
from scan import Code, Refusal
from tree import NONE, Kind

# "13 at most 64 E and Block open at once?"
LIMIT = 64

# "Program hands back its openings and its nodes written, in a refusal as well".
# number and place are 0 where it accepts; nodes are all records written; at is the number of
# the token that was refused, or of the first that was not taken.
Descended = namedtuple("Descended", "number place openings nodes at")


def descent(tokens, limit=LIMIT, part="Program"):
    """What the descent hands back for Program, or for another part from the first token on.
    15 and 16 are told from 14 in cut.py."""
    taken = Descent(tokens, limit)
    number = place = 0
    try:
        getattr(taken, part)()
    except Refusal as no:
        number, place = no.number, no.place
    return Descended(number, place, taken.openings, taken.nodes, taken.at)


class Descent(ExpressionRules):
    # Statements.

    def Program(self):
        """"Program: Newlines (none or more), Lines each with Newlines around, end." """
        self.openings += 1
        while self.next() == Code.Newline:
            self.at += 1
        statements = Chain(self.nodes)
        self.lines(statements)
        if self.next() != Code.Eof:
            self.refuse(14)
        self.write(Kind.Program, 0, self.here(), statements.first)

    def lines(self, statements):
        """Lines, with the Newlines that follow each."""
        while self.next() in BEGINS_LINE:
            self.open("Line").into(statements)
            while self.next() == Code.Newline:
                self.at += 1

    def Line(self):
        """"Line: class, def, if, while, for, or simples". "After the keyword: def and Method name,
        (names), Block; if, elif and while E, Block; else Block; for name, `in`, E, Block." """
        start, code = self.here(), self.next()
        if code in BEGINS_SIMPLE:
            return self.simples()
        if code == Code.Class:
            return Chain(self.nodes, self.open("Class"))
        self.at += 1
        if code == Code.Def:
            return Chain(self.nodes, self.definition(Kind.Def, start))
        if code == Code.For:
            name = self.take(Code.Identifier)
            self.take(Code.In)
            iterable = self.open("E")
            body = self.open("Block")
            made = self.write_from(Kind.For, start, name.start, name.end, iterable, body)
            return Chain(self.nodes, made)
        condition = self.open("E")
        body = self.open("Block")
        if code == Code.While:
            return Chain(self.nodes, self.write_from(Kind.While, start, condition, body))
        # "Elif and else must follow at once."
        elifs, otherwise = Chain(self.nodes), NONE
        while self.next() == Code.Elif:
            begin = self.take(Code.Elif).start
            tested = self.open("E")
            inner = self.open("Block")
            elifs.add(self.write_from(Kind.Elif, begin, tested, inner))
        if self.next() == Code.Else:
            begin = self.take(Code.Else).start
            inner = self.open("Block")
            otherwise = self.write_from(Kind.Else, begin, inner)
        made = self.write_from(Kind.If, start, condition, body, elifs.first, otherwise)
        return Chain(self.nodes, made)

    def definition(self, kind, start):
        """A Def or a Method, its keyword taken."""
        name = self.take(Code.Identifier)
        self.take(Code.LParen)
        names = self.names(Code.RParen)
        body = self.open("Block")
        return self.write_from(kind, start, name.start, name.end, names, body)

    def simples(self):
        """"simples: Simple separated by `;`, one trailing allowed, then Newline or end" """
        chain = Chain(self.nodes, self.open("Simple"))
        while self.next() == Code.Semicolon:
            self.at += 1
            if self.next() not in BEGINS_SIMPLE:
                break
            chain.add(self.open("Simple"))
        if self.next() != Code.Eof:
            self.take(Code.Newline)
        return chain

    def Simple(self):
        """"Simple: return t; t = t; t; break; continue; pass." """
        start, code = self.here(), self.next()
        if code == Code.Return:
            self.at += 1
            return self.write_from(Kind.Return, start, self.t())
        for word, kind in ((Code.Break, Kind.Break), (Code.Continue, Kind.Continue),
                           (Code.Pass, Kind.Pass)):
            if code == word:
                self.at += 1
                return self.write_from(kind, start)
        first = self.t()
        if self.next() != Code.Equal:
            return self.write_from(Kind.Expr, start, first)
        self.at += 1
        value = self.t()
        made = self.write_from(Kind.Assign, start, first, value)
        # "An Assign target takes the statement's span."
        self.widen(first, start)
        return made

    def t(self):
        """"t is E separated by commas, trailing allowed; one E alone stays that E, ..; more make
        a Tuple." "One E with a trailing comma in return, assignment or expression is now a Tuple
        of one whose span includes the comma." (02) """
        start = self.here()
        chain = Chain(self.nodes, self.open("E"))
        if self.next() != Code.Comma:
            return chain.first
        while self.next() == Code.Comma:
            self.at += 1
            if self.next() not in BEGINS_E:
                break
            chain.add(self.open("E"))
        return self.write_from(Kind.Tuple, start, chain.first)

    def Block(self):
        """"Block, opened at its colon: one or more Newlines, Indent, Lines as in Program,
        Dedent; or simples." """
        self.take(Code.Colon)
        if self.next() != Code.Newline:
            return self.simples().first
        while self.next() == Code.Newline:
            self.at += 1
        self.take(Code.Indent)
        statements = Chain(self.nodes)
        # Newlines right after an Indent need a Line to stand around; the scanner makes none.
        if self.next() == Code.Newline:
            while self.next() == Code.Newline:
                self.at += 1
            if self.next() not in BEGINS_LINE:
                self.refuse(14)
        self.lines(statements)
        self.take(Code.Dedent)
        return statements.first

    def Class(self):
        """"Class, opened at its keyword: name, colon, one or more Newlines, Indent, one or more
        Methods with no Newline between, Dedent." """
        start = self.take(Code.Class).start
        name = self.take(Code.Identifier)
        self.take(Code.Colon)
        self.take(Code.Newline)
        while self.next() == Code.Newline:
            self.at += 1
        self.take(Code.Indent)
        methods = Chain(self.nodes)
        begin = self.take(Code.Def).start
        methods.add(self.definition(Kind.Method, begin))
        while self.next() == Code.Def:
            begin = self.take(Code.Def).start
            methods.add(self.definition(Kind.Method, begin))
        self.take(Code.Dedent)
        return self.write_from(Kind.Class, start, name.start, name.end, methods.first)
