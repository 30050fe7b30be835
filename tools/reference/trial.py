"""The ordered trial of section "Grammar" of document 01, with change 5 of document 02: its
statements, and the whole.

"Depth has no limit. It accepts exactly when Program fits." What parts are and how
they fail, and the expressions, are in trial_expressions.py.
"""
from scan import Code
from tree import END, NONE, START, Kind
from trial_expressions import ABSENT, Expressions, Fail


def trial(tokens):
    """The records of the tree, or None where Program doesn't fit."""
    taken = Trial(tokens)
    try:
        taken.program()
    except Fail:
        return None
    return taken.nodes


class Trial(Expressions):
    # Program, Line, Simple, Block, Class.

    def program(self):
        """"Program: Newlines (none or more), Lines each with Newlines around, end." """
        self.newlines()
        lines = self.lines()
        self.ask(Code.Eof)
        # "Program has 0 to n"
        return self.node(Kind.Program, 0, self.tokens[-1].start, self.chain(lines))

    def newlines(self):
        for _ in self.repeated(lambda: self.ask(Code.Newline)):
            pass

    def lines(self):
        def padded():
            self.newlines()
            statements = self.line()
            self.newlines()
            return statements
        return [statement for line in self.repeated(padded) for statement in line]

    def line(self):
        """"Line: class, def, if, while, for, or simples" """
        return self.choice(
            lambda: [self.class_()],
            lambda: [self.def_(Kind.Def)],
            lambda: [self.if_()],
            lambda: [self.while_()],
            lambda: [self.for_()],
            self.simples)

    def simples(self):
        """"Simple separated by `;`, one trailing allowed, then Newline or end" """
        statements = self.separated(self.simple, Code.Semicolon)
        self.ask(Code.Newline, Code.Eof)
        return statements

    def simple(self):
        """"Simple: return t; t = t; t; break; continue; pass." """
        first = self.at

        def return_():
            self.ask(Code.Return)
            value = self.t()
            return self.node(Kind.Return, *self.span(first), value)

        def assign():
            target = self.t()
            self.ask(Code.Equal)
            value = self.t()
            # "An Assign target takes the statement's span."
            self.nodes[target][START:END + 1] = self.span(first)
            return self.node(Kind.Assign, *self.span(first), target, value)

        def expr():
            value = self.t()
            return self.node(Kind.Expr, *self.span(first), value)

        def word(code, kind):
            self.ask(code)
            return self.node(kind, *self.span(first))

        return self.choice(
            return_, assign, expr,
            lambda: word(Code.Break, Kind.Break),
            lambda: word(Code.Continue, Kind.Continue),
            lambda: word(Code.Pass, Kind.Pass))

    def t(self):
        """"t is E separated by commas, trailing allowed; one E alone stays that E, ..; more
        make a Tuple." "One E with a trailing comma .. is now a Tuple of one whose span includes
        the comma"; "ordered trial gets the same alternative" (02): behind the longer one, and
        before E alone."""
        first = self.at

        def several():
            members = [self.e()]
            self.ask(Code.Comma)
            members += self.separated(self.e, Code.Comma)
            return self.node(Kind.Tuple, *self.span(first), self.chain(members))

        def one():
            member = self.e()
            self.ask(Code.Comma)
            return self.node(Kind.Tuple, *self.span(first), self.chain([member]))

        return self.choice(several, one, self.e)

    def block(self):
        """"Block, opened at its colon: one or more Newlines, Indent, Lines as in Program,
        Dedent; or simples." """
        self.ask(Code.Colon)

        def indented():
            self.ask(Code.Newline)
            self.newlines()
            self.ask(Code.Indent)
            statements = self.lines()
            self.ask(Code.Dedent)
            return statements
        return self.chain(self.choice(indented, self.simples))

    def class_(self):
        """"Class, opened at its keyword: name, colon, one or more Newlines, Indent, one or
        more Methods with no Newline between, Dedent." """
        first = self.at
        self.ask(Code.Class)
        name = self.ask(Code.Identifier)
        self.ask(Code.Colon)
        self.ask(Code.Newline)
        self.newlines()
        self.ask(Code.Indent)
        methods = [self.def_(Kind.Method)]
        methods += self.repeated(lambda: self.def_(Kind.Method))
        self.ask(Code.Dedent)
        return self.node(Kind.Class, *self.span(first), name.start, name.end, self.chain(methods))

    def def_(self, kind):
        """"After the keyword: def and Method name, (names), Block" """
        first = self.at
        self.ask(Code.Def)
        name = self.ask(Code.Identifier)
        self.ask(Code.LParen)
        names = self.listed(self.name)
        self.ask(Code.RParen)
        body = self.block()
        return self.node(kind, *self.span(first), name.start, name.end, self.chain(names), body)

    def if_(self):
        """"if, elif and while E, Block; else Block". "Elif and else must follow at once." """
        first = self.at
        self.ask(Code.If)
        condition = self.e()
        body = self.block()
        elifs = list(self.repeated(self.elif_))
        otherwise = self.maybe(self.else_)
        return self.node(Kind.If, *self.span(first), condition, body, self.chain(elifs),
                         NONE if otherwise is ABSENT else otherwise)

    def elif_(self):
        first = self.at
        self.ask(Code.Elif)
        condition = self.e()
        body = self.block()
        return self.node(Kind.Elif, *self.span(first), condition, body)

    def else_(self):
        first = self.at
        self.ask(Code.Else)
        body = self.block()
        return self.node(Kind.Else, *self.span(first), body)

    def while_(self):
        first = self.at
        self.ask(Code.While)
        condition = self.e()
        body = self.block()
        return self.node(Kind.While, *self.span(first), condition, body)

    def for_(self):
        """"for name, `in`, E, Block" """
        first = self.at
        self.ask(Code.For)
        name = self.ask(Code.Identifier)
        self.ask(Code.In)
        iterable = self.e()
        body = self.block()
        return self.node(Kind.For, *self.span(first), name.start, name.end, iterable, body)
