"""The tokens of a source as CPython's `tokenize` has them, and where they and the nodes of its `ast` stand, in bytes.

The `tokenize` of Python 3.10 and 3.11 does not know all characters of names, so it is given the source with a letter for each character over 127; `ast` reads
the source as it is, and each of its places must be that of a token.
"""
import collections
import io
import re
import tokenize
import unicodedata

MARKS = {tokenize.NEWLINE: "NEWLINE", tokenize.INDENT: "INDENT", tokenize.DEDENT: "DEDENT"}

Token = collections.namedtuple("Token", "word start end")


class Tokens:
    """`tokens`, those that a tree is made of, `closer`, of each opening bracket the other one, and `count`, the tokens without Eof, as 01 counts."""

    def __init__(self, source):
        self.lines = [line + "\n" for line in source.split("\n")]
        self.begins = [0]
        for line in self.lines:
            self.begins.append(self.begins[-1] + len(line.encode()))
        self.bytes = source.encode()
        self.size = len(self.bytes)
        self.noted = collections.Counter()
        self.read_tokens(source)

    def read_tokens(self, source):
        self.tokens, self.first, self.last, self.closer, self.count = [], {}, {}, {}, 0
        opened = []
        for token in tokenize.generate_tokens(io.StringIO(re.sub(r"[^\0-\x7f]", "x", source)).readline):
            self.noted["comments"] += token.type == tokenize.COMMENT
            if token.type == tokenize.COMMENT or not (token.string or token.type == tokenize.DEDENT):
                continue  # without text: the end, and a Newline that only CPython implies
            self.count += 1
            if token.type == tokenize.NL:
                continue
            word = MARKS.get(token.type, token.string)
            at = len(self.tokens)
            self.tokens.append(Token(word, self.place(*token.start), self.place(*token.end)))
            if token.type not in MARKS:
                self.first[self.tokens[at].start] = at
                self.last[self.tokens[at].end] = at
            if token.type == tokenize.OP and word in "([{":
                opened.append(at)
            if token.type == tokenize.OP and word in ")]}":
                self.closer[opened.pop()] = at

    def place(self, row, column):
        """The byte of a token's place, which counts characters."""
        if row > len(self.lines):
            return self.size
        return self.begins[row - 1] + len(self.lines[row - 1][:column].encode())

    def places(self, node):
        """Start and end of a node of `ast`, whose columns count bytes."""
        return self.begins[node.lineno - 1] + node.col_offset, self.begins[node.end_lineno - 1] + node.end_col_offset

    def range_of(self, node):
        """The first and the last token of a node, by CPython."""
        start, end = self.places(node)
        return self.first[start], self.last[end]

    def word(self, at):
        return self.tokens[at].word if at < len(self.tokens) else None

    def name(self, at, given):
        """Start and end of a name in the source; `given` is what CPython's node has for it."""
        start, end = self.tokens[at].start, self.tokens[at].end
        spelt = self.bytes[start:end].decode()
        assert unicodedata.normalize("NFKC", spelt) == given, (spelt, given)
        self.noted["names with characters over 127"] += not spelt.isascii()
        self.noted["names that NFKC changes"] += spelt != given
        return start, end
