"""What change 6 of document 02 says of every text, asked of the text and its own tokens alone:
nothing here is taken from the writer.

"For every accepted tree that it doesn't refuse, the text, read with room lent for its areas, is
accepted with equal nodes in equal order, apart from places, with names and strings compared by
bytes; writing that again gives the same text." With the sentences on blanks, words, commas and
parentheses below, this leaves one text for a tree.
"""
import re

from descent import descent
from read import areas, read
from scan import Code, Refusal, scan, utf8
from tree import BINARY, LITERALS, P, Q, R, UNARY, Kind

# Where a record has the start and the end of a name in the source; of a Float, its token's.
SPELT = {Kind.For: P, Kind.Def: P, Kind.Method: P, Kind.Class: P, Kind.Name: P, Kind.Variable: P,
         Kind.Attribute: Q, Kind.Float: R}

OPERATORS = BINARY.keys() | UNARY.keys()
CLOSERS = (Code.RParen, Code.RBracket, Code.RBrace)
ENDS_OPERAND = {Code.Identifier, *LITERALS, *CLOSERS}
PARTED = (Code.If, Code.Elif, Code.While, Code.For, Code.In, Code.Return, Code.Def, Code.Class,
          Code.Lambda)
# How much of a long text is shown.
SHOWN = 300
SHORTEST = re.compile(rb"0|-?[1-9][0-9]*")
QUOTED = re.compile(rb'"(?:[^"\\\n\t\r]|\\[\\"ntr])*"')


def reads(source):
    """The answer of a reader lent exactly the areas, the decoded strings and the records."""
    tokens, text, tree = areas(len(source))
    decoded, words = bytearray(text), [0] * tree
    given = read(source, [0] * tokens, decoded, words)
    records = [words[at:at + 8] for at in range(8, 8 + 8 * given.nodes, 8)]
    return given, bytes(decoded[:given.text]), records


def placeless(source, strings, records):
    """"equal nodes in equal order, apart from places, with names and strings compared by bytes" """
    for record in records:
        kind, _, _, *words = record
        if kind in SPELT:
            at = SPELT[kind]
            words[at - 3:at - 1] = [source[record[at]:record[at + 1]]]
        elif kind == Kind.String:
            words[P - 3:Q - 2] = [strings[record[P]:record[P] + record[Q]]]
        yield kind, *words


def scanned(source):
    """Strings and records of an accepted source, without the slices; None where it is refused."""
    try:
        utf8(source)
        tokens, strings = scan(source)
    except Refusal:
        return None
    done = descent(tokens)
    return None if done.number else (strings, done.nodes)


def nodes_of(source):
    """The nodes of a source apart from places; None where it is refused."""
    made = scanned(source)
    return made and list(placeless(source, *made))


def parted(before, code):
    """Whether a blank stands between two tokens of a line, by the sentences on blanks."""
    return (
        # "a space around binary operators and after unary ones"
        before in OPERATORS or (code in BINARY and before in ENDS_OPERAND)
        # "list members parted by comma and space"
        or (before == Code.Comma and code not in CLOSERS)
        # "a space around = and after the colon of a pair or lambda"
        or Code.Equal in (before, code) or before == Code.Colon
        # "one space after if, elif, while, for, in, return, def, class and lambda unless a colon
        # follows, one before in, and no other blank"
        or (before in PARTED and code != Code.Colon) or code == Code.In)


def spaced(text, tokens):
    """The text that its tokens make by "two-space blocks", "each line ended by a line feed" and the
    sentences on blanks."""
    made, level, before = [], 0, Code.Newline
    for token in tokens:
        if token.code in (Code.Indent, Code.Dedent):
            level += 1 if token.code == Code.Indent else -1
            continue
        if before == Code.Newline:
            made.append(b"  " * level)
        elif token.code not in (Code.Newline, Code.Eof) and parted(before, token.code):
            made.append(b" ")
        made.append(text[token.start:token.end])
        before = token.code
    return b"".join(made)


def well_spelt(text, tokens):
    """"one statement a line": no `;`, no blank line, no body behind its colon. "Ints the shortest
    digits with a minus where negative", strings in double quotes with five escapes."""
    heads = (Code.If, Code.Elif, Code.Else, Code.While, Code.For, Code.Def, Code.Class)
    before, first = Code.Newline, None
    for token in tokens:
        spelling = text[token.start:token.end]
        assert token.code != Code.Semicolon, text[:SHOWN]
        assert token.code != Code.Int or SHORTEST.fullmatch(spelling), text[:SHOWN]
        assert token.code != Code.String or QUOTED.fullmatch(spelling), text[:SHOWN]
        if token.code == Code.Newline:
            assert before not in (Code.Newline, Code.Indent, Code.Dedent), text[:SHOWN]
            assert (before == Code.Colon) == (first in heads), text[:SHOWN]
        if before in (Code.Newline, Code.Indent, Code.Dedent):
            first = token.code
        before = token.code
    assert text == b"" or text.endswith(b"\n"), text[:SHOWN]


def groups(tokens):
    """The tokens of each pair of parentheses that is neither a call's nor a def's, but `())`."""
    opened, at = [], 0
    while tokens[at].code != Code.Eof:
        after_operand = at > 0 and tokens[at - 1].code in ENDS_OPERAND
        if tokens[at].code == Code.LParen:
            if not after_operand and tokens[at + 1].code == Code.RParen:
                at += 2
            else:
                opened.append(None if after_operand else at)
        elif tokens[at].code == Code.RParen:
            begun = opened.pop()
            if begun is not None:
                yield tokens[begun], tokens[at]
        at += 1


def last_commas(tokens):
    """Each comma that no member follows."""
    for token, after in zip(tokens, tokens[1:]):
        if token.code == Code.Comma and after.code in (*CLOSERS, Code.Equal, Code.Newline):
            yield (token,)


def all_needed(text, tokens, nodes):
    """"parentheses only where the tree needs them", "non-empty tuples of a whole statement bare",
    "a trailing comma only in a tuple of one": without any of these the text is refused or has
    another tree."""
    count = 0
    for dropped in [*groups(tokens), *last_commas(tokens)]:
        less = text
        for token in reversed(dropped):
            less = less[:token.start] + less[token.end:]
        assert nodes_of(less) != nodes, (text, less)
        count += 1
    return count


def hold(nodes, text, write_again):
    """The laws of one text, but that of parentheses and commas; its tokens."""
    given, strings, records = reads(text)
    # never 13 either
    assert given.number == 0, (text[:SHOWN], given)
    assert list(placeless(text, strings, records)) == nodes, text[:SHOWN]
    assert write_again(text, strings, records) == text, text[:SHOWN]
    tokens, _ = scan(text)
    assert spaced(text, tokens) == text, (text[:SHOWN], spaced(text, tokens)[:SHOWN])
    well_spelt(text, tokens)
    for line in text.split(b"\n"):
        lead = len(line) - len(line.lstrip(b" "))
        assert lead % 2 == 0 and line == line.rstrip(), text[:SHOWN]
    return tokens
