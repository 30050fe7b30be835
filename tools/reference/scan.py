"""Source text to tokens: sections "Raw tokens" and "Indentation" of document 01, and
change 1 of document 02.

Quoted sentences are those of 01 and 02. Written from these papers alone, as the judge
that expected results come from; it favours plainness over speed.
"""
import re
from collections import namedtuple
from types import SimpleNamespace

from characters import name_end

# "A token's code is its position in `Token`, from If = 1 to Eof = 49."
TOKEN_NAMES = (
    "If Elif Else While For In Def Return And Or Not Class Break Continue Pass Lambda "
    "None_ Bool Int String Identifier Float "
    "Plus Minus Star SlashSlash Slash Percent EqualEqual NotEqual Less LessEqual "
    "Greater GreaterEqual Equal LParen RParen LBracket RBracket LBrace RBrace "
    "Colon Comma Semicolon Dot Indent Dedent Newline Eof"
).split()
Code = SimpleNamespace(**{name: code for code, name in enumerate(TOKEN_NAMES, 1)})
assert (Code.If, Code.Eof) == (1, 49)

# Every token with one spelling of its own.
SPELLINGS = {
    b"if": Code.If, b"elif": Code.Elif, b"else": Code.Else, b"while": Code.While,
    b"for": Code.For, b"in": Code.In, b"def": Code.Def, b"return": Code.Return,
    b"and": Code.And, b"or": Code.Or, b"not": Code.Not, b"class": Code.Class,
    b"break": Code.Break, b"continue": Code.Continue, b"pass": Code.Pass,
    b"lambda": Code.Lambda, b"None": Code.None_, b"True": Code.Bool, b"False": Code.Bool,
    b"+": Code.Plus, b"-": Code.Minus, b"*": Code.Star, b"//": Code.SlashSlash,
    b"/": Code.Slash, b"%": Code.Percent, b"==": Code.EqualEqual, b"!=": Code.NotEqual,
    b"<": Code.Less, b"<=": Code.LessEqual, b">": Code.Greater, b">=": Code.GreaterEqual,
    b"=": Code.Equal, b"(": Code.LParen, b")": Code.RParen, b"[": Code.LBracket,
    b"]": Code.RBracket, b"{": Code.LBrace, b"}": Code.RBrace, b":": Code.Colon,
    b",": Code.Comma, b";": Code.Semicolon, b".": Code.Dot, b"\n": Code.Newline,
}
LONGEST_SPELLING_FIRST = sorted(SPELLINGS, key=len, reverse=True)

# The patterns but that of names, the fixed spellings first. The order matters only at equal length.
PATTERNS = [
    (None, re.compile(b"|".join(map(re.escape, LONGEST_SPELLING_FIRST)))),
    # "Int: optional sign, digits"
    (Code.Int, re.compile(rb"[+-]?[0-9]+")),
    # "Float: digits, dot, digits, optional e or E, optional sign, digits; no leading sign."
    (Code.Float, re.compile(rb"[0-9]+\.[0-9]+(?:[eE][+-]?[0-9]+)?")),
    # "String: same quote at both ends, line feeds allowed, a backslash with any
    # character but a line feed."
    (Code.String, re.compile(rb'"(?:[^"\\]|\\[^\n])*"|' rb"'(?:[^'\\]|\\[^\n])*'")),
]

# "Between tokens, runs of space, tab and carriage return are skipped, and `#` up
# to a line feed."
SKIPPED = re.compile(rb"(?:[ \t\r]+|#[^\n]*)*")
SPACES = re.compile(rb" *")

# value: Bool 1 or 0, Int an int, Float a float, String (offset, length) in the
# text, Identifier its bytes, otherwise None.
Token = namedtuple("Token", "code start end value")


class Refusal(Exception):
    """The no that decides: the question's number and the place."""

    def __init__(self, number, place):
        super().__init__(number, place)
        self.number, self.place = number, place


def utf8(source):
    """Question 5: "UTF-8 by Unicode table 3-7? No: 5, first byte of the bad sequence." """
    try:
        source.decode("utf-8", "strict")
    except UnicodeDecodeError as error:
        raise Refusal(5, error.start) from None


def longest(source, place):
    """"The longest match wins; at equal length a keyword beats a name." """
    best_code, best_end = None, place
    for code, pattern in PATTERNS:
        match = pattern.match(source, place)
        if match and match.end() > best_end:
            best_end = match.end()
            best_code = SPELLINGS[match.group()] if code is None else code
    # "Name: letter or underscore, then letters, digits, underscores, ASCII here." By 02 a
    # name "begins with an XID_Start character or underscore and continues with XID_Continue".
    end = name_end(source, place)
    if end is not None and end > best_end:
        best_code, best_end = Code.Identifier, end
    return best_code, best_end


def natural(digits):
    """The number that digits write, cut to 25 digits: larger than any limit here either way."""
    return int(digits.lstrip(b"0")[:25] or b"0")


def int_value(spelling, place):
    """"-2^63 to 2^63 - 1"; question 10."""
    value = natural(spelling.lstrip(b"+-"))
    if spelling.startswith(b"-"):
        value = -value
    if not -2**63 <= value <= 2**63 - 1:
        raise Refusal(10, place)
    return value


def float_value(spelling, place):
    """"Join the digits around the dot into m; p is the exponent less the count of
    digits after the dot. Admitted: m at most 2^53, p from -22 to 22."; question 11."""
    mantissa, _, exponent = spelling.lower().partition(b"e")
    whole, _, fraction = mantissa.partition(b".")
    m = natural(whole + fraction)
    p = natural(exponent.lstrip(b"+-"))
    if exponent.startswith(b"-"):
        p = -p
    p -= len(fraction)
    if m > 2**53 or not -22 <= p <= 22:
        raise Refusal(11, place)
    # "Its value is one multiplication or one division of two exact numbers: m × 10^p,
    # or m / 10^-p". Both numbers are exact, so it is the nearest double to the text.
    value = float(m) * float(10**p) if p >= 0 else float(m) / float(10**-p)
    assert value == float(spelling)
    return value


# "Escapes n t r \ " ' are decoded; another keeps its backslash."
ESCAPES = {b"n": b"\n", b"t": b"\t", b"r": b"\r", b"\\": b"\\", b'"': b'"', b"'": b"'"}
ESCAPE = re.compile(rb"\\(.)", re.DOTALL)


def string_value(spelling):
    return ESCAPE.sub(lambda m: ESCAPES.get(m.group(1), m.group()), spelling[1:-1])


def scan(source):
    """Tokens with Eof last, and the decoded text; or the first of refusals 6 to 11."""
    n = len(source)
    tokens, text = [], bytearray()
    levels = [0]
    place = 0

    def emit(code, start, end, value=None):
        tokens.append(Token(code, start, end, value))

    # "A flag, set at the start and after each Newline, makes the next call count spaces."
    flag = True
    while True:
        if flag:
            began = place
            place = SPACES.match(source, place).end()
            following = source[place:place + 1]
            # "A tab among them is refused." 6: the tab.
            if following == b"\t":
                raise Refusal(6, place)
            # "Before line feed, carriage return or `#` the flag stays set and no level
            # changes; otherwise, also at the end of the source, it is cleared."
            if following not in (b"\n", b"\r", b"#"):
                flag = False
                count = place - began
                # "More: exactly top + 2 gives Indent, spanning the spaces."
                if count > levels[-1]:
                    if count != levels[-1] + 2:
                        raise Refusal(7, began)
                    levels.append(count)
                    emit(Code.Indent, began, place)
                # "Less: one Dedent per level, spanning the spaces; the count must be a level."
                while count < levels[-1]:
                    levels.pop()
                    emit(Code.Dedent, began, place)
                if count != levels[-1]:
                    raise Refusal(8, began)

        # A call then skips and matches, whether or not the flag is still set: "After a
        # carriage return then a token, the flag is still set, so spaces after that token
        # are counted: copy this."
        place = SKIPPED.match(source, place).end()
        if place == n:
            break
        # "Another character over 127 where a token would start gets 9, so 12 never occurs
        # from here on"
        code, end = longest(source, place)
        if code is None:
            raise Refusal(9, place)
        spelling = source[place:end]
        value = None
        if code == Code.Bool:
            value = int(spelling == b"True")
        elif code == Code.Int:
            value = int_value(spelling, place)
        elif code == Code.Float:
            value = float_value(spelling, place)
        elif code == Code.Identifier:
            value = spelling
        elif code == Code.String:
            # "Decoded strings fill the text in token order."
            decoded = string_value(spelling)
            value = (len(text), len(decoded))
            text += decoded
        emit(code, place, end, value)
        place = end
        if code == Code.Newline:
            flag = True

    # "At the end, open levels close with empty Dedents at n."
    for _ in levels[1:]:
        emit(Code.Dedent, n, n)
    # "T is the number of tokens without Eof, and T is at most n."
    assert len(tokens) <= n and len(text) <= n
    emit(Code.Eof, n, n)
    return tokens, bytes(text)
