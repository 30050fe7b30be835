"""Sources for change 1 of document 02: names in any script, and what is none.

The lists are hand-picked from 02's sentences. `|` parts cases; escapes are Python's.
"""
from scan import SPELLINGS

# One name each: the first character begins one, the others continue it.
NAMES = r"""
\xe9|a\xe9|\xe9a|\xe9\xe9|_\xe9|\xe9_|\xe91|\xaa|\xb5|\xba|\xc0|\xff|\u0100|\u07b1|\u0e01|\u2118|\u212e|\u1885|\u3042|\ufb01|\uff21
한국|한글_1|전시실|\uac00|\ud7a3|\u1112\u1161\u11ab|Ελλάδα|αίθουσα1|ώ|\u1fb3|\u03d0|قاعة|مرحبا|\u0645\u0640\u0631|हॉल|नाम|\u0915\u094d\u0937|имя|שם|名前|變數|ห้อง
e\u0301|a\u0300\u0301\u0302|_\u0301|\u0915\u093e|a\u20d0|a\u00b7|a\u00b7b|l\u00b7l|\u03b1\u0387|a\u1369|\u2118\u2118|\u2118\u00b7|a\u203f|a\u2040b|\u0e01\u0e33|\uff76\uff9e
a\u0663|\u0645\u0663|a\u06f1|a\u0967|a\uff11|\uff41\uff11|\u2126|\u212a|_\uff3f|a\uff3f|\uff49\uff46|\uff49f|i\uff46|\uff34rue|Non\uff45|\u0130f|\u0131f|\u017f|\u2160|\u3007|\u5341
\U00010000|\u0800|\U00010300|a\U00010300|\U00010300a|\U0001d431|\U00020000|a\U0002a6d6|x\U0001d7d9|a\U0001d165|\U0001d400\U0001d7ff
\U00011f04|\U00011f04\U00011f03\U00011f50|a\U00011f50|\U00031350|\U000323af\U00031350
"""

# Another character over 127 where a token would start, alone, behind a name and within one.
OTHERS = (
    "\x80\x85\xa0\xa7\xab\xb7\xd7\xf7\u02c2\u0300\u0301\u037a\u0387\u0488\u0660\u0663\u06dd\u0903\u0967\u0e33\u1369\u180e\u200b\u200c\u200d\u200e\u2010\u2028\u2029\u203f"
    "\u2040\u20ac\u20dd\u2192\u221e\u2260\u2264\u2460\u2500\u3000\u3001\u309b\u30fb\ue000\ufc5e\ufdd0\ufe33\ufeff\uff01\uff08\uff11\uff1d\uff3f\uff65\uff9e\ufffd"
    "\uffff\u07ff\U0001d165\U0001d6c1\U0001d7ce\U0001f600\U00011f03\U00011f43\U00011f50\U0002ebf0\U0002ee5d\u1c89\U000e0020\U000f0000\U0010ffff"
)

# Several tokens: where a wide character meets a number, a mark, a string, a comment, a blank.
BOUNDARIES = r"""
1\xe9|1.5\xe9|1.5e\xe9|1.5e5\xe9|1.\xe9|1.\u20ac|-1\xe9|+\xe9|- \xe9|1\u0663|1.5\u0663|1.\u0663|1.5e\u0663|1\u0301|0\xe9f|1_\xe9|\xe91.5|\xe9.5|1\xb7|1\uff11|9223372036854775808\xe9|1.0e24\xe9
\xe9.\xe9|\xe9=\xe9|\xe9 \xe9|\xe9\n\xe9|\xe9\t\xe9|\xe9\r\xe9|\xe9;\xe9|\xe9,\xe9|\xe9:\xe9|\xe9(\xe9)|(\xe9)|[\xe9]|{\xe9}|{\xe9:\xe9}|t{\xe9}|\xe9{\xe9}|t\xe9{a}|\xe9t{a}|\xe9[\xe9]
\xe9+\xe9|\xe9-\xe9|\xe9-1|\xe9*\xe9|\xe9//\xe9|\xe9/\xe9|\xe9%\xe9|\xe9==\xe9|\xe9!=\xe9|\xe9<\xe9|\xe9<=\xe9|\xe9>\xe9|\xe9>=\xe9|\xe9!\xe9|\xe9! =|\xe9<\xe9<\xe9
\xe9'\xe9'|'\xe9'\xe9|\xe9"|"\xe9"\xe9"|'\xe9\xe9|'\\\xe9'\xe9|'\u20ac'|'\u0301'|'\xb7\U0001f600'|"\ufeff\u2028\x85"|'\u200d' '\u30fb'|\xe9#\xe9|#\u20ac|#\ufeff\u2028\x85\na|# \u0301\xb7\U0001f600\n\xe9|\xe9 # \u0663
\xe9\xa0\xe9|\xe9\u3000\xe9|\xe9\u2028\xe9|\xe9\x85\xe9|\ufeff\xe9|\xe9\ufeff|\u200b\xe9|\xe9\u200b|\xe9\u200d\xe9|\xe9\u30fb\xe9|\xe9\uff65|\ufb01 fi|fi\ufb01|\u212a K|\uff21=A|e\u0301 \xe9|\xe9 e\u0301
\xe9$|$\xe9|\xe9@|\xe9?|\xe9\\|\xe9\x00|\x00\xe9|\xe9\x7f|\x0c\xe9|\xe9~\xe9|\xe9|\uff08\xe9\uff09|\xe9\uff1d1|\xe9\u2264\xe9|\u2212\xe9|\xe9\xd7\xe9|\u201c\xe9\u201d|\xab\xe9\xbb
lambda \xe9,\xe9: \xe9|lambda\xe9:a|lambda \xb7: a|for \xe9 in \xe9: \xe9|def \xe9(\xe9): \xe9|class \xe9:\n  def \xe9(\xe9): \xe9\n|\xe9.\xb7|a.\xe9\xb7.\xe9|not \xe9|not\xe9|\xe9 or \xe9|\xe9or\xe9|return \xe9|return\xe9
\xe9 and\xe9|\xe9in\xe9|\xe9 in\xb7|if \xe9:\n  \xe9\n|if \xe9:\n  \xe9\n\xe9|if \xe9:\n  \xe9\n \xe9|if \xe9:\n   \xe9|if \xe9:\n\t\xe9|if \xe9: \xe9\nelse: \xe9|if \xe9: \xe9\nels\xe9: \xe9|  \xe9| \xe9|\t\xe9|\r\xe9  \xe9|\r\xe9 \xe9|\xe9\n  \u20ac|\xe9\n \u20ac|\xe9\n   \u20ac
"""

# By hand, from 02's sentences and 01's: number and place.
BY_HAND = [
    ("a\xe9", 0, 0), ("\xe9", 0, 0), ("\u2118", 0, 0), ("\xb7", 9, 0), ("a\xb7", 0, 0), ("a\u20ac", 9, 1), ("\u20ac", 9, 0), ("\ufb01 = fi", 0, 0),
    ("\ufb01 fi", 14, 4), ("\uff49\uff46 = 1", 0, 0), ("\uff49\uff46 a: b", 14, 7), ("if\xe9 = 1", 0, 0), ("1\xe9", 14, 1), ("1.5\xe9", 14, 3),
    ("1.\xe9", 0, 0), ("\xe9.\xe9", 0, 0), ("\xe9=\xe9", 0, 0), ("e\u0301", 0, 0), ("\u0301", 9, 0), ("1\u0301", 9, 1), ("a\u0663", 0, 0), ("\u0663", 9, 0),
    ("1\u0663", 9, 1), ("\U00010300", 0, 0), ("\U0001f600", 9, 0), ("\xe9\U0001f600", 9, 2), ("\U00010300\U0001f600", 9, 4), ("a\xa0b", 9, 1), ("\u2028", 9, 0),
    ("\ufeffa", 9, 0), ("'\u20ac' #\xb7", 0, 0), ("continue\xe9", 0, 0), ("continu\xe9e", 0, 0), ("t\xe9{a}", 14, 3), ("if a:\n  \xe9\n", 0, 0),
    ("if a:\n   \xe9\n", 7, 6), ("if a:\n  \xe9\n \xb7", 8, 11), ("\t\u20ac", 6, 0), ("9223372036854775808\u20ac", 10, 0), ("\u20ac 9223372036854775808", 9, 0),
    ("_\u0301\u20ac", 9, 3), ("\x80", 9, 0), ("\uffff", 9, 0), ("\U0010ffff", 9, 0),
]

# The last character of a name, and of what is none, by the length of its sequence.
WIDTHS = ["a", "\xe9", "\ud55c", "\U00010300"]
MARKS = ["$", "\xd7", "\u20ac", "\U0001f600"]


def listed(block):
    for line in block.strip("\n").split("\n"):
        for case in line.split("|"):
            yield case.encode("latin-1", "backslashreplace").decode("unicode_escape").encode("utf-8")


def keywords():
    """A keyword with a wide character before, behind and in it, which makes it a name; with
    ASCII behind it, as far as nine bytes and more; and in full-width letters."""
    for spelling in SPELLINGS:
        if not spelling.isalpha():
            continue
        word = spelling.decode()
        yield from [word + "\xe9", word + "\u20ac", "\xe9" + word, word[:-1] + "\xe9", word[:-1] + "\xe9" + word[-1], word + "\U00010300"]
        yield from [word + "x" * (length - len(word)) for length in (7, 8, 9) if length > len(word)]
        yield from [word + "x" * (length - len(word)) + "\xe9" for length in (6, 7, 8) if length >= len(word)]
        yield "".join(chr(ord(c) + 0xFEE0) for c in word)


def ends():
    """Names that end with the source, of 1 to 12 bytes, with characters of each width; and the
    same with what is no part of a name behind them."""
    for last in WIDTHS:
        for before in ["", "a", "ab", "abcdefg", "abcdefgh", "\xe9", "\ud55c", "\U00010300", "a\xe9\ud55c"]:
            yield before + last
        for mark in MARKS:
            yield last + mark
            yield "'x' " + last + mark + last
    for length in range(1, 13):
        yield "\xe9" * length
        yield "a" * length + "\xe9"
        yield "\ud55c" * length + "a"


def sources():
    """All of them, well-formed."""
    yield from (text.encode() for text, _, _ in BY_HAND)
    yield from listed(NAMES)
    for other in OTHERS:
        yield from (text.encode() for text in (other, "a" + other, "\xe9" + other + "b", "a " + other))
    yield from listed(BOUNDARIES)
    yield from (text.encode() for text in keywords())
    yield from (text.encode() for text in ends())


# Not well-formed: question 5 comes first, and a name ends before such a byte.
BAD = [b"\x80", b"\xc3", b"\xc3(", b"\xed\xa0\x80", b"\xe2\x82", b"\xf0\x9f\x98", b"\xf4\x90\x80\x80", b"\xc0\xaf", b"\xff"]


def ill_formed():
    for bad in BAD:
        yield from [b"a" + bad, "\xe9".encode() + bad, b"a" + bad + "\xe9".encode(), "\u20ac".encode() + bad, "\ud55c".encode()[:2] + bad]
