"""Which characters begin and continue a name: change 1 of document 02.

"A name now begins with an XID_Start character or underscore and continues with
XID_Continue (UAX #31; the team names the Unicode version in NOTICE)." "Names are not
normalised". The version is 15.0.0.

The classes are Python's own: `str.isidentifier` asks XID_Start or underscore of the
first character and XID_Continue of the others, and normalises nothing. Its Unicode is
13.0 in Python 3.10, 14.0 in 3.11, 15.0 in 3.12 and 15.1 in 3.13, so it is asked only of
characters on which these agree: those of Unicode 3.2, which every Python has beside its
own version. A few others are told here, and of all the rest nothing is said: asking
raises Untold, so that no expected value depends on the Python at hand.
"""
import unicodedata

VERSION = "15.0.0"

# A character stays in XID_Start and XID_Continue once it is there, and one that was in
# neither may come into them later: of those of Unicode 3.2 these four did, with 15.1. A
# Python with a later version may want more of them here.
LATER = "\u200c\u200d\u30fb\uff65"

# Whether a character begins a name, and whether it continues one, by Unicode 15.0.0.
NEITHER, CONTINUES, BOTH = (False, False), (False, True), (True, True)
TOLD = {
    **dict.fromkeys(LATER, NEITHER),
    # the last of two bytes, the first of three and the first of four, of 11.0, 5.2 and 4.0
    "\u07ff": NEITHER, "\u0800": BOTH, "\U00010000": BOTH,
    # faces, of 6.1 and 7.0
    "\U0001f600": NEITHER, "\U0001f642": NEITHER,
    # of 15.0: a letter, a sign, a digit and a mark of Kawi, and two ideographs
    "\U00011f04": BOTH, "\U00011f03": CONTINUES, "\U00011f50": CONTINUES,
    "\U00011f43": NEITHER, "\U00031350": BOTH, "\U000323af": BOTH,
    # two ideographs of 15.1, and a letter of 16.0
    "\U0002ebf0": NEITHER, "\U0002ee5d": NEITHER, "\u1c89": NEITHER,
}
assert unicodedata.unidata_version != VERSION or all(
    (c.isidentifier(), ("a" + c).isidentifier()) == told for c, told in TOLD.items())


class Untold(Exception):
    """A character of which the versions of Python may say different things."""


def of_3_2(c):
    """Whether Unicode 3.2 has the character."""
    return unicodedata.ucd_3_2_0.category(c) not in ("Cn", "Co", "Cs")


def for_good(c):
    """Private use and noncharacters: in neither class in any version."""
    return unicodedata.category(c) == "Co" or ord(c) & 0xFFFE == 0xFFFE or 0xFDD0 <= ord(c) <= 0xFDEF


def classes(c):
    """Whether the character begins a name, and whether it continues one."""
    if c in TOLD:
        return TOLD[c]
    if not of_3_2(c) and not for_good(c):
        raise Untold(f"U+{ord(c):04X}: tools/reference/characters.py does not tell its classes")
    return c.isidentifier(), ("a" + c).isidentifier()


def character_at(source, place):
    """The character whose well-formed sequence (Unicode table 3-7) stands at the place, and
    the sequence's end; None where none does. Python's strict decoder tells it."""
    for end in range(place + 1, place + 5):
        try:
            text = source[place:end].decode("utf-8", "strict")
        except UnicodeDecodeError:
            continue
        return (text, end) if text else None
    return None


def name_end(source, place):
    """Where the name that begins at the place ends, the longest; None where none begins."""
    first = character_at(source, place)
    if first is None or not classes(first[0])[0]:
        return None
    end = first[1]
    while (more := character_at(source, end)) and classes(more[0])[1]:
        end = more[1]
    return end
