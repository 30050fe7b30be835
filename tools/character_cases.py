"""The classes of characters by Python, and the cases `c HEX` of the program `leaf_cases`. docs/CASES.md says how they are made; tools/leaf_cases.py writes the files."""
import characters

# ---- the classes of characters ----

# A character of the same classes for each one that tools/reference/characters.py tells, of which the versions of Python may say different things.
LIKE = {characters.BOTH: "a", characters.CONTINUES: "0", characters.NEITHER: "$"}
LIKES = {ord(c): LIKE[told] for c, told in characters.TOLD.items()}


def identifier(text):
    """Whether Python says that the text is a name. It stops where the versions of Python may say different things of a character."""
    for c in text:
        characters.classes(c)
    return text.translate(LIKES).isidentifier()


# ---- the cases ----

ILL_FORMED = ["c3", "61eda080", "e282", "f4908080", "c3a980", "ed959cff61"]


def told():
    """The classes of each code point of which something is told."""
    classes = {}
    for c in range(0x110000):
        try:
            classes[c] = characters.classes(chr(c))
        except characters.Untold:
            pass
    return classes


def bounds():
    """Both characters wherever two neighbours have different classes, and each one whose neighbour is not told: it may be the last or the first of its range."""
    classes = told()
    return [c for c, own in classes.items() if {classes.get(c - 1), classes.get(c + 1)} != {own}]


def character_cases():
    points = [c for c in range(0x110000) if characters.of_3_2(chr(c)) and chr(c) not in characters.LATER]
    some = [c for c in points if c < 0x500] + points[::61] + [0x2118, 0x212E, 0x309B, 0xAC00, 0xD7A3, 0xFB01, 0xFF3F, 0x10300, 0x2A6D6, 0xE0020]
    some = list(dict.fromkeys([*some, *map(ord, characters.TOLD), *bounds()]))
    texts = ["".join(map(chr, some[i : i + 40])).encode() for i in range(0, len(some), 40)]
    return texts + [bytes.fromhex(text) for text in ILL_FORMED] + [b""]


def character_expected(text):
    try:
        whole, end = text.decode("utf-8"), ""
    except UnicodeDecodeError as error:
        whole, end = text[: error.start].decode("utf-8"), "none"
    classes = [(ord(c), "s" * (c != "_" and identifier(c)), "c" * identifier("a" + c)) for c in whole]
    return "".join("%d%s%s;" % one for one in classes) + end
