#!/usr/bin/env python3
"""Makes compare/src/classes.rs, the plain reader's classes of characters, from what CPython's `str.isidentifier` says of every code point.

    python3.12 compare/classes.py > compare/src/classes.rs

It wants a CPython whose Unicode is 15.0.0 (3.12 has it) and ends with status 2 under another. CPython made its answers from the same version of the Unicode
Character Database, by a tool of its own; nothing here reads the files, the tables or the tool (tools/xid.py) of the verified reader.
"""
import sys
import unicodedata

VERSION = "15.0.0"
WIDTH = 130


def ranges(front):
    """The code points that make a name behind `front`, as ranges of first and last."""
    out = []
    for c in range(0x110000):
        if not (front + chr(c)).isidentifier():
            continue
        if out and out[-1][1] + 1 == c:
            out[-1][1] = c
        else:
            out.append([c, c])
    return out


def table(says, name, pairs):
    print("\n/// %s\n#[rustfmt::skip]\npub const %s: [(char, char); %d] = [" % (says, name, len(pairs)))
    line = "   "
    for low, high in pairs:
        pair = " ('\\u{%x}', '\\u{%x}')," % (low, high)
        if len(line + pair) > WIDTH:
            print(line)
            line = "   "
        line += pair
    print(line + "\n];")


def main():
    if unicodedata.unidata_version != VERSION:
        print("compare/classes.py: this Python has Unicode %s, wanted is %s" % (unicodedata.unidata_version, VERSION), file=sys.stderr)
        sys.exit(2)
    print("//! The characters of names, of Unicode %s: first and last of each range, ascending, none next to another." % VERSION)
    print("//!")
    print("//! Made by `python3.12 compare/classes.py` from `str.isidentifier` of CPython, asked at all code points. Not to be edited.")
    table("A name begins with these: XID_Start and the underscore.", "BEGIN", ranges(""))
    table("A name goes on with these: XID_Continue.", "CONTINUE", ranges("a"))


main()
