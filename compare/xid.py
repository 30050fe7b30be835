#!/usr/bin/env python3
"""Compares the tables of names with CPython: every code point, alone and behind `a`, beside `str.isidentifier`.

    python3 compare/xid.py [FOLDER]    FOLDER has DerivedAge.txt of the Unicode Character Database, of the tables' version: it says which characters that
                                       version has, and is needed where Python's Unicode is not 15.0. It is /usr/share/unicode where it is not given
                                       (Debian's package unicode-data)

The tables are those of crates/xid/specs/Tables.antt, which the check holds to the code. `str.isidentifier` looks at the characters as they stand and does
not normalise; CPython's parser does, to NFKC. So the count of names that NFKC would change is told as well. A difference is explained where the CPython
at hand has another version of Unicode and the character is younger than the older of the two versions, or was put into a class later (LATER); the exit
status is 1 where one is not, and 2 where the versions differ and the file is not at hand or is of another version than the tables.
"""
import os
import re
import sys
import unicodedata

HERE = os.path.dirname(os.path.dirname(os.path.abspath(__file__)))
# Characters that had been there before the version which put them into XID_Continue, by Other_ID_Continue.
LATER = {0x200C: "15.1.0", 0x200D: "15.1.0", 0x30FB: "15.1.0", 0xFF65: "15.1.0"}
DATA = "/usr/share/unicode"
TABLES = os.path.join(HERE, "crates", "xid", "specs", "Tables.antt")


def tables():
    """The version of the tables, and the code points of each."""
    text = open(TABLES, encoding="utf8").read()
    out = []
    for name in ("xid_start", "xid_continue"):
        bounds = [int(n, 16) for n in re.findall(r"0x([0-9A-F]+)", text.split(name + " =")[1].split("[]")[0])]
        out.append({c for low, high in zip(bounds[::2], bounds[1::2]) for c in range(low, high + 1)})
    return [re.search(r"version ([0-9.]+)", text)[1]] + out


def stop(says):
    print("compare/xid.py: " + says, file=sys.stderr)
    sys.exit(2)


def characters(folder, version):
    """The characters that this version of Unicode has."""
    try:
        with open(os.path.join(folder, "DerivedAge.txt"), encoding="utf8") as file:
            lines = file.readlines()
    except OSError:
        stop("the versions differ: name the FOLDER that has DerivedAge.txt")
    has = re.match(r"# DerivedAge-([0-9.]+)\.txt", lines[0] if lines else "")
    if not has or has[1] != version:
        stop("DerivedAge.txt of %s is of Unicode %s, and the tables are of %s" % (folder, has[1] if has else "?", version))
    out = set()
    for line in lines:
        if m := re.match(r"([0-9A-F]+)(?:\.\.([0-9A-F]+))?\s*;", line):
            out.update(range(int(m[1], 16), int(m[2] or m[1], 16) + 1))
    return out


def spans(points):
    """Code points as ranges, to be read."""
    out = []
    for c in sorted(points):
        if out and out[-1][1] + 1 == c:
            out[-1][1] = c
        else:
            out.append([c, c])
    return ", ".join("U+%04X" % a if a == b else "U+%04X to U+%04X" % (a, b) for a, b in out)


def number(version):
    return [int(n) for n in version.split(".")]


def why(c, ours, theirs, known):
    """What explains a difference at c; `known` are the characters that the tables' version has."""
    newer = number(theirs) < number(ours)  # the tables are
    here, there = c in known, unicodedata.category(chr(c)) != "Cn"
    if number(ours) != number(theirs) and here != there and here == newer:
        return "younger than the older version"
    if c in LATER and min(number(ours), number(theirs)) < number(LATER[c]) <= max(number(ours), number(theirs)):
        return "put into the class by " + LATER[c]
    return None


def main():
    version, start, more = tables()
    theirs = unicodedata.unidata_version
    known = characters(sys.argv[1] if len(sys.argv) > 1 else DATA, version) if theirs != version else set()
    print("tables of Unicode %s; CPython %s with Unicode %s" % (version, sys.version.split()[0], theirs))
    bad = 0
    for says, front, ours in (("alone", "", start | {0x5F}), ("behind a", "a", more)):
        found = {c for c in range(0x110000) if (front + chr(c)).isidentifier()}
        print("%s: %d code points, %d by the tables, %d by CPython" % (says, 0x110000, len(ours), len(found)))
        for who, points in (("by the tables alone", ours - found), ("by CPython alone", found - ours)):
            reasons = {}
            for c in points:
                reasons.setdefault(why(c, version, theirs, known), []).append(c)
            for reason, some in sorted(reasons.items(), key=str):
                print("  %s, %s: %d: %s" % (who, reason or "NOT EXPLAINED", len(some), spans(some)))
            bad += len(reasons.get(None, ()))
    normal = [c for c in more if unicodedata.normalize("NFKC", "a" + chr(c)) != "a" + chr(c)]
    closed = all(unicodedata.normalize("NFKC", "a" + chr(c)).isidentifier() for c in normal if ("a" + chr(c)).isidentifier())
    print("NFKC changes %d of the names of `a` and one character, %s still a name each" % (len(normal), "all" if closed else "NOT all"))
    print("%d differences not explained" % bad)
    sys.exit(1 if bad else 0)


main()
