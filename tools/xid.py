#!/usr/bin/env python3
"""Writes the tables of the crate `xid`: the code points of XID_Start and XID_Continue (UAX #31), as ranges.

    tools/xid.py FOLDER [ROOT]    from DerivedCoreProperties.txt of the Unicode Character Database in the folder (Debian's package unicode-data has it in
                                  /usr/share/unicode) into crates/xid below ROOT, which is this repository where it is not given

A table is the list of its ranges' bounds, first and last, ascending. Ranges that touch are one range, but for the first few such pairs of the file: these
stay two, so that the number of ranges is a multiple of the three that a row of the code has. The same numbers go to specs/Tables.antt, which defines the
classes, and to the tables of src/start.rt and src/continuation.rt, whose rows antt joins again to the definitions (crates/xid/proofs/table).
"""
import os
import re
import sys

HERE = os.path.dirname(os.path.dirname(os.path.abspath(__file__)))
WIDTH = 3  # ranges in a row
FILE = "DerivedCoreProperties.txt"
CLASSES = (("XID_Start", "xid_start", "start"), ("XID_Continue", "xid_continue", "continuation"))


def ranges(lines, wanted):
    """The ranges that have the property, ascending, those that touch joined as far as their number stays a multiple of WIDTH. They have as many code points as
    the file says behind them."""
    found, total, last = [], None, None
    for line in lines:
        if m := re.match(r"([0-9A-F]+)(?:\.\.([0-9A-F]+))?\s*;\s*(\w+)", line):
            last = m[3]
            if last == wanted:
                found.append((int(m[1], 16), int(m[2] or m[1], 16)))
        elif last == wanted and (m := re.match(r"# Total code points: ([0-9]+)", line)):
            total = int(m[1])
    size = sum(high - low + 1 for low, high in found)
    if size != total:
        sys.exit("tools/xid.py: %s has %d code points, and the file says %s" % (wanted, size, total))
    found.sort()
    touching = sum(one[1] + 1 == other[0] for one, other in zip(found, found[1:]))
    kept = -(len(found) - touching) % WIDTH
    out = []
    for low, high in found:
        if out and low == out[-1][1] + 1:
            if not kept:
                out[-1] = (out[-1][0], high)
                continue
            kept -= 1
        out.append((low, high))
    assert len(out) % WIDTH == 0
    return out


def rows(found):
    return [[bound for pair in found[i : i + WIDTH] for bound in pair] for i in range(0, len(found), WIDTH)]


def numbers(bounds, parted):
    return parted.join("0x%X" % bound for bound in bounds)


def definition(name, says, found):
    bounds = [bound for pair in found for bound in pair]
    lines = [numbers(bounds[i : i + 12], " ∷ ") for i in range(0, len(bounds), 12)]
    return "-- %s\nunfoldable pub %s : List ℕ\n%s =\n    %s\n    ∷ []\n" % (says, name, name, "\n    ∷ ".join(lines))


def specs(version, tables):
    head = "-- The bounds of the ranges of %s (%s of the Unicode Character Database, version %s): first, last, first, last.\n"
    head %= (" and ".join(c[0] for c in CLASSES), FILE, version)
    text = head + "-- Made by tools/xid.py. Assumes nothing.\nuse Rattle.std.specs.Prelude.{ℕ, List, [], ◌∷◌}\n"
    for (prop, name, _), found in zip(CLASSES, tables):
        text += "\n" + definition(name, "%s: %d ranges" % (prop, len(found)), found)
    return text


def code(version, prop, found):
    text = "// The ranges of %s, Unicode %s, %d to a row. Made by tools/xid.py.\nuse crate::row::Row;\n\n" % (prop, version, WIDTH)
    text += "pub(crate) static ROWS: [Row; %d] = [\n" % len(rows(found))
    return text + "".join("    Row(%s),\n" % numbers(row, ", ") for row in rows(found)) + "];\n"


def main():
    folder, root = sys.argv[1], sys.argv[2] if len(sys.argv) > 2 else HERE
    with open(os.path.join(folder, FILE), encoding="utf8") as file:
        lines = file.readlines()
    version = re.match(r"# DerivedCoreProperties-([0-9.]+)\.txt", lines[0])[1]
    tables = [ranges(lines, prop) for prop, _, _ in CLASSES]
    files = {"specs/Tables.antt": specs(version, tables)}
    for (prop, _, module), found in zip(CLASSES, tables):
        files["src/%s.rt" % module] = code(version, prop, found)
    for name, text in files.items():
        path = os.path.join(root, "crates", "xid", name)
        os.makedirs(os.path.dirname(path), exist_ok=True)
        with open(path, "w", encoding="utf8") as file:
            file.write(text)


main()
