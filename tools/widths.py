#!/usr/bin/env python3
"""Writes pyh/src/widths.rs: which characters take no column of a terminal, which take two, and which no one sees.

    tools/widths.py FOLDER [ROOT]    from EastAsianWidth.txt, PropList.txt, DerivedCoreProperties.txt and extracted/DerivedGeneralCategory.txt of the Unicode
                                     Character Database in the folder, into pyh/src below ROOT, which is this repository where it is not given

Two columns: East_Asian_Width W or F. None: General_Category Mn, Me or Cf, but for Prepended_Concatenation_Mark, which are Cf and are seen; and the vowels
and finals of decomposed Hangul syllables, U+1160 to U+11FF, U+D7B0 to U+D7C6 and U+D7CB to U+D7FB. Unseen: Default_Ignorable_Code_Point, and by hand the
separators of lines and paragraphs, U+2028 and U+2029, and the anchors of annotations, U+FFF9 to U+FFFB.
"""
import os
import re
import sys

HERE = os.path.dirname(os.path.dirname(os.path.abspath(__file__)))
JAMO = [(0x1160, 0x11FF), (0xD7B0, 0xD7C6), (0xD7CB, 0xD7FB)]
BY_HAND = [(0x2028, 0x2029), (0xFFF9, 0xFFFB)]


class Files:
    """The files of a folder, all of one version."""

    def __init__(self, folder):
        self.folder, self.version = folder, None

    def ranges(self, name, *wanted):
        """The ranges whose property is one of these."""
        with open(os.path.join(self.folder, name), encoding="utf8") as file:
            lines = file.readlines()
        version = re.match(r"# %s-([0-9.]+)\.txt" % os.path.basename(name)[:-4], lines[0])[1]
        if version != (self.version or version):
            sys.exit("tools/widths.py: %s is of version %s, and another file of %s" % (name, version, self.version))
        self.version = version
        found = [m for line in lines if (m := re.match(r"([0-9A-F]+)(?:\.\.([0-9A-F]+))?\s*;\s*(\w+)", line)) and m[3] in wanted]
        if {m[3] for m in found} != set(wanted):
            sys.exit("tools/widths.py: %s lacks one of %s" % (name, ", ".join(wanted)))
        return [(int(m[1], 16), int(m[2] or m[1], 16)) for m in found]


def joined(found):
    """Ascending, neighbours joined."""
    out = []
    for low, high in sorted(found):
        if out and low <= out[-1][1] + 1:
            out[-1] = (out[-1][0], max(high, out[-1][1]))
        else:
            out.append((low, high))
    return out


def without(found, others):
    """The ranges without these, each of which lies in one of them."""
    for first, last in others:
        [(low, high)] = [pair for pair in found if pair[0] <= first and last <= pair[1]]
        found = [pair for pair in found if pair != (low, high)] + [(a, b) for a, b in ((low, first - 1), (last + 1, high)) if a <= b]
    return sorted(found)


def table(name, says, found):
    entries = ["(0x%X, 0x%X)," % pair for pair in found]
    lines, line = [], "   "
    for entry in entries:
        if len(line) + 1 + len(entry) > 148:
            lines.append(line)
            line = "   "
        line += " " + entry
    return "/// %s\n#[rustfmt::skip]\npub const %s: [(u32, u32); %d] = [\n%s\n];\n" % (says, name, len(found), "\n".join(lines + [line]))


def main():
    files, root = Files(sys.argv[1]), sys.argv[2] if len(sys.argv) > 2 else HERE
    wide = joined(files.ranges("EastAsianWidth.txt", "W", "F"))
    none = joined(files.ranges("extracted/DerivedGeneralCategory.txt", "Mn", "Me", "Cf") + JAMO)
    none = without(none, files.ranges("PropList.txt", "Prepended_Concatenation_Mark"))
    unseen = joined(files.ranges("DerivedCoreProperties.txt", "Default_Ignorable_Code_Point") + BY_HAND)
    head = "//! Made by tools/widths.py from the Unicode Character Database, version %s: ranges of characters, ascending.\n\n" % files.version
    text = head + table("NONE", "They take no column: marks on the character before, and what no one sees.", none)
    text += "\n" + table("WIDE", "They take two columns.", wide)
    text += "\n" + table("UNSEEN", "No one sees them: what may be ignored, separators of lines and paragraphs, and the anchors of annotations.", unseen)
    path = os.path.join(root, "pyh", "src", "widths.rs")
    os.makedirs(os.path.dirname(path), exist_ok=True)
    with open(path, "w", encoding="utf8") as file:
        file.write(text)


main()
