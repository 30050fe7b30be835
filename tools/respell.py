#!/usr/bin/env python3
"""Brings the repository's own definitions and lemmas to today's spelling: words in snake case, types and modules in camel case.

usage: respell.py [--list] [FOLDER]

It was run once, right after the toolchain's own script had turned every crate (docs/PORT.md), and a second run changes nothing. A name is turned
where a file of antt of FOLDER (the repository, unless given) declares it:

    inLine, twinD-same          a lower-case word with a capital inside    in_line, twin_d-same
    lineEnd                     the same, where the new word is taken      line_end_lem
    told-node, run-stop         a name of specs/ or of a file of lemmas    told_node, run_stop

Names of types, of facts and of what Rattle makes keep their spelling, and so does a name with dashes whose new spelling is taken: a lemma's name
may have a dash. No two names fall together. --list prints the table. The words that are turned are those of .antt files, of the clauses, imports
and comments of .rt files, and of the must-fail edits.
"""

import os
import re
import sys

WORD = re.compile(r"[^\s(){}.;,@\"«»\[\]`]+")
DECLARED = re.compile(
    r"^ *(?:(?:abbrev|unfoldable|pub)\s+)*(?:(?:data|record|ruleset)\s+(?:pub\s+)?)?((?:[^\s(){}.;,@\"«»:]+ )*[^\s(){}.;,@\"«»:]+)(?: \{[^{}\n]*\}| \([^()\n]*\))* :(?= |$)"
)
CAMEL = re.compile(r"(?<=[a-z0-9])([A-Z])")


def files(root, endings):
    for folder, dirs, names in os.walk(os.path.join(root, "crates")):
        dirs[:] = sorted(d for d in dirs if d not in ("out", ".git"))
        for name in sorted(names):
            if name.endswith(endings):
                yield os.path.join(folder, name)


def read(path):
    with open(path, encoding="utf-8") as f:
        return f.read()


def part(text):
    """A part of a name between dashes: in snake case, unless it is a type's or a fact's name."""
    if not text[:1].islower() or not CAMEL.search(text):
        return text
    return re.sub(r"(?<=[a-z0-9])[A-Z]+", lambda m: "_" + m[0].lower(), text)


def is_lemmas(path):
    """Whether the file holds definitions or lemmas, and not the proof of one function."""
    inside = path.split("/specs/")[-1] if "/specs/" in path else path.split("/proofs/")[-1]
    return "/" not in inside


def spelled(name, of_lemmas):
    turned = "".join(map(part, re.split("([-_])", name)))
    if of_lemmas and re.fullmatch(r"[A-Za-zα-ωΑ-Ω0-9_'₀-₉]+(-[A-Za-zα-ωΑ-Ω0-9_'₀-₉]+)+", turned):
        turned = turned.replace("-", "_")
    return turned


def table(root):
    """The names to turn, each with its new spelling, the names that stay, and the fields of records among the old names."""
    old, words, fields = {}, set(), set()
    for path in files(root, (".antt", ".rt")):
        text = read(path)
        words |= set(WORD.findall(text))
        if not path.endswith(".antt"):
            continue
        for line in text.split("\n"):
            found = DECLARED.match(line)
            for name in found[1].split(" ") if found and not line.startswith("--") else []:
                new = spelled(name, is_lemmas(path))
                if new != name and "◌" not in name:
                    old[name] = new
                    fields |= {name} if line.startswith(" ") else set()
    names, stay = {}, set()
    # Names with a capital inside come first, since a name with dashes may stay.
    for name in sorted(old, key=lambda it: (not CAMEL.search(it), it)):
        new = old[name]
        if new in words and CAMEL.search(name):
            new += "_lem"
        if new in words:
            stay.add(name)
        else:
            names[name] = new
            words.add(new)
    return names, stay, fields


def turned(text, names, fields):
    def one(found):
        name, before = found[0], text[: found.start()]
        # Behind a dot stands what Rattle makes, but for a field of a record and a name behind a module's.
        is_made = before.endswith(".") and "-" in name and name not in fields and not re.search(r"[A-Z]\w*\.$", before[-60:])
        return name if is_made else names.get(name, name)

    return WORD.sub(one, text)


def main(argv):
    is_list = "--list" in argv
    root = next((a for a in argv if not a.startswith("-")), ".")
    names, stay, fields = table(root)
    if is_list:
        for a in sorted(stay):
            print(f"{a} stays")
        for a, b in sorted(names.items()):
            print(f"{a} -> {b}")
        return 0
    changed = 0
    for path in files(root, (".antt", ".rt", ".edit")):
        text = read(path)
        new = turned(text, names, fields)
        if new != text:
            changed += 1
            with open(path, "w", encoding="utf-8") as f:
                f.write(new)
    print(f"{len(names)} names turned in {changed} files; {len(stay)} stay")
    return 0


if __name__ == "__main__":
    raise SystemExit(main(sys.argv[1:]))
