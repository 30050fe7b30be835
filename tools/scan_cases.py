#!/usr/bin/env python3
"""Writes the stored cases of the program `scan_cases` and what it must print. docs/CASES.md says how each list is made.

    python3 tools/scan_cases.py crates/scan_cases

The sources are the picked ones of tools/reference/token_cases.py, every third generated one if it is short, and the lists below. Every expected line is made by
tools/reference/scan.py, which was written from documents 01 and 02 alone. Nothing is taken from what the program prints.
"""
import os
import sys

sys.dont_write_bytecode = True
sys.path.insert(0, os.path.join(os.path.dirname(os.path.abspath(__file__)), "reference"))
import token_cases  # noqa: E402

LARGEST_FILE = 65536  # the program reads a file into a buffer of this size
LONGEST_SOURCE = 2048  # and has areas for a source of this size
LONGEST_SCRIPT = 299  # a generated source is kept up to this size; a few longer ones stay
LONGER_SCRIPTS = 6
FEWEST = 40  # cases of each refusal


# ---- more of the refusals that few sources of token_cases.py come to ----


def lines_to(depth):
    """A line on each level, from the lowest to this one."""
    return b"".join(b"  " * level + b"a\n" for level in range(depth + 1))


def levels():
    """Behind 1 to 4 open levels each count of spaces, before a token and at the end: back on a level, between two, or one too deep."""
    for depth in range(1, 5):
        for spaces in range(2 * depth + 4):
            yield lines_to(depth) + b" " * spaces + b"b\n"
            yield lines_to(depth) + b" " * spaces


def between_levels():
    """8 behind what does not change a level: blank lines, comment lines, a carriage return and then a token; and before other causes."""
    for between in [b"\n", b"   \n", b"#c\n", b"      #c\n", b" #c\n\n"]:
        yield lines_to(2) + between + b" b"
        yield lines_to(2) + between + b"   b\nc"
    for follows in [b"$", "\u00e9".encode(), "\u20ac".encode(), b"9223372036854775808", b"1.0e24", b"'b", b"(", b"\n\t", b"b\n\t", b"\tb", b"\r", b"#c", b"\n"]:
        yield lines_to(2) + b" " + follows
        yield lines_to(2) + b"   " + follows
    for spaces in range(6):
        yield lines_to(1) + b"\rb" + b" " * spaces + b"c\n"
        yield lines_to(2) + b"\rb" + b" " * spaces


OUT_OF_RANGE = [b"9223372036854775808", b"-9223372036854775809", b"+9223372036854775808", b"99999999999999999999", b"-0018446744073709551616"]
NOT_ADMITTED = [b"1.0e24", b"0.1e-22", b"900719925474099.3"]
PLACES = [b"%s\n", b"a=%s", b"'b' %s", b"(\n  a\n  %s", b"a #c\n%s", b"  a\n%s", b"\ra  %s", b"if a:\n  b\n%s c"]
BEHIND = [b"%s\n\t", b"%s $", b"%s\xc3\xa9", b"%s\xe2\x82\xac", b"%s\n   a", b"%s '"]


def values():
    """10 and 11 at a later place, behind text and marks, and before other causes."""
    for value in OUT_OF_RANGE + NOT_ADMITTED:
        for around in PLACES + BEHIND:
            yield around % value
    yield from [b"$ 9223372036854775808", b"1.0e24 9223372036854775808", b"9223372036854775808 1.0e24", b"   9223372036854775808"]


def texts():
    """Decoded text of several strings, and none of it where the source is refused behind them."""
    strings = [b"''", b'"\\n"', b"'\\q\\\\'", b"'\xe2\x82\xac\\t'", b"'a\nb'"]
    for first in strings:
        for second in strings:
            yield first + second
        for end in [b"$", b"\xe2\x82\xac", b"\n\t", b"\n   ", b"9223372036854775808"]:
            yield first + b" 'x'" + end


# ---- files ----


def some(sources):
    """Every third source, up to LONGEST_SCRIPT, and the first few that are longer."""
    sources = list(sources)[::3]
    longer = [source for source in sources if len(source) > LONGEST_SCRIPT][:LONGER_SCRIPTS]
    return [source for source in sources if len(source) <= LONGEST_SCRIPT or source in longer]


def lists():
    picked = [*token_cases.picked(), *levels(), *between_levels(), *values(), *texts()]
    return {"picked": picked, "generated": some(token_cases.generated())}


def main():
    crate = sys.argv[1]
    seen, stdout, outcomes = set(), [], {}
    for name, sources in lists().items():
        sources = [s for s in dict.fromkeys(sources) if s not in seen and token_cases.is_utf8(s)]
        seen.update(sources)
        text = "".join((source.hex() or "-") + "\n" for source in sources)
        assert len(text) < LARGEST_FILE, (name, len(text))
        assert all(len(source) <= LONGEST_SOURCE for source in sources), name
        open(f"{crate}/data/{name}", "w").write(text)
        for source in sources:
            line = token_cases.expected(source)
            stdout.append(f"{source.hex() or '-'} = {line}\n")
            outcome = line.split()[1] if line.startswith("no") else "ok"
            outcomes[outcome] = outcomes.get(outcome, 0) + 1
        print(f"{name}: {len(sources)} sources, {len(text)} bytes")
    assert all(outcomes[str(number)] >= FEWEST for number in range(6, 12)) and "12" not in outcomes, outcomes
    open(f"{crate}/stdout", "w").write("".join(stdout))
    print(", ".join(f"{outcome}: {outcomes[outcome]}" for outcome in sorted(outcomes, key=lambda o: (len(o), o))))


main()
