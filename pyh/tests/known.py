"""The sources of crates/reader_cases, as files: number and place must be those stored there, which tools/reference told, and line and column those that are
counted here."""
import json
import os
import subprocess

STORED = os.path.join(os.path.dirname(os.path.abspath(__file__)), "../../crates/reader_cases/stdout")
TOO_SMALL = (2, 3, 4)  # slices of the caller's


def run(cases, work, tally):
    expected = {}
    for source, number, place in stored():
        expected.setdefault(source, (number, place))
    for k, source in enumerate(expected):
        with open(os.path.join(work, "%04d.pyh" % k), "wb") as file:
            file.write(source)
    done = subprocess.run(["pyh", "check", "--format", "json", "."], cwd=work, capture_output=True, timeout=60)
    *refused, totals = [json.loads(line) for line in done.stdout.splitlines()]
    said = {r["file"]: (r["number"], r["place"], r["line"], r["column"]) for r in refused if r["kind"] == "refused"}
    wrong = 0
    for k, (source, (number, place)) in enumerate(expected.items()):
        wanted = (number, place) + line_and_column(source, place) if number else None
        if said.get("./%04d.pyh" % k) != wanted:
            wrong += 1
            tally.case("known: %r" % source[:200], False, "%s, and not %s" % (said.get("./%04d.pyh" % k), wanted))
    tally.case("known: %d sources" % len(expected), len(expected) > 1500 and not wrong)
    count = sum(1 for number, _ in expected.values() if number)
    wanted = {"kind": "totals", "scripts": len(expected), "accepted": len(expected) - count, "refused": count, "unreadable": 0, "skipped": 0}
    tally.case("known: totals", totals == wanted and len(refused) == count and done.returncode == 1, totals)


def stored():
    for line in open(STORED, encoding="ascii"):
        case, answer = line.split(" = ")
        number, place = map(int, answer.split()[:2])
        if number not in TOO_SMALL:
            yield bytes_of(case.split()[1]), number, place


def bytes_of(text):
    """A source as docs/CASES.md says: hexadecimal, pieces joined by `+`, `*` and how often; a dash is empty."""
    pieces = [] if text == "-" else [piece.partition("*") for piece in text.split("+")]
    return b"".join(bytes.fromhex(digits) * int(times or 1) for digits, _, times in pieces)


def line_and_column(source, place):
    """From 1; the column in characters. The carriage return of a line's end is no part of the line."""
    start = source.rfind(b"\n", 0, place) + 1
    end = source.find(b"\n", place)
    line = source[start : end if end >= 0 else len(source)].removesuffix(b"\r")
    return source.count(b"\n", 0, start) + 1, len(line[: place - start].decode()) + 1
