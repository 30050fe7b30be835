#!/usr/bin/env python3
"""A table of where the gate's time goes, from what `rt ci` printed.

    rt ci > ci.log; tools/gate_times.py ci.log            prints it, in Markdown
    rt ci > ci.log; tools/gate_times.py ci.log --write    puts it into docs/PERFORMANCE.md, between the two comments there

--crates FILE and --page FILE stand for crates.txt and docs/PERFORMANCE.md. A table is written of a whole and green run alone: the last line is
`N passed, 0 failed`, and N is the number of crates and edits that were found. Every line of another form is passed over. The logs are those of the
older Rattle (docs/PORT.md): today's `rt ci` prints no seconds.
"""
import argparse
import os
import re
import sys
from dataclasses import dataclass, field

ROOT = os.path.dirname(os.path.dirname(os.path.abspath(__file__)))
HEADING = "## Where the gate's time goes"
BEGIN, END = "<!-- gate times: begin -->", "<!-- gate times: end -->"
MADE = """Written by `tools/gate_times.py` from what `rt ci` printed, in the whole seconds that it gives. It tries every edit that must be refused by
proving the crate again with that edit, so a crate's time is that of its proof, of its edits, and of its run where it is a program."""

PROVED = re.compile(r"rt: (\w+) proved \((\d+) s\)")
REFUSED = re.compile(r"rt: must-fail (\w+)/([^\s:]+): refused, as it must be \((?:first at [^;]*; )?(\d+) s\)")
RAN = re.compile(r"rt: (\w+) ran(?: as nobody)?, and wrote what its file 'stdout' has \((\d+) s\)")
LAST = re.compile(r"(\d+) passed, (\d+) failed")


@dataclass
class Times:
    """Seconds in the order of the log: (crate, s) of proofs and runs, (crate, label, s) of edits; and the last line's two numbers."""
    proofs: list = field(default_factory=list)
    edits: list = field(default_factory=list)
    runs: list = field(default_factory=list)
    last: tuple = None


def read(path):
    t = Times()
    for line in open(path, encoding="utf8", errors="replace"):
        line = line.rstrip("\n")
        if m := PROVED.fullmatch(line):
            t.proofs.append((m.group(1), int(m.group(2))))
        elif m := REFUSED.fullmatch(line):
            t.edits.append((m.group(1), m.group(2), int(m.group(3))))
        elif m := RAN.fullmatch(line):
            t.runs.append((m.group(1), int(m.group(2))))
        if line:
            m = LAST.fullmatch(line)
            t.last = (int(m.group(1)), int(m.group(2))) if m else None
    return t


def levels(path):
    """Each crate's level as rt has it: one more than the highest among the crates that it needs."""
    needs = {}
    for line in open(path, encoding="utf8"):
        name, colon, deps = line.split("#")[0].partition(":")
        if colon:
            needs[name.split()[0]] = deps.split()

    def level(name):
        return max([level(d) + 1 for d in needs.get(name, []) if d in needs], default=0)

    return {name: level(name) for name in needs}


def batches(work, jobs=2):
    """The seconds of work that is started so many at a time, (kind, seconds) each: all of a batch end before the next begins, and a batch is of one kind."""
    total, batch, at = 0, [], None
    for kind, seconds in work:
        if kind != at or len(batch) == jobs:
            total, batch = total + max(batch, default=0), []
        at = kind
        batch.append(seconds)
    return total + max(batch, default=0)


def rows(t):
    """(crate, proof, edits, their seconds, the longest as (seconds, label), run, all), the dearest first. What a crate has none of is None."""
    out = []
    for crate in dict.fromkeys([c for c, *_ in t.proofs + t.edits + t.runs]):
        proof = sum(s for c, s in t.proofs if c == crate)
        edits = [(s, label) for c, label, s in t.edits if c == crate]
        ran = [s for c, s in t.runs if c == crate]
        spent = sum(s for s, _ in edits)
        whole = proof + spent + sum(ran)
        longest = max(edits, key=lambda e: e[0], default=None)
        out.append((crate, proof, len(edits) or None, spent if edits else None, longest, sum(ran) if ran else None, whole))
    return sorted(out, key=lambda r: (-r[-1], r[0]))


def cell(value):
    if isinstance(value, tuple):
        return "{:,} `{}`".format(*value)
    return "–" if value is None else "{:,}".format(value)


def table(t, level):
    """The table, and below it the time that the same work takes on two cores."""
    found = rows(t)
    sums = [sum(r[i] or 0 for r in found) for i in (1, 2, 3, 5, 6)]
    sums.insert(3, max((r[4] for r in found if r[4]), key=lambda e: e[0], default=None))
    out = ["| crate | proof, s | edits | their time, s | longest edit, s | run, s | all, s |", "|---|---:|---:|---:|---:|---:|---:|"]
    for name, *values in [("`%s`" % r[0],) + r[1:] for r in found] + [["**all**"] + sums]:
        out.append("| %s | %s |" % (name, " | ".join(map(cell, values))))
    proofs = batches([(level.get(c, 0), s) for c, s in t.proofs])
    edits = batches([(0, s) for _, _, s in t.edits])
    wall, least = proofs + edits + sums[4], (sums[0] + sums[2] + 1) // 2 + sums[4]
    says = "On two cores about {:,} s, which is {:,} min: proofs {:,} s, edits {:,} s, runs {:,} s. `rt` begins two at a time and waits for both,\n"
    says += "and ends a level of crates before the next; were neither core ever idle, it would be {:,} s."
    return "\n".join(out + ["", says.format(wall, round(wall / 60), proofs, edits, sums[4], least)])


def unfit(t):
    """Why this log is no whole, green run of the gate, or None."""
    ran, found = {c for c, _ in t.runs}, len(t.proofs) + len(t.edits)
    if t.last is None:
        return "its last line is not 'N passed, M failed'"
    if t.last[1]:
        return "%d failed" % t.last[1]
    if t.last[0] != found:
        return "%d passed, and %d were found (%d crates, %d edits)" % (t.last[0], found, len(t.proofs), len(t.edits))
    if not ran <= {c for c, _ in t.proofs}:
        return "a program ran that was not proved: %s" % " ".join(sorted(ran - {c for c, _ in t.proofs}))
    return None


def put(page, text):
    """Puts the text between the comments of the page; a page without them gets the section at its end."""
    body = open(page, encoding="utf8").read()
    if (BEGIN in body) != (END in body):
        sys.exit("gate_times: %s has one of its two comments alone" % page)
    if BEGIN not in body:
        body = body.rstrip("\n") + "\n\n%s\n\n%s\n\n%s\n%s\n" % (HEADING, MADE, BEGIN, END)
    before, rest = body.split(BEGIN)
    after = rest.split(END)[1]
    with open(page, "w", encoding="utf8", newline="\n") as f:
        f.write("%s%s\n%s\n%s%s" % (before, BEGIN, text, END, after))


def main():
    parser = argparse.ArgumentParser(description=__doc__, formatter_class=argparse.RawDescriptionHelpFormatter)
    parser.add_argument("log")
    parser.add_argument("--write", action="store_true")
    parser.add_argument("--crates", default=os.path.join(ROOT, "crates.txt"))
    parser.add_argument("--page", default=os.path.join(ROOT, "docs/PERFORMANCE.md"))
    args = parser.parse_args()
    times = read(args.log)
    reason, text = unfit(times), table(times, levels(args.crates))
    if args.write and reason:
        sys.exit("gate_times: nothing is written, %s is not the log of a whole and green run of rt ci: %s" % (args.log, reason))
    if args.write:
        put(args.page, text)
        return
    print(text)
    if reason:
        print("gate_times: not the log of a whole and green run of rt ci: %s" % reason, file=sys.stderr)


if __name__ == "__main__":
    main()
