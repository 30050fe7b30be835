#!/usr/bin/env python3
"""Writes out the paths in a function's proof file: `@thing` becomes the path from `c` to what `thing` bound.

    rt goals CRATE && python3 tools/paths.py CRATE FUNCTION

In the answer of each need, `@call` becomes `c .before .before .call` with as many `.before` as lead there; `@args`, `@pre`, `@fits` and `@good`
are those of the function's entry. FUNCTION may have its module before it, as `line/level`.
"""
import glob
import os
import re
import sys

crate, fn = sys.argv[1:3]
root = os.path.dirname(os.path.dirname(os.path.abspath(__file__)))
lts = [p for p in glob.glob(os.path.join(root, "target/goals", crate, "**/Lts.antt"), recursive=True) if p.endswith("/" + fn + "/Lts.antt")][0]
proof = os.path.join(root, "crates", crate, "proofs", fn, "Proof.antt")
records, places, current, pending = {}, {}, None, None
for line in open(lts, encoding="utf8"):
    m = re.match(r"\s+pub record (\S+) : Type", line)
    if m:
        current = m.group(1)
        records.setdefault(current, {"fields": [], "before": None})
        continue
    m = re.match(r"\s+pub before : (\S+)", line)
    if m and current:
        records[current]["before"] = m.group(1)
        continue
    m = re.match(r"\s+pub ([^\s:]+) : ", line)
    if m and current:
        records[current]["fields"].append(m.group(1))
    m = re.match(r"\s+(Need-\S+) =(.*)", line)
    if m:
        pending, line = m.group(1), m.group(2)
    m = re.search(r"\(c : (\S+?)\)", line)
    if m and pending:
        places[pending[5:]] = m.group(1)
        pending = None


def paths(kind):
    out, prefix = {}, "c"
    while kind in records:
        for f in records[kind]["fields"]:
            out.setdefault(f, prefix + " ." + f)
        kind, prefix = records[kind]["before"], prefix + " .before"
    return out


out, need = [], None
for line in open(proof, encoding="utf8").read().split("\n"):
    m = re.match(r"(\S+) : tie\.Need-(\S+)", line)
    if m:
        need = paths(places[m.group(2)])
    m = re.match(r"\S+ : \(c : tie\.(\S+?)[ )]", line)
    if m:
        need = paths(m.group(1))

    def path(m):
        if m.group(1) not in need:
            sys.exit("%s: nothing bound %s; there is %s" % (line, m.group(1), " ".join(sorted(need))))
        return need[m.group(1)]

    out.append(re.sub(r"@([A-Za-z0-9][\w-]*)", path, line) if need and "@" in line else line)
open(proof, "w", encoding="utf8").write("\n".join(out))
