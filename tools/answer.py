#!/usr/bin/env python3
"""Fill the holes of a member's proof file from short answers.

    rt goals CRATE; tools/answer.py CRATE MEMBER ANSWERS

ANSWERS is a text: a line `need: NAME [unfolding f g ..]`, and below it, indented, the answer. In an answer `@thing` stands for the place
that binds `thing`, and `@start` for the start: `@unary .unary .ensures` is what the call of `unary` ensures. A line `use ..` is added to the file's head.
`need: *` answers every need that has no answer of its own. Run it in the repository's folder.
"""
import glob, re, sys

def load(crate, member):
    root = f"target/goals/{crate}/Rattle·{crate}·proofs/proofs"
    files = glob.glob(f"{root}/+*/Lts-{member}.antt") + glob.glob(f"{root}/{member}/Lts.antt")
    places, needs, cur, need = {}, {}, None, None
    for line in open(files[0]):
        m = re.match(r"^ +pub record (\S+) : Type", line)
        if m:
            cur = None if m.group(1).endswith("·own") else m.group(1)
            if cur: places[cur] = [None, None]
            continue
        m = re.match(r"^ +pub before : (\S+)", line)
        if m and cur:
            places[cur][0] = m.group(1); continue
        m = re.match(r"^ +pub (\S+) : \S+·own", line)
        if m and cur and places[cur][1] is None:
            places[cur][1] = m.group(1); continue
        m = re.match(r"^ +(Need-\S+) =(?: \(c : (\S+?)\) →)?", line)
        if m and m.group(2):
            needs[m.group(1)[5:]] = m.group(2); need = None; continue
        if m:
            need = m.group(1); continue
        m = re.match(r"^ +\(c : (\S+?)\) →", line)
        if m and need:
            needs[need[5:]] = m.group(1); need = None
    return places, needs

def main():
    crate, member, answers = sys.argv[1:]
    places, needs = load(crate, member)
    uses, ans, cur = [], {}, None
    for line in open(answers):
        line = line.rstrip("\n")
        if line.startswith("use "): uses.append(line)
        elif line.startswith("doc "): uses.insert(0, line)
        elif line.startswith("need: "):
            w = line[6:].split(" unfolding ")
            cur = w[0].strip(); ans[cur] = [w[1].strip() if len(w) > 1 else None, []]
        elif line.strip() and cur: ans[cur][1].append(line.strip())
    mod = "".join(w.capitalize() for w in member.split("_"))
    f = (glob.glob(f"crates/{crate}/proofs/+*/Proof/{mod}.antt") + [f"crates/{crate}/proofs/{member}/Proof.antt"])[0]
    out, lines, i = [], open(f).read().split("\n"), 0
    while i < len(lines):
        out.append(lines[i])
        m = re.match(r"^( *)(\S+) : (?:lts|tie)\.Need-(\S+)", lines[i])
        if m:
            ind, name = m.group(1), m.group(2)
            j = i + 1
            while not re.match(rf"^{ind}{re.escape(name)} c", lines[j]): j += 1
            head = re.match(rf"^({ind}{re.escape(name)} c(?: κs)?) =", lines[j]).group(1)
            k = j + 1
            while k < len(lines) and lines[k].strip(): k += 1
            a = ans.get(name) or (ans.get("*") if "?" in "\n".join(lines[j:k]) else None)
            if a is None:
                out += lines[i + 1:k]
            else:
                unf, body = a
                text = "\n".join(body)
                names = sorted(set(re.findall(r"@([A-Za-z0-9-]+)", text)))
                dist = {}
                p, d = needs[name], 0
                chain = []
                while p and p in places:
                    chain.append((places[p][1] if places[p][0] else "start", d))
                    p, d = places[p][0], d + 1
                for n in names:
                    c = [d for (t, d) in chain if t == n]
                    if not c: sys.exit(f"{member} {name}: no {n} among {[t for t, _ in chain]}")
                    dist[n] = c[0]
                lets, prev, pd = [], "c", 0
                for n in sorted(names, key=lambda n: dist[n]):
                    if dist[n] == 0:
                        text = re.sub(rf"@{re.escape(n)}(?![A-Za-z0-9-])", "c", text); continue
                    lets.append(f"let at-{n} = {prev}" + " .before" * (dist[n] - pd) + " in")
                    prev, pd = f"at-{n}", dist[n]
                text = re.sub(r"@([A-Za-z0-9-]+)", r"at-\1", text)
                body = lets + text.split("\n")
                if unf: out.append(f"{ind}unfolding {unf}")
                if len(body) == 1: out.append(f"{head} = {body[0]}")
                else: out += [f"{head} ="] + [f"{ind}    {b}" for b in body]
            i = k; continue
        i += 1
    text = "\n".join(out)
    for u in uses:
        if u.startswith("use ") and u not in text:
            text = text.replace("-- Assumes nothing.\n", "-- Assumes nothing.\n" + u + "\n", 1)
    open(f, "w").write(text)

main()
