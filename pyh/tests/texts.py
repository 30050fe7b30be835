"""`pyh fmt` over scripts whose standard text is known by hand, those of tools/reference/write_cases, one by one and many in a row with comments and blank lines
between them: the text, which scripts differ from it, what a diff does, how many comments there are, what is left of a file. And what it refuses: each script of
crates/reader_cases as `pyh check` does, and blocks with no statement."""
import os
import random
import re
import stat
import subprocess
import sys

import cuts
import known

sys.path.append(os.path.join(os.path.dirname(os.path.abspath(__file__)), "../../tools/reference"))
import write_cases  # noqa: E402

JOINED = 100
OLD = 1000000000


def run(cases, work, tally):
    some = random.Random(1)
    texts = {**{text: text for _, text in write_cases.scripts()}, **dict(write_cases.scripts()), **dict(joined(some) for _ in range(JOINED))}
    texts = list(texts.items())
    differ = [k for k, (source, text) in enumerate(texts) if source != text]
    fill(work, "texts", [source for source, _ in texts])
    tally.case("texts: %d, of which %d differ" % (len(texts), len(differ)), len(texts) > 1500 and 100 < len(differ) < len(texts) - 100)
    printed(work, texts, tally)
    named = pyh(work, "--check", "texts")
    wrong = sorted(set(named.stdout.split()) ^ {path(k).encode() for k in differ})
    tally.case("texts: which differ", not wrong and named.returncode == 1, wrong[:5])
    patched(work, texts, differ, tally)
    left_for_comments(work, texts, tally)
    written(work, texts, differ, tally)
    refused(work, tally)
    hollow(work, tally)


def joined(some):
    """Sources in a row, at times with comments and blank lines between, and the texts in a row."""
    between = ["", "", "", "", "\n", "# comment\n", "  # 'a'\n\n"]
    # behind a class no blank line fits, and a carriage return that opens a line ends no block
    whole = [part for part in write_cases.STATEMENTS if "class" not in part[0] and not re.search("(^|\n)\r", part[0])]
    parts = [(source + "\n" + some.choice(between), text) for source, text in some.choices(whole, k=some.choice((5, 30, 200)))]
    standard = [(text, text) for _, text in some.choices(parts, k=len(parts))]
    some.shuffle(parts := parts[: len(parts) // 4] + standard)
    return tuple("".join(part).encode() for part in zip(*parts))


def path(k):
    return "texts/%04d.pyh" % k


def fill(work, folder, sources):
    os.mkdir(os.path.join(work, folder))
    for k, source in enumerate(sources):
        with open(os.path.join(work, folder, "%04d.pyh" % k), "wb") as file:
            file.write(source)


def pyh(work, *words, command="fmt"):
    return subprocess.run(["pyh", command] + list(words), cwd=work, capture_output=True, timeout=60)


def printed(work, texts, tally):
    done = pyh(work, "--drop-comments", "texts")
    good = done.stdout == b"".join(text for _, text in texts) and done.stderr == b"" and done.returncode == 0
    tally.case("texts: all of them, one behind the other", good, done.stderr[:500])


def patched(work, texts, differ, tally):
    """The diff of each script that differs, and of no other, makes its text of it, and has at most three lines around its changes."""
    parts = pyh(work, "--diff", "texts").stdout.split(b"--- texts/")[1:]
    wrong = [part[:200] for part, k in zip(parts, differ) if not part.startswith(b"%04d.pyh\n+++ texts/%04d.pyh\n" % (k, k))]
    several = 0
    for part, k in zip(parts, differ):
        hunks = re.split(rb"^(@@ .* @@)\n", part.split(b"\n", 2)[2], flags=re.M)[1:]
        several += len(hunks) > 2
        source, text = texts[k]
        if patch(source, hunks) != text or not all(map(is_near, hunks[1::2])):
            wrong.append((source[:200], part[:500]))
    good = len(parts) == len(differ) and several > JOINED // 4 and not wrong
    tally.case("texts: %d diffs, %d in several parts" % (len(parts), several), good, "\n".join(map(str, wrong[:3])))


def patch(source, hunks):
    """The source with what the hunks say; none where they do not fit it."""
    lines, out, at = source.splitlines(True) if b"\r" not in source else re.findall(rb"[^\n]*\n|[^\n]+", source), [], 0
    for head, body in zip(hunks[::2], hunks[1::2]):
        first, count, to, more = [int(n) if n else 1 for n in re.fullmatch(rb"@@ -(\d+)(?:,(\d+))? \+(\d+)(?:,(\d+))? @@", head).groups()]
        start = first - (count > 0)
        out += lines[at:start]
        body = re.findall(rb"[-+ ][^\n]*\n", body.replace(b"\n\\ No newline at end of file\n", b"\0\n"))
        old, new = ([line[1:].replace(b"\0\n", b"") for line in body if line[:1] in marks] for marks in (b" -", b" +"))
        # two parts with nothing between are one
        if lines[start : start + count] != old or len(new) != more or len(out) != to - (more > 0) or at == start > 0:
            return None
        out, at = out + new, start + count
    return b"".join(out + lines[at:])


def is_near(body):
    marks = re.sub(r"[-+]", "x", "".join(line[0] for line in body.decode().split("\n") if line and line[0] != "\\"))
    return re.fullmatch(r" {0,3}x(.*x)? {0,3}", marks) and " " * 7 not in marks


def left_for_comments(work, texts, tally):
    """In a copy, without --drop-comments: how many comments each has, and where the first is, as the tokens here have it."""
    fill(work, "copy", [source for source, _ in texts])
    done = pyh(work, "--write", "copy")
    said = dict(re.findall(r"pyh: copy/(\d+)\.pyh: not written, since it would lose (\d+ comments? \([^)]*\));", done.stderr.decode()))
    wanted = {}
    for k, (source, _) in enumerate(texts):
        source = source.decode()
        lines = [source.count("\n", 0, t.start()) + 1 for t in cuts.TOKEN.finditer(source) if t[0][0] == "#"]
        if lines:
            wanted["%04d" % k] = "1 comment (line %d)" % lines[0] if len(lines) == 1 else "%d comments (the first in line %d)" % (len(lines), lines[0])
    stored = [read(work, "copy", k) == (source if "%04d" % k in wanted else text) for k, (source, text) in enumerate(texts)]
    good = said == wanted and len(wanted) > JOINED // 2 and all(stored) and done.returncode == 1
    tally.case("texts: %d with comments" % len(wanted), good, sorted(set(said.items()) ^ set(wanted.items()))[:5])


def read(work, folder, k):
    with open(os.path.join(work, folder, "%04d.pyh" % k), "rb") as file:
        return file.read()


def written(work, texts, differ, tally):
    """Each file has its text, its mode and its owner; one that has the text already is as old as it was; no other file is there."""
    for k in range(len(texts)):
        name = os.path.join(work, path(k))
        os.chmod(name, (0o644, 0o600, 0o755, 0o664)[k % 4])
        if os.geteuid() == 0:
            os.chown(name, 1000 + k % 3, 2000 + k % 5)
        os.utime(name, (OLD, OLD))
    before = [os.stat(os.path.join(work, path(k))) for k in range(len(texts))]
    done = pyh(work, "--write", "--drop-comments", "texts")
    wrong = []
    for k, was in enumerate(before):
        now = os.stat(os.path.join(work, path(k)))
        kept = (now.st_uid, now.st_gid, stat.S_IMODE(now.st_mode)) == (was.st_uid, was.st_gid, stat.S_IMODE(was.st_mode))
        if read(work, "texts", k) != texts[k][1] or not kept or (now.st_mtime == OLD and now.st_ino == was.st_ino) != (k not in set(differ)):
            wrong.append(texts[k][0][:200])
    total = b"%d scripts read: %d in standard form, %d written, 0 refused\n" % (len(texts), len(texts) - len(differ), len(differ))
    tally.case("texts: written", not wrong and done.stderr == total and done.returncode == 0, "%s %s" % (done.stderr[:500], wrong[:5]))
    tally.case("texts: nothing beside them", len(os.listdir(os.path.join(work, "texts"))) == len(texts))
    again = pyh(work, "--check", "texts")
    tally.case("texts: none differs then", again.returncode == 0 and again.stdout == b"", again.stdout[:200])


def refused(work, tally):
    """What the reader refuses is told as `pyh check` does."""
    sources = sorted({source for source, number, _ in known.stored() if number})
    fill(work, "refused", sources)
    told, now = pyh(work, "refused", command="check"), pyh(work, "refused")
    good = now.stderr == told.stdout[: told.stdout.rindex(b"\n", 0, -1) + 1] and now.stdout == b"" and now.returncode == 1
    tally.case("texts: %d refusals" % len(sources), good and len(sources) > 1000, now.stderr[-500:])


def hollow(work, tally):
    """17, with the word that begins the line of the block's colon, or what the reader says of a script that is such a one but for a byte."""
    likely = [(source, 17) for source in write_cases.EMPTY] + write_cases.LIKE_EMPTY
    fill(work, "hollow", [source.encode() for source, _ in likely])
    wrong = []
    for k, (source, number) in enumerate(likely):
        done = pyh(work, "hollow/%04d.pyh" % k)
        said = re.search(rb"\(number (\d+)\)", done.stderr)
        header = len(source[: source.rindex(":")].split("\n")) if ":" in source else 0
        block = b"The block of `%s` (line %d) has no statement" % (re.search(r"\w+", source.split("\n")[header - 1])[0].encode(), header) if number == 17 else b""
        place = b": line %d, column %d " % (source.count("\n") + 1, len(source.split("\n")[-1]) + 1) if number == 17 else b""
        if (int(said[1]) if said else 0) != number or block not in done.stderr or place not in done.stderr or done.returncode != (number > 0):
            wrong.append("%r: %s" % (source, done.stderr))
    tally.case("texts: %d blocks with no statement, or nearly so" % len(likely), not wrong, "\n".join(wrong[:5]))
