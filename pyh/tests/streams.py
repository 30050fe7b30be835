"""What a transcript can't say: a pipe that no one reads any more, and whether the lines of help fit."""
import os
import subprocess


def run(cases, work, tally):
    bad = os.path.join(work, "bad.pyh")
    with open(bad, "w") as file:
        file.write("a b\n")
    many = os.path.join(work, "many")
    os.mkdir(many)
    for i in range(3000):
        with open(os.path.join(many, "%d.pyh" % i), "w") as file:
            file.write("a b\n")
    loose = os.path.join(work, "loose.pyh")
    with open(loose, "w") as file:
        file.write("a=1\n")
    for words, status in (
        (["show", bad], 1),
        (["show"] + [bad] * 3000, 1),
        (["check", bad], 1),
        (["check", many], 1),
        (["check", "--format", "short", many], 1),
        (["check", "--format", "json", many], 1),
        (["fmt"] + [loose] * 20000, 0),
        (["fmt", "--check", loose], 1),
        (["fmt", "--diff"] + [loose] * 3000, 0),
        (["--help"], 0),
        (["check", "--version"], 0),
    ):
        ended, err = closed(words, "stdout")
        tally.case("a closed pipe: pyh %s" % " ".join(map(os.path.basename, words[:4])), ended == status and b"panic" not in err, "%s %s" % (ended, err))
    for words in (["check", "no such file"], ["check", "--bad"], ["bad"], ["show", "no such file"], ["fmt", "no such file"]):
        ended, _ = closed(words, "stderr")
        tally.case("standard error closed: pyh %s" % " ".join(words), ended == 2, ended)
    for words in (["--help"], ["show", "--help"], ["check", "--help"], ["fmt", "--help"]):
        text = subprocess.run(["pyh"] + words, capture_output=True).stdout.decode()
        wide = [line for line in text.splitlines() if len(line) > 80]
        tally.case("80 columns: pyh %s" % " ".join(words), text and not wide, wide)


def closed(words, stream):
    """Status and standard error of a program whose stream goes into a pipe that no one reads."""
    reads, writes = os.pipe()
    os.close(reads)
    with subprocess.Popen(["pyh"] + words, stdin=subprocess.DEVNULL, **{"stdout": subprocess.PIPE, "stderr": subprocess.PIPE, stream: writes}) as process:
        os.close(writes)
        _, err = process.communicate(timeout=60)
        return process.returncode, err or b""
