"""Replays the stored cases of pyh: run.py PROGRAM [--write]. pyh/test.sh builds the program and calls this."""
import os
import sys
import tempfile
import traceback

import carets
import cuts
import floats
import known
import streams
import terminal
import texts
import transcripts

HERE = os.path.dirname(os.path.abspath(__file__))
CASES = os.path.join(os.path.dirname(HERE), "cases")


class Tally:
    """Counts what passed, and shows what did not."""

    def __init__(self, write):
        self.write = write
        self.passed = self.failed = 0

    def case(self, name, good, shown=""):
        if good:
            self.passed += 1
        else:
            self.failed += 1
            print("FAILED: %s\n%s" % (name, shown), flush=True)


def main():
    program, tally = os.path.abspath(sys.argv[1]), Tally("--write" in sys.argv[2:])
    with tempfile.TemporaryDirectory() as folder:
        # the program stands alone in a folder of its own, so that `pyh` is what is run
        bin = os.path.join(folder, "bin")
        os.mkdir(bin)
        os.symlink(program, os.path.join(bin, "pyh"))
        os.environ["PATH"] = bin + os.pathsep + os.environ["PATH"]
        for name in ("NO_COLOR", "COLUMNS"):
            os.environ.pop(name, None)
        os.environ.update(TERM="xterm-256color", LC_ALL="C.UTF-8")
        for part in (transcripts, known, floats, carets, cuts, texts, streams, terminal):
            work = os.path.join(folder, part.__name__)
            os.mkdir(work)
            try:
                part.run(CASES, work, tally)
            except Exception:
                tally.case(part.__name__, False, traceback.format_exc())
    print("%d passed, %d failed" % (tally.passed, tally.failed))
    return 1 if tally.failed else 0


sys.exit(main())
