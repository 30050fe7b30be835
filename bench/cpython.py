"""Times CPython's parser to ast alone: cpython.py FOLDER PASSES, for each set FOLDER/NAME/*.py. Prints a set's name and its best pass in ns
of processor time, as the driver takes its own: a pass that is longer than a time slice would else count other programs too."""
import ast
import gc
import sys
from pathlib import Path
from time import thread_time_ns


def one_pass(sources):
    start = thread_time_ns()
    for source in sources:
        compile(source, "kiosk", "exec", ast.PyCF_ONLY_AST)
    return thread_time_ns() - start


def main():
    folder, passes = Path(sys.argv[1]), int(sys.argv[2])
    gc.disable()
    sets = {one.name: [path.read_text(encoding="utf8") for path in sorted(one.glob("*.py"))] for one in sorted(folder.iterdir())}
    # The sets take turns, so that load falls on all.
    times = [[one_pass(sources) for sources in sets.values()] for _ in range(passes)]
    for name, best in zip(sets, map(min, zip(*times))):
        print(name, best)


main()
