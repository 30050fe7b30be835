#!/bin/sh
# Builds pyh and replays its stored cases (pyh/cases): each script through each command and format, each way to use it wrongly, and what it does on a
# terminal. Its last line is N passed, 0 failed.
#
#     pyh/test.sh            compares
#     pyh/test.sh --write    writes what is printed in place of the stored files: look at the change before it is kept
#
# It wants rt, cargo and Python 3.10 or newer, and no registry. PYH=FILE tests another program in its place.
set -eu
cd "$(dirname "$0")/.."
if [ -z "${PYH:-}" ]; then
    pyh/build.sh
    PYH=target/cargo/release/pyh
fi
exec env PYTHONDONTWRITEBYTECODE=1 python3 pyh/tests/run.py "$PYH" "$@"
