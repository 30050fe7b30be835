#!/bin/sh
# Builds the plain reader and writer as a static library with the calls of the verified one, to be linked in its place: libffi.a.
#     compare/plain.sh [FROM TO]    FROM has src/ and wrong/; without words it is compare/, and TO is target/plain
set -eu
cd "$(dirname "$0")/.."
from=${1:-compare} to=${2:-target/plain}
mkdir -p "$to"
rustc --edition 2021 -O -A warnings -C metadata=wrong --crate-type rlib --crate-name plain "$from/src/lib.rs" -o "$to/libplain.rlib"
rustc --edition 2021 -O -C panic=abort --crate-type staticlib --crate-name ffi --extern plain="$to/libplain.rlib" "$from/wrong/library.rs" -o "$to/libffi.a"
