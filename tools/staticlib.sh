#!/usr/bin/env bash
# Proves ffi and what stands below it, and writes the archive that C and Rust link: target/staticlib/libffi.a.
set -eu
cd "$(dirname "$0")/.."
(cd crates/ffi && rt lib)
mkdir -p target/staticlib
cp crates/ffi/out/libffi.a target/staticlib/libffi.a
