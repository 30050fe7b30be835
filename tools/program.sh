#!/usr/bin/env bash
# Proves tarbucket and what stands below it, and puts the program at target/bin/tarbucket.
set -eu
cd "$(dirname "$0")/.."
(cd crates/tarbucket && rt run </dev/null >/dev/null)
mkdir -p target/bin
cp crates/tarbucket/out/tarbucket target/bin/tarbucket
