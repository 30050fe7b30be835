#!/bin/sh
# Builds the verified reader's static library and the driver, and compares for a minute (or as the words given say:
# --seconds N, --count N, --seed S).
set -eu
cd "$(dirname "$0")/.."
tools/staticlib.sh
cargo build --offline --release --quiet --manifest-path compare/Cargo.toml --target-dir target/compare
if [ $# -eq 0 ]; then set -- --seconds 60; fi
exec target/compare/release/compare "$@"
