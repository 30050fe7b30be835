#!/bin/sh
# Builds the static library and the driver, and measures the stack of calls over many sources: status 0 exactly if each answer is right and none takes
# more than the header and the Rust crate promise. About a minute where the reader and the writer are proved already.
set -eu
cd "$(dirname "$0")/.."
mkdir -p target/stack
tools/staticlib.sh > target/stack/rt.log 2>&1 || { tail -n 20 target/stack/rt.log; exit 1; }
cargo build --offline --release --quiet --manifest-path stack/Cargo.toml --target-dir target/stack
exec target/stack/release/stack
