#!/bin/sh
# Builds the static library and the driver, times all readers, bounds and writers over the same sources and the UTF-8 check over texts, and prints the tables. Under
# two minutes where the reader is proved already.
set -eu
cd "$(dirname "$0")/.."
tools/staticlib.sh
cargo build --offline --release --quiet --manifest-path bench/Cargo.toml --target-dir target/bench
exec target/bench/release/bench target/bench/sources
