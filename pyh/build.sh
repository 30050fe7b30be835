#!/bin/sh
# Proves the reader where that was not done yet, and builds target/cargo/release/pyh over its static library. It wants rt and cargo, and no registry.
set -eu
cd "$(dirname "$0")/.."
tools/staticlib.sh >/dev/null
cargo build --quiet --offline --release --manifest-path pyh/Cargo.toml --target-dir target/cargo
echo "built target/cargo/release/pyh" >&2
