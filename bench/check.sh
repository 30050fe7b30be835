#!/bin/sh
# Times `pyh check` and `pyh fmt` over the scripts of all kiosks, 340 folders of 60, one script of each refused: the best of ten runs, by the wall's clock, for each
# format. The files were just written, so the system has them in memory. About a minute where the reader is proved already.
set -eu
cd "$(dirname "$0")/.."
pyh/build.sh
cargo build --offline --release --quiet --manifest-path bench/Cargo.toml --target-dir target/bench
kiosks=target/bench/kiosks
rm -rf "$kiosks"
target/bench/release/bench --kiosks "$kiosks"
# best WHAT STATUS COMMAND ..: the best of ten runs, each of which must end with the status
best() {
    what=$1 status=$2 best=
    shift 2
    for _ in 1 2 3 4 5 6 7 8 9 10; do
        ended=0
        start=$(date +%s%N)
        "$@" >target/bench/checked 2>&1 || ended=$?
        took=$((($(date +%s%N) - start) / 1000000))
        if [ "$ended" != "$status" ]; then
            echo "$what: status $ended, and not $status"
            exit 1
        fi
        if [ -z "$best" ] || [ "$took" -lt "$best" ]; then best=$took; fi
    done
    echo "$what: $best ms"
}
echo "$(find "$kiosks" -name '*.pyh' | wc -l) scripts, $(find "$kiosks" -name '*.pyh' -exec cat {} + | wc -c) bytes"
best "cat, which opens and reads them and no more" 0 find "$kiosks" -name '*.pyh' -exec cat {} +
for format in text short json; do
    best "pyh check --format $format" 1 target/cargo/release/pyh check --format "$format" "$kiosks"
    tail -n 1 target/bench/checked
done
best "pyh fmt --check" 1 target/cargo/release/pyh fmt --check "$kiosks"
tail -n 1 target/bench/checked
