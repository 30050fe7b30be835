#!/bin/sh
# Counts instructions under valgrind, which no load changes: the mean of one source for each reader and bound, and what zeroing has of it; of the reader with the writer;
# then the mean of one text for each UTF-8 check. Wants bench/run.sh to have been run. `bench/instructions.sh utf8` prints the checks alone, `bench/instructions.sh writer`
# the writer's rows alone, `bench/instructions.sh profile` the reader's functions, `bench/instructions.sh profile writer` those of reader and writer.
set -eu
cd "$(dirname "$0")/.."
bench=target/bench/release/bench
out=target/bench/callgrind
mkdir -p "$out"

# The instructions of a side's one pass over a set.
count() {
    valgrind --tool=callgrind --callgrind-out-file="$out/$1.$2" --toggle-collect='pass_*' "$bench" "${3:---pass}" "$1" "$2" 1 >/dev/null 2>"$out/log"
    sed -n 's/^totals: //p' "$out/$1.$2" | grep .
}

# The instructions of a Python process that makes so many passes over a set.
python_count() {
    valgrind --tool=callgrind --callgrind-out-file="$out/python" "$python" bench/cpython.py "$out/sources/$1" "$2" >/dev/null 2>"$out/log"
    sed -n 's/^totals: //p' "$out/python" | grep .
}

# The table of the UTF-8 check alone: a row for each text, instructions per text and per byte of each side.
checks() {
    echo "| UTF-8 check | check, static library | per byte | plain Rust, one loop of rounds | per byte | std::str::from_utf8, no rounds | per byte |"
    echo "|---|---|---|---|---|---|---|"
    "$bench" --texts >"$out/texts"
    while read -r set texts bytes; do
        # not in the pipe, where a count that failed would not end the script
        counts=$(for side in 0 1 2; do count $side "$set"; done)
        echo "$counts" | awk -v row="| $set |" -v texts="$texts" -v bytes="$bytes" \
            '{ row = row sprintf(" %d | %.2f |", $1 / texts, $1 / bytes) } END { print row }'
    done <"$out/texts"
}

if [ "${1-}" = utf8 ]; then
    checks
    exit
fi
# The table of the writer: a row for each set, instructions per source of each side, and those of the writer alone, per byte of text.
writers() {
    echo "| writer | reader, static library | reader and writer | the same, 65,536 bytes lent | plain Rust, areas filled | and text | writer alone | per byte of text |"
    echo "|---|---|---|---|---|---|---|---|"
    "$bench" --written >"$out/written"
    while read -r set sources bytes; do
        counts=$(for side in 0 1 2 3 4; do count $side "$set" --pass-writer; done)
        echo "$counts" | awk -v row="| $set |" -v sources="$sources" -v bytes="$bytes" \
            '{ of[NR] = $1; row = row sprintf(" %d |", $1 / sources) } END { alone = of[2] - of[1]; print row sprintf(" %d | %.1f |", alone / sources, alone / bytes) }'
    done <"$out/written"
}

if [ "${1-}" = writer ]; then
    writers
    exit
fi
if [ "${1-}" = profile ]; then
    if [ "${2-}" = writer ]; then count 1 scripts --pass-writer >/dev/null; else count 0 scripts >/dev/null; fi
    exec callgrind_annotate "$out/$([ "${2-}" = writer ] && echo 1 || echo 0).scripts"
fi

python=$(python3 -c 'import sys; print(sys.executable)')
for set in scripts 1000 65536 korean; do
    folder=target/bench/sources/$set
    rm -rf "$out/sources/$set"
    mkdir -p "$out/sources/$set"
    cp -r "$folder" "$out/sources/$set/"
    bytes=$(cat "$folder"/*.py | wc -c)
    sources=$(ls "$folder" | wc -l)
    # where the count failed, so does the division
    row() { tenths=$(($2 * 10 / bytes)) && echo "| $set | $1 | $(($2 / sources)) | $((tenths / 10)).$((tenths % 10)) |"; }
    # The row of a side that zeroes the areas, and the row of memset's part.
    zeroing_rows() {
        row "$2" "$(count "$1" $set)"
        zeroing=$(callgrind_annotate --threshold=100 "$out/$1.$set" 2>/dev/null | sed -n 's/^ *\([0-9,]*\) .*memset.*/\1/p' | tr -d , | head -n 1)
        row "of that, memset, a byte counted as one" "${zeroing:-0}"
    }
    echo "| set | reader | instructions per source | per byte |"
    echo "|---|---|---|---|"
    zeroing_rows 0 "reader, static library"
    zeroing_rows 1 "bound: zeroing alone"
    zeroing_rows 2 "bound: zeroing, UTF-8 check, tokenizer in C"
    row "plain Rust, tree of Box and Vec" "$(count 3 $set)"
    row "plain Rust, and layout in records" "$(count 4 $set)"
    row "plain Rust, and areas filled" "$(count 5 $set)"
    row "CPython, ast only" "$(($(python_count $set 2) - $(python_count $set 1)))"
done
writers
checks
