#!/bin/sh
# Puts wrong libraries in the place of the true one: the check must find each. Then one that is known to take 40,000 bytes, which must be measured as
# that. And code of which frames.py must tell the sum, or that it can't. It wants objcopy, objdump and ar, which come with a C compiler; about two
# minutes. The last line is N passed, 0 failed, and the status 0 exactly then.
set -eu
cd "$(dirname "$0")/.."
out=$PWD/target/stack-wrong
mkdir -p "$out"
tools/staticlib.sh > "$out/rt.log" 2>&1 || { tail -n 20 "$out/rt.log"; exit 1; }
passed=0 failed=0

# verdict STATUS WHAT SAID: counts it, and shows what the program said
verdict() {
    if [ "$1" -eq 0 ]; then passed=$((passed + 1)) word=passed; else failed=$((failed + 1)) word=FAILED; fi
    printf '%s: %s\n    it says: %s\n' "$word" "$2" "$3"
}

# library FRAME COUNT AFTER: the true reader called below COUNT frames of FRAME bytes, and what is done after it, or after the true UTF-8 check or writer
library() {
    rm -f "$out/libffi.a"
    objcopy --redefine-sym tarbucket_parse_source=true_parse_source --redefine-sym tarbucket_utf8_error=true_utf8_error \
        --redefine-sym tarbucket_write_source=true_write_source target/staticlib/libffi.a "$out/libffi.a"
    cc -O1 -Iinclude "-DFRAME=$1" "-DCOUNT=$2" "-DAFTER=$3" -Wno-unused-function -c stack/wrong/library.c -o "$out/wrong.o"
    ar r "$out/libffi.a" "$out/wrong.o"
    STATICLIB=$out cargo build --offline --release --quiet --manifest-path stack/Cargo.toml --target-dir "$out/target"
}

# found WHAT WORDS: the check ends with 1 and says these words; that it says FAILED is as it must be, so the word is not shown
found() {
    status=0 wrong=1
    "$out/target/release/stack" > "$out/log" || status=$?
    said=$(sed -n "s/^FAILED: \(.*$2.*\)/\1/p" "$out/log" | head -n 1)
    if [ "$status" -eq 1 ] && [ -n "$said" ]; then wrong=0; fi
    verdict "$wrong" "the check finds $1" "${said:-$(tail -n 1 "$out/log")}"
}

# frames WHAT ARCHIVE STATUS WORDS: frames.py ends so, and its last line, or the writer's sum, begins with these words
frames() {
    status=0 wrong=1
    python3 stack/frames.py "$2" > "$out/log" 2>&1 || status=$?
    said=$(tail -n 1 "$out/log")
    sum=$(grep -m 1 " bytes at most" "$out/log") || sum=
    case $sum in "$4"*) said=$sum ;; esac
    case $said in "$4"*) if [ "$status" -eq "$3" ]; then wrong=0; fi ;; esac
    verdict "$wrong" "frames.py, $1" "$said"
}

# code CASE STATUS WORDS: the same for a case of wrong/frames.s
code() {
    rm -f "$out/code.a"
    cc -c "-Wa,--defsym,$1=1" stack/wrong/frames.s -o "$out/code.o"
    ar rc "$out/code.a" "$out/code.o"
    frames "case $1" "$out/code.a" "$2" "$3"
}

# What is jumped to, called, taken and used: the sum, with the 32 bytes of the entry's arguments and 8 for each return address.
code conditional 0 "1,040 bytes at most"
code tail 0 "1,040 bytes at most"
code section 0 "240 bytes at most"
code linked 0 "560 bytes at most"
code minus 0 "176 bytes at most"
code lea 0 "120 bytes at most"
code late 0 "120 bytes at most"
code red 0 "168 bytes at most"
code table 0 "72 bytes at most"
# The writer's, with the 48 bytes of its arguments: 448 calls, 64 with another function between, 130.
code shares 0 "7,224 bytes at most"
code members 0 "1,592 bytes at most"
code blocks 0 "2,136 bytes at most"
# Where it can't be told.
entry=tarbucket_parse_source
code two 1 "$entry: 18: jmp    *%rax: jumps through tables at two depths"
code pointer 1 "$entry: 3: jmp    *%rax: where does it go?"
code overwritten 1 "$entry: a: jmp    *%rax: where does it go?"
code register 1 "$entry: 1: call   *%rax: where does it go?"
code leave 1 "$entry: 1: leave: not understood"
code based 1 "$entry: 1: mov    %rsp,%rbp: not understood"
code aligned 1 "$entry: 0: and    \$0xffffffffffffffc0,%rsp: not understood"
code half 1 "$entry: 0: push   %ax: not understood"
code depths 1 "$entry: 6: nop: the stack is 8 deep here, and 16 too"
code return 1 "$entry: 1: ret: the stack is 16 deep"
code kept 1 "$entry: 1: jmp    3 <big>: leaves the function, and the stack is 16 deep"
code middle 1 "$entry: 0: jmp    9 <big+0x7>: goes into the middle of a function"
code dead 1 "$entry: 1: mov    %rdi,%rax: nothing comes here"
code past 1 "$entry: 0: call   14 <small>: runs past the function's end"
code away 1 "elsewhere: not in the archive"
code alone 1 "tarbucket_utf8_error: not in the archive"
code within 1 "writer_expr::step: calls writer_expr::put_expr, maybe for a rule further behind"
code twice 1 "a::b: there are two functions of this name"

library 8 'pluses(src, src_len)' 0
found "a frame for each plus" "takes more than the 262,144 bytes of the stack"
frames "a frame for each plus" "$out/libffi.a" 1 "frames comes to itself with no level between"
library 500 'levels(src, src_len)' 0
found "500 bytes more for each level" "bytes, promised are"
library 8 0 1
found "14 for 13" "answered 14 .*, which must be 13"
library 8 0 3
found "a UTF-8 check that takes 66,000 bytes" "UTF-8 check.*bytes, promised are"
library 8 0 4
found "a UTF-8 check whose place is one late" "UTF-8 check.*answered 5 65537, which must be 5 65536"
library 8 0 5
found "a writer that takes 132,000 bytes" "written.*bytes, promised are 131,072"
library 8 0 6
found "a text that does not end its last line" "and its text has the answer"
library 8 0 7
found "18 for a short text" "answered 18 0, which must be a text"
library 8 0 8
found "another name in a text" "which must be itself"

# The Rust crate of a copy promises something else; its library is the true one.
rm -rf "$out/copy"
mkdir -p "$out/copy/bindings/rust"
cp -r include stack "$out/copy"
cp -r bindings/rust/src "$out/copy/bindings/rust"
promise() {
    sed "s/^pub const $1: usize = .*/pub const $1: usize = $2;/" bindings/rust/src/lib.rs > "$out/copy/bindings/rust/src/lib.rs"
    STATICLIB=$PWD/target/staticlib cargo build --offline --release --quiet --manifest-path "$out/copy/stack/Cargo.toml" --target-dir "$out/target"
}
promise STACK 32768
found "another promise in Rust" "the Rust crate promises 32,768 bytes"
promise WRITE_STACK 65536
found "another promise of the writer in Rust" "the Rust crate promises 65,536 bytes"

# A row's deepest call is its seventh field between bars.
library 8 0 2
"$out/target/release/stack" > "$out/log" || true
taken=$(awk -F ' *[|] *' '$2 == "sums" { gsub(",", "", $7); print $7 }' "$out/log")
if [ "$taken" -ge 40000 ] && [ "$taken" -le 40200 ]; then wrong=0; else wrong=1; fi
verdict "$wrong" "the check measures 40,000 bytes below the library's frame" "$taken bytes below the caller's frame"

echo "$passed passed, $failed failed"
[ "$failed" -eq 0 ]
