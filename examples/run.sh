#!/bin/sh
# Builds the static library, the program, and the examples in C and Rust; runs all on the scripts of examples/ and on small ones. The examples' listings must
# be the program's output, and the two walks, the two checks of UTF-8 and the two standard texts the same, byte for byte; where the program refuses by 5, the
# checks do, at its place. A standard text must have the script's walk, places aside, and itself for its standard text; where there is none, the script is
# refused, or has a block with no statement.
#
#     examples/run.sh
#
# It wants rt, cc (gcc or clang) and cargo, and no registry.
set -eu
cd "$(dirname "$0")/.."
tools/staticlib.sh >/dev/null
tools/program.sh >/dev/null
work=target/examples
rm -rf "$work"
mkdir -p "$work"
cargo build --quiet --offline --release --manifest-path bindings/rust/Cargo.toml --examples --target-dir target/cargo
for example in walk check write; do
    "${CC:-cc}" -std=c99 -Wall -Wextra -pedantic -O2 -Iinclude "examples/c/$example.c" target/staticlib/libffi.a -o "$work/${example}_c"
    cp "target/cargo/release/examples/$example" "$work/${example}_rust"
done

mkdir "$work/scripts"
scripts=$work/scripts
cp examples/*.pyh "$scripts"
: >"$scripts/empty"
printf 'a<b<c\n' >"$scripts/chain"
printf 'a-1' >"$scripts/signed"
printf -- '-1.5' >"$scripts/dot"
printf '1.e5' >"$scripts/attribute"
printf '()' >"$scripts/parentheses"
printf '())' >"$scripts/tuple"
printf '1,' >"$scripts/comma"
printf 'def f(): return 1,\n' >"$scripts/comma_returned"
printf 'a, = b,\n' >"$scripts/comma_assigned"
printf '(a),; (a,),; [a,], f(a,)\n' >"$scripts/commas"
printf '1,,' >"$scripts/two_commas"
printf 'x =' >"$scripts/cut"
printf 'x =\n' >"$scripts/missing"
printf 'class A:\n' >"$scripts/cut_class"
printf 'if a:\n  x =' >"$scripts/missing_in_block"
printf 'if a:\n  b' >"$scripts/no_newline"
printf 'if a:\n  b\nelif c:\n  d\nelse:\n  e\n' >"$scripts/branches"
printf 'if a:\n  ' >"$scripts/spaces_only"
printf '9223372036854775808' >"$scripts/int"
printf -- '-9223372036854775808' >"$scripts/least_int"
printf '\ta' >"$scripts/tab"
printf 'if a:\n   b\n' >"$scripts/too_far"
printf 'if a:\n  b\n c\n' >"$scripts/no_level"
printf '$' >"$scripts/no_token"
printf '1.0e24' >"$scripts/float"
printf '(0.10)' >"$scripts/spelling"
printf '0.10 = 2.5' >"$scripts/spelled_target"
printf '\352\261\260\353\246\254 = (1.50e+1), 007.5, 100.0, x.y(0.10)\n' >"$scripts/spellings"
printf 'a\303\251' >"$scripts/letter"
printf 'a\342\202\254' >"$scripts/euro"
printf '\302\267' >"$scripts/middle_dot"
printf 'e\314\201 = \303\251, \360\220\220\267\n' >"$scripts/composed"
printf '\377' >"$scripts/bytes"
printf 'aaaaaaaa = \355\240\200' >"$scripts/surrogate"
printf 'x = {"a": 1.5, "b\\n": t{1, 2}, 3: lambda a, b: -a * b}; y.z(1)[0], None\n' >"$scripts/values"
awk 'BEGIN { for (i = 0; i < 64; i++) printf "("; printf "a"; for (i = 0; i < 64; i++) printf ")" }' >"$scripts/deep"
awk 'BEGIN { for (i = 0; i < 62; i++) printf "a<("; printf "a"; for (i = 0; i < 62; i++) printf ")<a" }' >"$scripts/shared"
awk 'BEGIN { for (i = 0; i < 1023; i++) printf "a" }' >"$scripts/longest"
awk 'BEGIN { for (i = 0; i < 1024; i++) printf "a" }' >"$scripts/too_long"

# apart WALK: a walk without its places
apart() {
    sed 's/^\( *[0-9]* [A-Za-z]*\) [0-9]* [0-9]*/\1/' "$1"
}

# written NAME: what is wrong with a script's standard text, or with its refusal
written() {
    case "$(cat "$work/$1.status_c") $(head -c 3 "$work/$1.walk_c")" in
    "status 0 no ") echo "$1 is refused, and written" ;;
    "status 0 "*)
        "$work/walk_c" <"$work/$1.write_c" >"$work/$1.walk_back"
        apart "$work/$1.walk_c" >"$work/$1.apart"
        apart "$work/$1.walk_back" | cmp - "$work/$1.apart" || echo "$1: its text has another walk"
        "$work/write_c" <"$work/$1.write_c" | cmp - "$work/$1.write_c" || echo "$1: its text has another text"
        ;;
    "no 17 0 status 1 no "*) echo "$1 is refused, and its blocks are looked at" ;;
    "no 17 0 status 1 "*) ;;
    "$(cat "$work/$1.walk_c") status 1 no ") ;;
    *) echo "$1: $(cat "$work/$1.status_c")" ;;
    esac
}

count=0
for script in "$scripts"/*; do
    name=$(basename "$script")
    target/bin/tarbucket <"$script" >"$work/$name.program"
    for language in c rust; do
        "$work/walk_$language" --list "$script" >"$work/$name.list_$language"
        "$work/walk_$language" <"$script" >"$work/$name.walk_$language"
        "$work/check_$language" <"$script" >"$work/$name.check_$language"
        status=0
        "$work/write_$language" <"$script" >"$work/$name.write_$language" 2>"$work/$name.refusal" || status=$?
        echo $(cat "$work/$name.refusal") status $status >"$work/$name.status_$language"
        cmp "$work/$name.program" "$work/$name.list_$language"
    done
    cmp "$work/$name.walk_c" "$work/$name.walk_rust"
    cmp "$work/$name.check_c" "$work/$name.check_rust"
    cmp "$work/$name.write_c" "$work/$name.write_rust"
    cmp "$work/$name.status_c" "$work/$name.status_rust"
    said=$(written "$name")
    [ -z "$said" ] || { echo "$said" >&2 && exit 1; }
    read -r number place rounds <"$work/$name.check_c"
    case "$number $(cat "$work/$name.program")" in
    "5 no 5 $place" | "0 "[!n]* | "0 no "[!5]*) ;;
    *) echo "$name: the check says $number $place $rounds" >&2 && exit 1 ;;
    esac
    count=$((count + 1))
done
# 0.1's bits, and as it is written: the node's span has parentheses in the one, and is the whole Assign's in the other; a Tuple of one, whose span has the
# comma, and as a target the whole Assign's; a token that does not fit, a script that ends too early, and a line or block that lacks an expression at its end
for line in 'spelling:0 Float 0 6 3fb999999999999a 0\.10' 'spelled_target:0 Float 0 10 3fb999999999999a 0\.10' \
    'comma:1 Tuple 0 2' 'comma:0 Int 0 1 1' 'comma_returned:1 Tuple 16 18' 'comma_assigned:1 Tuple 0 7' 'comma_assigned:3 Tuple 5 7' \
    'two_commas:no 14 2' 'signed:no 14 1' 'parentheses:no 15 2' 'cut:no 15 3' 'cut_class:no 15 9' 'missing:no 16 3' 'missing_in_block:no 16 11'; do
    grep -qx " *${line#*:}" "$work/${line%%:*}.walk_c" || { echo "${line%%:*}: no line ${line#*:}" >&2 && exit 1; }
done
# standard texts, a bar for each line feed: a body of its own lines, tuples bare, a Float's spelling, a string's quotes
for line in 'branches:if a:|  b|elif c:|  d|else:|  e|' 'commas:a,|(a,),|[a], f(a)|' 'comma_assigned:a, = b,|' 'spelled_target:0.10 = 2.5|' 'empty:' 'tuple:())|' \
    'values:x = {"a": 1.5, "b\n": t{1, 2}, 3: lambda a, b: - a * b}|y.z(1)[0], None|' 'spaces_only:'; do
    text=$(tr '\n' '|' <"$work/${line%%:*}.write_c")
    [ "$text" = "${line#*:}" ] || { echo "${line%%:*} is written $text" >&2 && exit 1; }
done
grep -qx 'no 17 0 status 1' "$work/spaces_only.status_c" || { echo "spaces_only: $(cat "$work/spaces_only.status_c")" >&2 && exit 1; }
# with a header of another version than the library's the walk prints no tree
mkdir "$work/older"
sed 's/^#define TARBUCKET_VERSION .*/#define TARBUCKET_VERSION 1u/' include/tarbucket.h >"$work/older/tarbucket.h"
"${CC:-cc}" -std=c99 -I"$work/older" examples/c/walk.c target/staticlib/libffi.a -o "$work/walk_older"
status=0
"$work/walk_older" "$scripts/spelling" >"$work/older/walk" 2>&1 || status=$?
case "$status $(cat "$work/older/walk")" in
"2 the library is of another version than tarbucket.h") ;;
*) echo "a header of version 1: status $status, $(cat "$work/older/walk")" >&2 && exit 1 ;;
esac
head -n 12 "$work/kiosk.pyh.walk_c"
cat "$work/spelling.walk_c" "$work/values.write_c"
echo "examples: $count scripts, the same output from the program, C and Rust"
