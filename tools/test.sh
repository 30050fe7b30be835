#!/bin/sh
# Tests the repository's own tools: the map is that of today, the table of the gate's time is right for a stored log, and the makers of the stored cases
# make them again, as do the makers of the tables of names and of widths. Each of these checks is shown to fail, on a copy in which it is not so. It wants
# Python 3.10 or newer; the tables are made again where the Unicode Character Database of their version is at hand (Debian's package unicode-data, or the
# folder UNICODE_DATA).
#
#     tools/test.sh        in about a minute
#     tools/test.sh all    makes the cases of reader_cases and writer_cases again too, which takes two minutes more
set -u
cd "$(dirname "$0")/.." || exit 2
export PYTHONDONTWRITEBYTECODE=1
work=$(mktemp -d)
trap 'rm -rf "$work"' EXIT
passed=0
failed=0

# The command succeeds; what it says is shown where it does not.
yes() { # NAME COMMAND ..
    name=$1
    shift
    if "$@" >"$work/said" 2>&1; then
        passed=$((passed + 1))
    else
        failed=$((failed + 1))
        echo "FAILED: $name"
        sed 's/^/    /' "$work/said"
    fi
}

# The command ends with status 1 and says this.
no() { # NAME WORDS COMMAND ..
    name=$1 words=$2
    shift 2
    "$@" >"$work/said" 2>&1
    status=$?
    if [ "$status" -eq 1 ] && grep -qF -- "$words" "$work/said"; then
        passed=$((passed + 1))
    else
        failed=$((failed + 1))
        echo "FAILED: $name: status $status, and not: $words"
        sed 's/^/    /' "$work/said"
    fi
}

# ---- the map, and copies of the repository in which it is not true
yes "docs/map.svg is the map of today" python3 tools/map.py --check
yes "no line of it runs through a box" python3 tools/map_faults.py

copy=$work/copy
begin() {
    rm -rf "$copy"
    mkdir -p "$copy/crates"
    cp -R tools docs crates.txt "$copy"
    for folder in */; do
        case $folder in crates/ | tools/ | docs/ | target/) ;; *) mkdir "$copy/$folder" ;; esac
    done
    for crate in crates/*/; do
        ln -s "$PWD/$crate" "$copy/${crate%/}"
    done
}
change() { # FILE SED
    sed "$2" "$copy/$1" >"$work/changed" && ! cmp -s "$work/changed" "$copy/$1" && cat "$work/changed" >"$copy/$1"
}
stale='docs/map.svg is not what tools/map.py draws now'
begin
yes "a copy has the same map" python3 "$copy/tools/map.py" --check
yes "a need more" change crates.txt 's/^printing: .*/& utf8/'
no "a need more is seen" "$stale" python3 "$copy/tools/map.py" --check
begin
yes "a room's other name" change crates.txt 's/^## Scanner/## The scanner/'
no "a room's other name is seen" "$stale" python3 "$copy/tools/map.py" --check
begin
rm "$copy/crates/token"
cp -R crates/token "$copy/crates"
echo '// one line more' >>"$copy/crates/token/src/lib.rt"
no "a line more is seen" "$stale" python3 "$copy/tools/map.py" --check
begin
mkdir -p "$copy/crates/unlisted/src"
no "a crate that is not listed" "crates.txt does not list crates/unlisted" python3 "$copy/tools/map.py" --check
begin
yes "a need upward" change crates.txt 's/^utf8: .*/& reader/'
no "a need upward is refused" "utf8, of the room 'Scanner', needs reader of the later room" python3 "$copy/tools/map.py"
begin
yes "a cycle" change crates.txt 's/^token:.*/token: lexer/'
no "a cycle is refused" "in a cycle through token" python3 "$copy/tools/map.py"
begin
mkdir "$copy/unlisted"
no "a folder in no room" "the folder unlisted/ is in no room of crates.txt" python3 "$copy/tools/map.py"
begin
mkdir -p "$copy/crates/later/src"
echo '// No code.' >"$copy/crates/later/src/lib.rt"
yes "a crate more" change crates.txt 's/^lexer: .*/&\
later: lexer utf8/'
yes "a crate more is drawn" python3 "$copy/tools/map.py"
yes "by its name" grep -q '>later</text>' "$copy/docs/map.svg"
yes "and no line runs through a box" python3 "$copy/tools/map_faults.py"
begin
yes "boxes that are laid too near" change tools/map_layout.py 's/(False, False): 20/(False, False): -40/'
no "boxes that touch are seen" "touch" python3 "$copy/tools/map_faults.py"

# ---- the table of the gate's time
data=tools/testdata
timed() { # LOG ..
    python3 tools/gate_times.py "$@" --crates "$data/gate_crates.txt" --page "$work/page.md"
}
between() { sed -n '/^<!-- gate times: begin/,/^<!-- gate times: end/p' "$work/page.md" | sed '1d;$d'; }
same_table() { timed "$1" >"$work/table.md" && diff "$data/gate.md" "$work/table.md"; }
written() {
    timed "$1" --write && between | diff "$data/gate.md" - || return 1
    head -n 1 "$work/page.md" | grep -qx '# A page' && [ "$(grep -c "^## Where the gate's time goes" "$work/page.md")" = 1 ]
}
echo '# A page' >"$work/page.md"
yes "the table of a stored log" same_table "$data/gate.log"
yes "it is written at a page's end" written "$data/gate.log"
yes "and then in its own place" written "$data/gate.log"
cp "$work/page.md" "$work/before.md"
sed '$d' "$data/gate.log" >"$work/cut.log"
no "a log that is cut" "its last line is not" timed "$work/cut.log" --write
sed 's/, 0 failed/, 2 failed/' "$data/gate.log" >"$work/red.log"
no "a gate that failed" "2 failed" timed "$work/red.log" --write
grep -v 'nothing_zeroed' "$data/gate.log" >"$work/lost.log"
no "an edit's line that is lost" "14 passed, and 13 were found" timed "$work/lost.log" --write
yes "a refusal leaves the page" cmp "$work/before.md" "$work/page.md"

# ---- the stored cases, made again
make_cases() { # CRATE
    mkdir -p "$work/$1/data" || return 1
    case $1 in
    python_cases) python3 compare/cpython.py --cases "$work/$1" || return 1 ;;
    *) python3 "tools/$1.py" "$work/$1" || return 1 ;;
    esac
    rmdir "$work/$1/data" 2>/dev/null || true
}
# The crate has each file that was made, and no other file of cases.
same_cases() { # CRATE
    [ -s "$work/$1/stdout" ] || return 1
    for part in args stdin stdout data; do
        if [ -e "$work/$1/$part" ] || [ -e "crates/$1/$part" ]; then diff -rq "$work/$1/$part" "crates/$1/$part" || return 1; fi
    done
}
for crate in leaf_cases scan_cases expr_cases python_cases ${1:+reader_cases writer_cases}; do
    yes "the cases of $crate are made" make_cases "$crate"
    yes "the cases of $crate" same_cases "$crate"
done
echo x >>"$work/expr_cases/stdin"
no "a case that is not the stored one" "differ" same_cases expr_cases
# U+A500 came with Unicode 5.1: no expected value is made of a character that the reference does not tell.
untold() { printf '\352\224\200' | python3 tools/reference/read.py; }
no "a character of which nothing is told" "Untold: U+A500" untold

# ---- the tables of names and of widths, made again
unicode=${UNICODE_DATA:-/usr/share/unicode}
make_tables() { # TOOL FOLDER NAME
    python3 "tools/$1.py" "$2" "$work/$3"
}
# The repository has each file that was made.
same_tables() { # NAME
    (cd "$work/$1" && find . -type f) >"$work/made" && [ -s "$work/made" ] || return 1
    while read -r file; do diff -q "$work/$1/$file" "$file" || return 1; done <"$work/made"
}
# A folder with the files of the database, one of them edited.
edit_unicode() { # FILE SED
    rm -rf "$work/unicode"
    mkdir -p "$work/unicode/extracted"
    for file in $files; do ln -s "$(realpath "$unicode/$file.txt")" "$work/unicode/$file.txt"; done
    rm "$work/unicode/$1.txt"
    sed "$2" "$unicode/$1.txt" >"$work/unicode/$1.txt" && ! cmp -s "$unicode/$1.txt" "$work/unicode/$1.txt"
}
files="DerivedCoreProperties EastAsianWidth PropList extracted/DerivedGeneralCategory"
version=$(sed -n '1s/.*Unicode Character Database, version \([0-9.]*[0-9]\)).*/\1/p' crates/xid/specs/Tables.antt)
lacks=
for file in $files; do
    head -n 1 "$unicode/$file.txt" 2>/dev/null | grep -qxF "# ${file#extracted/}-$version.txt" || lacks="$lacks $file.txt"
done
if [ "$lacks" ]; then
    echo "not tried: the tables of names and of widths, since $unicode lacks these files of Unicode $version:$lacks"
else
    yes "the tables of xid are made" make_tables xid "$unicode" tables
    yes "the tables of xid" same_tables tables
    yes "a code point more" edit_unicode DerivedCoreProperties 's/^0376\.\.0377/0376..0378/'
    no "a code point more than the file says" "XID_Start has 136323 code points, and the file says 136322" make_tables xid "$work/unicode" more
    yes "a code point more, and said" edit_unicode DerivedCoreProperties \
        's/^0376\.\.0377/0376..0378/; s/^\(# Total code points: \)136322$/\1136323/; s/^\(# Total code points: \)139463$/\1139464/'
    yes "another table is made" make_tables xid "$work/unicode" other
    no "a table that is not the stored one" "differ" same_tables other
    yes "the widths are made" make_tables widths "$unicode" widths
    yes "the widths" same_tables widths
    yes "a character that is not ignored" edit_unicode DerivedCoreProperties 's/^3164 .*; Default_Ignorable.*//'
    yes "other widths are made" make_tables widths "$work/unicode" narrow
    no "widths that are not the stored ones" "differ" same_tables narrow
    yes "a file of another version" edit_unicode PropList '1s/-.*/-15.1.0.txt/'
    no "a file of another version is refused" "PropList.txt is of version 15.1.0, and another file of $version" make_tables widths "$work/unicode" mixed
    yes "a property that is not there" edit_unicode PropList 's/.*; Prepended_Concatenation_Mark.*//'
    no "a property that is not there is missed" "PropList.txt lacks one of Prepended_Concatenation_Mark" make_tables widths "$work/unicode" lacking
fi

echo "$passed passed, $failed failed"
[ "$failed" -eq 0 ]
