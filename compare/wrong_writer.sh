#!/bin/sh
# Wrong copies of the plain writer. Each must be found twice: by its check by itself (compare/write.sh --alone) in the plain writer's place, and by the right plain
# writer beside it (compare/write.sh) in the library's place. And wrong calls, which the latter must find.
set -eu
cd "$(dirname "$0")/.."
out=$PWD/target/wrong_writer
export CARGO_PROFILE_RELEASE_OPT_LEVEL=1 CARGO_PROFILE_RELEASE_DEBUG=0
compare/plain.sh
mkdir -p "$out"
rustc --edition 2021 -O --crate-type rlib --crate-name plain compare/src/lib.rs -o "$out/libplain.rlib"

# edited WHAT FILE EDIT: a copy of compare/ with the file, as seen from compare/src/writer, edited
edited() {
    rm -rf "$out/compare"
    mkdir -p "$out/compare"
    cp -r compare/src compare/wrong compare/build.rs compare/Cargo.toml compare/Cargo.lock "$out/compare"
    sed "$3" "compare/src/writer/$2" > "$out/compare/src/writer/$2"
    if cmp -s "compare/src/writer/$2" "$out/compare/src/writer/$2"; then
        echo "$1: the edit changes nothing"
        exit 1
    fi
}

# found WHAT HOW DRIVER MODE: the driver must show an input
found() {
    if "$3" "$4" --count 400000 > "$out/log" 2>&1 || ! grep -q '^input' "$out/log"; then
        echo "$1: NOT FOUND $2"
        exit 1
    fi
    printf '%s, %s: %s\n' "$1" "$2" "$(grep '^input' "$out/log" | cut -c 1-120)"
}

# The edited copy in the library's place, beside the right one.
beside() {
    compare/plain.sh "$out/compare" "$out/library"
    rustc --edition 2021 -C opt-level=1 --crate-name beside --extern plain="$out/libplain.rlib" -L native="$out/library" compare/src/driver/main.rs -o "$out/beside"
    found "$1" "as the library" "$out/beside" --writers
}

# wrong WHAT FILE EDIT: found by itself and beside the right one
wrong() {
    edited "$@"
    RUSTFLAGS=-Awarnings STATICLIB=$PWD/target/plain cargo build --offline --release --quiet --manifest-path "$out/compare/Cargo.toml" --target-dir "$out/target"
    found "$1" "by itself" "$out/target/release/compare" --written
    beside "$1"
}

# wrong_call WHAT EDIT: a wrong call around the right writer
wrong_call() {
    edited "$1" ../../wrong/library.rs "$2"
    beside "$1"
}

wrong "a step of four" statement.rs 's/STEP: u32 = 2/STEP: u32 = 4/'
wrong "a blank before a colon" statement.rs 's/"else:/"else :/'
wrong "two blanks before in" statement.rs 's/" in "/"  in "/'
wrong "no space around =" statement.rs 's/" = "/"="/'
wrong "a space before a def's parentheses" statement.rs 's/Just("(")/Just(" (")/'
wrong "a returned tuple in parentheses" statement.rs 's/Just("return "), Whole(p)/Just("return "), Part(p, Rule::E)/'
wrong "a target in parentheses" statement.rs 's/\[before, Whole(p), Just(" = ")/[before, Part(p, Rule::E), Just(" = ")/'
wrong "an else before the elifs" statement.rs 's/Lines(r, spaces), Lines(s, spaces)/Lines(s, spaces), Lines(r, spaces)/'
wrong "no line feed behind pass" statement.rs 's/"pass\\n"/"pass;"/'
wrong "no comma in a tuple of one" expression.rs 's/if alone { "," }/if alone { "" }/'
wrong "a comma behind every tuple" expression.rs 's/if alone { "," } else { "" }/","/'
wrong "the empty tuple as the Reference has it" expression.rs 's/"())"/"()"/'
wrong "the empty tuple bare" expression.rs 's/ if list != NONE => self.several/ => self.first(\&[Members(list)]), [kind::TUPLE, _, _, _, list, ..] => self.several/'
wrong "no space behind a comma" expression.rs 's/", "/","/'
wrong "no space behind a pair's colon" expression.rs 's/Part(p, Rule::E), Just(": ")/Part(p, Rule::E), Just(":")/'
wrong "a space before a lambda's colon" expression.rs 's/if p == NONE { "" } else { " " }/" "/'
wrong "no space behind a sign" expression.rs 's/"- "/"-"/'
wrong "an and that groups right" expression.rs 's/(Rule::A, Rule::A, Rule::C)/(Rule::A, Rule::C, Rule::A)/'
wrong "parentheses lost on the right of +" expression.rs 's/(Rule::S, Rule::S, Rule::P)/(Rule::S, Rule::S, Rule::S)/'
wrong "parentheses around an or on the left of or" expression.rs 's/(Rule::O, Rule::O, Rule::A)/(Rule::O, Rule::A, Rule::A)/'
wrong "a comparison compared without parentheses" expression.rs 's/(Rule::C, Rule::S, Rule::S)/(Rule::C, Rule::C, Rule::S)/'
wrong "not below comparison" expression.rs 's/kind::UNARY => self.*/kind::UNARY if p == 1 => self.first(\&[unary(p), Part(q, Rule::C)]), &/'
wrong "parentheses between signs" expression.rs 's/\[unary(p), Part(q, Rule::U)\]/[unary(p), Part(q, Rule::F)]/'
wrong "a sign before a postfix part" expression.rs 's/Part(p, Rule::F), Just("\.")/Part(p, Rule::U), Just(".")/'
wrong "a lambda called without parentheses" expression.rs 's/Part(p, Rule::F), Just("(")/Part(p, Rule::E), Just("(")/'
wrong "a chain as an and" expression.rs 's/=> right == left/=> false/'
wrong "a chain by kinds in place of the shared node" expression.rs 's/=> right == left/=> self.node(right)[0] == self.node(left)[0]/'
wrong "a chain of two comparisons at most" expression.rs 's/AND, _, last, _\] => last/AND, _, _, _] => first/'
wrong "a chain in parentheses behind and" expression.rs 's/is_chain(node) => Rule::C/is_chain(node) => Rule::A/'
wrong "the low half of an Int" expression.rs 's/u64::from(q) << 32 | //'
wrong "an Int with its sign lost" expression.rs 's/(bits as i64).to_string/(bits as i64).unsigned_abs().to_string/'
wrong "a Float by its value" expression.rs \
    's/kind::FLOAT => .*/kind::FLOAT => self.out.extend(format!("{:?}", f64::from_bits(u64::from(q) << 32 | u64::from(p))).bytes()),/'
wrong "a Float by its node's span" expression.rs 's/Source(r, s)/Source(self.node(node)[1], self.node(node)[2])/'
wrong "a backslash alone" expression.rs '/b.[\][\]. =>/d'
wrong "a carriage return as it is" expression.rs "/b'.r' =>/d"
wrong "a line feed as it is" expression.rs "/b'.n' =>/d"
wrong "an apostrophe escaped" expression.rs "s/byte => self.out.push(byte)/b'\\\\'' => self.out.extend(b\"\\\\\\\\'\"), &/"
wrong "single quotes" expression.rs "s/push(b'\"')/push(b'\\\\'')/"
wrong "a tree set as a set" expression.rs 's/"t{"/"{"/'
wrong "an empty else let through" mod.rs 's/kind::ELSE => p == NONE/kind::ELSE => false/'
wrong "a slice not zeroed" mod.rs 's/    out.fill(0);//'
wrong "a slice zeroed where the reader refuses" mod.rs 's/    let Answer { number, place, .. } = read/    out.fill(0);&/'
wrong "18 for a text that just fits" mod.rs 's/made.len() > out.len()/made.len() >= out.len()/'
wrong "18 with a length" mod.rs 's/number: TOO_LONG, \.\./number: TOO_LONG, length: made.len() as u32, ../'
wrong "texts beyond 65,536 bytes" mod.rs 's/ || made.len() > LONGEST//'
writes='/fn tarbucket_write_source/,/^}/'
wrong_call "an answer of six words taken for seven" "${writes}s/answer_len < 7/answer_len < 6/"
wrong_call "an eighth word written" "${writes}s/answer\[6\] = length;/& *answer.as_mut_ptr().add(7) = 5;/"
wrong_call "17 without the tree's counts" "${writes}s/answer\[2..6\].copy_from_slice(&counts)/answer[2..6].copy_from_slice(if number == 17 { \&[0; 4] } else { \&counts })/"
wrong_call "the tree zeroed by 18" "${writes}s/let answer = .*/& if number == 18 { tree.fill(0); }/"
wrong_call "a byte written behind the text's slice" "${writes}s/let answer = .*/& if number == 0 { *out.as_mut_ptr().add(out_len) = 5; }/"
wrong_call "the number of the reader returned" "${writes}s/^    number\$/    if number > 16 { 0 } else { number }/"
