#!/bin/sh
# Builds the verified library and the driver, and sets the library's writer beside the plain one for a minute, or as the words given say
# (--seconds N, --count N, --seed S): the same slices to both, and each text to both readers and both writers again.
#     compare/write.sh --alone ..            the plain writer by itself: each text is read back, written again, and judged by its tokens
#     compare/write.sh --write [FILE ...]    number, length and text of each file or of standard input, by the plain writer
#     compare/write.sh --build               builds the driver and prints where it is
# --alone and --write don't ask the library, so the plain one takes its place. STATICLIB names the folder of another libffi.a; where it
# is target/plain, compare/plain.sh builds that.
set -eu
cd "$(dirname "$0")/.."
plain=$PWD/target/plain target=target/compare
case ${1:-} in
--alone | --write) STATICLIB=$plain ;;
esac
if [ -z "${STATICLIB:-}" ]; then
    tools/staticlib.sh >&2
    STATICLIB=$PWD/target/staticlib
elif [ "$STATICLIB" = "$plain" ]; then
    compare/plain.sh
    target=$plain/target
fi
export STATICLIB
cargo build --offline --release --quiet --manifest-path compare/Cargo.toml --target-dir "$target"
case ${1:-} in
--build)
    echo "$target/release/compare"
    exit
    ;;
--alone)
    shift
    set -- --written "$@"
    ;;
--write) ;;
*) set -- --writers "$@" ;;
esac
exec "$target/release/compare" "$@"
