#!/usr/bin/env bash
# Builds the callers in C and Rust with the engine's static library, runs them and compares what they print. Before
# that each of their tests must fail with a library that refuses everything (tools/compare/refuses.c), and the wrapper's
# build must say what to run where there is no library. The library is built first, unless DIMINUREL_BUILT says that it
# is.
set -eu -o pipefail
cd "$(dirname "$0")/../.."
work=$(mktemp -d)
trap 'rm -rf "$work"' EXIT
compiler=(cc -std=c11 -Wall -Wextra -Werror -O2 -Iinclude)
fail() { echo "callers: $1"; exit 1; }

# Builds the program callers/c/$1.c with the library in the folder $2.
built() { "${compiler[@]}" "callers/c/$1.c" "$2/libdiminurel.a" -o "$work/$1"; }

# Whether it prints what stands beside it, in a folder of its own, since it may keep files.
as_expected() {
    rm -rf "$work/host"
    mkdir "$work/host"
    (cd "$work/host" && "$work/$1") | diff "callers/c/$1.out" -
}

# Runs cargo's command $2.. in the wrapper with the library in the folder $1.
wrapper() { (cd callers/rust && DIMINUREL_LIB=$1 cargo "${@:2}" --quiet --offline --release); }

export CARGO_TARGET_DIR="$work/rust"
if wrapper "$work" build 2> "$work/said"; then fail "the wrapper is built without a library"; fi
grep -q 'tools/build.sh diminurel' "$work/said" || fail "the wrapper's build does not say what to run"
"${compiler[@]}" -c tools/compare/refuses.c -o "$work/refuses.o"
ar rcs "$work/libdiminurel.a" "$work/refuses.o"
for each in example any_bytes; do
    built "$each" "$work"
    if as_expected "$each" > /dev/null; then fail "$each.c passes with a library that refuses everything"; fi
done
wrapper "$work" test --no-run
for each in any_bytes session; do
    if wrapper "$work" test --test "$each" "$each" > "$work/said" 2>&1 || ! grep -q '^test result: FAILED' "$work/said"
    then
        fail "$each.rs passes with a library that refuses everything"
    fi
done
unset CARGO_TARGET_DIR
echo "callers: their tests fail with a library that refuses everything"

[ -n "${DIMINUREL_BUILT:-}" ] || bash tools/build.sh diminurel
for each in example any_bytes; do
    built "$each" target/staticlib
    as_expected "$each"
done
echo "callers/c: as expected"
wrapper "$PWD/target/staticlib" test
