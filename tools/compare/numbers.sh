#!/usr/bin/env bash
# Compares the engine's decimal writer, through the static library of crates/case_numbers, with the second
# implementation's, number by number; the program tries wrong writers first. Before that its build must say what to run
# where there is no library. The library is built first, unless DIMINUREL_BUILT says that it is.
set -eu -o pipefail
cd "$(dirname "$0")/../.."
work=$(mktemp -d)
trap 'rm -rf "$work"' EXIT

# Builds the program with the library in the folder $1.
built() { (cd reference && DIMINUREL_LIB=$1 cargo build --quiet --offline --release --features numbers --bin numbers); }

if CARGO_TARGET_DIR=$work/target built "$work" 2> "$work/said"; then
    echo "numbers: the program is built without a library"
    exit 1
fi
grep -q 'tools/build.sh case_numbers' "$work/said" || { echo "numbers: its build does not say what to run"; exit 1; }

[ -n "${DIMINUREL_BUILT:-}" ] || bash tools/build.sh case_numbers
built "$PWD/target/staticlib"
reference/target/release/numbers
