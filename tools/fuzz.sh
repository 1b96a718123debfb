#!/usr/bin/env bash
# Compares the engine with the second implementation on random calls alone, for longer runs:
# tools/fuzz.sh [CALLS [SEED]].
# Without a seed the clock gives one. It is printed first, and repeats the run.
set -eu -o pipefail
cd "$(dirname "$0")/.."
bash tools/build.sh diminurel
export DIMINUREL_LIB="$PWD/target/staticlib"
cd reference
cargo build --quiet --offline --release --features engine --bin compare
exec target/release/compare fuzz "${1:-1000000}" ${2:+"$2"}
