#!/usr/bin/env bash
# Compares the engine, through its static library, with the second implementation of reference/, call by call:
# tools/compare/engine.sh [calls [seed]]. The library is built first, unless DIMINUREL_BUILT says that it is.
set -eu -o pipefail
cd "$(dirname "$0")/../.."
[ -n "${DIMINUREL_BUILT:-}" ] || bash tools/build.sh diminurel
export DIMINUREL_LIB="$PWD/target/staticlib"
# The engine written for speed, which `make bench` measures by.
(cd bench && cargo test --quiet --offline --release --test agrees)
cd reference
cargo test --quiet --offline --release
cargo build --quiet --offline --release --features engine --bin compare
target/release/compare "$@"
