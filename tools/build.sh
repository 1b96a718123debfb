#!/usr/bin/env bash
# Proves a crate with those below it, and builds it: tools/build.sh CRATE. A program is then crates/CRATE/out/CRATE, and
# the static library of a crate whose functions C calls is target/staticlib/libCRATE.a. It prints each crate that it
# proves; one whose proof is kept is not shown.
set -eu -o pipefail
cd "$(dirname "$0")/.."
log=$(mktemp)
trap 'rm -f "$log"' EXIT
build() {
    cd "crates/$1" || return
    if [ -f src/main.rt ]; then rt run < /dev/null 2>&1; else rt lib 2>&1; fi
}
build "$1" | tee "$log" |
    awk '/^crate [a-z0-9_]+: / { crate = $2 } /^logic=proved / { print "build: " crate " " $2; fflush() }' || {
    tail -n 40 "$log"
    exit 1
}
if [ ! -f "crates/$1/src/main.rt" ]; then
    mkdir -p target/staticlib
    install -m 644 "crates/$1/out/lib$1.a" target/staticlib/
fi
