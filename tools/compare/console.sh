#!/usr/bin/env bash
# Compares a console with the second implementation's on scripts: tools/compare/console.sh PROGRAM SCRIPTS..
# What they print is compared as it is. A line `show` is handed in as a comment, since it is text for people. Without
# arguments the comparison tries itself, and then compares the console of crates/ on the repository's scripts and on
# random ones; what it prints on the former is held to their files, too. The console is built first, unless
# DIMINUREL_BUILT says that it is.
set -eu -o pipefail
top=$(cd "$(dirname "$0")/../.." && pwd)
(cd "$top/reference" && cargo build --quiet --offline --release --bin console --bin random_script)
export built="$top/reference/target/release"
work=$(mktemp -d)
trap 'rm -rf "$work"' EXIT

# What a console prints on a script.
printed() { LC_ALL=C sed 's/^show$/#/' "$2" | "$1"; }

compare() {
    local program=$1 script lines=0 answers=0
    shift
    for script; do
        printed "$built/console" "$script" > "$work/expected"
        printed "$program" "$script" > "$work/got" || { echo "$script: the program failed"; return 1; }
        diff --text "$work/expected" "$work/got" > "$work/difference" || {
            echo "$script: expected <, printed >"
            head -n 20 "$work/difference"
            return 1
        }
        lines=$((lines + $(wc -l < "$script")))
        answers=$((answers + $(wc -l < "$work/expected")))
    done
    echo "$# scripts of $lines lines: $answers lines printed, no difference"
}

if [ $# -gt 0 ]; then
    compare "$@"
    exit
fi

# A console that pipes the reference's answers through a command, on the repository's scripts.
changed() {
    printf '#!/bin/sh\n"$built/console" | %s\n' "$1" > "$work/console"
    chmod +x "$work/console"
    compare "$work/console" "$top"/scripts/*.txt
}
finds() { if changed "$1" > /dev/null; then echo "console: no difference found with $1"; exit 1; fi; }

changed cat
# A list in another sequence, one with a slot twice, and a card without its empty SGN, each with its checksum.
finds "sed 's/PA~PB~7FFA/PB~PA~8FBE/'"
finds "sed 's/PA~PB~7FFA/PA~PA~8FFA/'"
finds "sed 's/SGN;ULM1000;VND0;~A239/ULM1000;VND0;~578C/'"
# A key closed that is open, one open that is closed, and a mark beside a card of zeros left out.
finds "sed 's/^register 1 1 /register 1 0 /'"
finds "sed 's/^register 3 0 /register 3 1 /'"
finds "sed '/^register 2 1 0*\$/d'"
finds "sed '\$d'"
finds "sed '\$p'"
finds "sed 's/ yes\$/ no/'"
finds "sed 's/ ?\$/ ??/'"
finds "sed 's/^/ /'"
finds "{ cat; exit 1; }"
echo "console: the comparison finds wrong consoles"

program=$top/crates/console/out/console
[ -n "${DIMINUREL_BUILT:-}" ] || bash "$top/tools/build.sh" console
for script in "$top"/scripts/*.txt; do
    LC_ALL=C sed 's/^show$/#/' "$script" | "$program" |
        diff --text "${script%.txt}.out" - > "$work/difference" || {
        echo "$script: stored <, printed >"
        head -n 20 "$work/difference"
        exit 1
    }
done
echo "console: what it prints on the repository's scripts is what stands beside them"
for seed in $(seq 20); do "$built/random_script" "$seed" 3000 > "$work/random-$seed.txt"; done
compare "$program" "$top"/scripts/*.txt "$work"/random-*.txt
