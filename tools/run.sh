#!/usr/bin/env bash
# Proves a program of the repository, links it and runs it on its own standard input, or on a script:
# tools/run.sh PROGRAM [SCRIPT]. Where crates are not proved yet it says beforehand how long that takes, and prints them
# as they pass. What the console answers is shown as a session.
set -eu -o pipefail
cd "$(dirname "$0")/.."
program=$1
script=${2:-crates/$1/stdin}
declare -A minutes=([console]=7 [case_vectors]=4)

# The program and the crates below it that nothing has been built of here.
unproved() {
    tac crates.txt | awk -F: -v program="$program" '
        BEGIN { need[program] }
        { sub(/ .*/, "", $1) }
        $1 in need { print $1; count = split($2, below, " "); for (i = 1; i <= count; i++) need[below[i]] }' |
        while read -r each; do
            [ -e "crates/$each/out/rlib/stamp" ] || [ -e "crates/$each/out/$each" ] || echo "$each"
        done
}

# A session: each line as it is typed, and under it what the console prints more once it has that line.
session() {
    local line number=0 printed=0 answers
    answers=$(mktemp)
    while IFS= read -r line; do
        number=$((number + 1))
        printf '%s\n' "$line"
        head -n "$number" "$script" | crates/console/out/console > "$answers"
        tail -n "+$((printed + 1))" "$answers" | sed 's/^/  /'
        printed=$(wc -l < "$answers")
    done < "$script"
    rm "$answers"
}

left=$(unproved | wc -l)
[ "$left" -eq 0 ] ||
    echo "$left crates are not proved here yet. All of them take some ${minutes[$program]} minutes on two cores."
bash tools/build.sh "$program"
echo
if [ "$program" = console ]; then session; else "crates/$program/out/$program" < "$script"; fi
