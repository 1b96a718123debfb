#!/usr/bin/env bash
# The test command. Steps in order: the kit is the one that is pinned and the documents name what is there (tools/kit,
# tools/documents.sh); `rt ci`, with no bad edit; each edit was refused as it says (tools/edits.sh said); the comparison
# tests of tools/compare, which are named here. What rt counts, `N passed, 0 failed`, is the last line printed, and only
# where every step passed.
set -u -o pipefail
top=$(cd "$(dirname "$0")/.." && pwd)
comparisons=(callers.sh console.sh divides.sh engine.sh faults.sh library.sh numbers.sh)

# Runs the steps with the commands given: $1 looks at kit and documents, $2 proves, $3 reads of the edits in the log that
# it is handed, $4 compares. What $2 counts in its last line is kept for the end.
steps() {
    local log status last
    if ! "$1"; then
        echo "test: the kit or the documents are not as they should be"
        return 1
    fi
    log=$(mktemp)
    "$2" 2>&1 | tee "$log" | grep --line-buffered -E '^rt: |: error' | sed -uE 's/^(.{300}).*/\1/'
    status=${PIPESTATUS[0]}
    last=$(tail -n 1 "$log")
    if [ "$status" -ne 0 ] || ! [[ $last =~ ^[0-9]+\ passed,\ 0\ failed$ ]]; then
        tail -n 40 "$log"
        rm -f "$log"
        echo "test: the proofs failed (status $status)"
        return 1
    fi
    if ! is_ok "$log"; then
        rm -f "$log"
        echo "test: there are bad edits, or rt does not say how many edits it refused"
        return 1
    fi
    if ! "$3" "$log"; then
        rm -f "$log"
        echo "test: an edit was not refused as it says"
        return 1
    fi
    rm -f "$log"
    if ! "$4"; then
        echo "test: a comparison test failed"
        return 1
    fi
    echo "$last"
}

# Whether rt says in the log $1 that all is well, that edits were refused, and of none that it is bad.
is_ok() {
    local line
    line=$(grep '^rt: ok; ' "$1" | grep -oE 'must-fail edits: [^;]*') || return 1
    [[ $line =~ ^'must-fail edits: '[1-9][0-9]*' refused' && $line != *' bad'* ]]
}

# The kit $1 is the one that the file $2 pins.
same_kit() { [ "$1" = "$(cat "$2")" ] || { echo "test: the kit is '$1', and $2 pins '$(cat "$2")'"; return 1; }; }

look() { same_kit "$(rt version)" "$top/tools/kit" && bash "$top/tools/documents.sh"; }
prove() { (cd "$top" && rt ci); }
edits() { bash "$top/tools/edits.sh" said "$1"; }
archive() { bash "$top/tools/build.sh" "$1"; }
compare() { archive diminurel && archive case_numbers && compare_in "$top/tools/compare"; }

# Runs the comparison tests of the folder $1: just those that are named above, neither fewer nor more. They take the
# archives as they are; the longest runs beside the rest, and is printed after them.
compare_in() {
    local each there log other status=0
    there=$(cd "$1" && LC_ALL=C && echo *.sh)
    [ "$there" = "${comparisons[*]}" ] || { echo "test: $1 has $there, and not ${comparisons[*]}"; return 1; }
    log=$(mktemp)
    DIMINUREL_BUILT=yes bash "$1/engine.sh" >"$log" 2>&1 &
    other=$!
    for each in "${comparisons[@]}"; do
        [ "$each" != engine.sh ] || continue
        DIMINUREL_BUILT=yes bash "$1/$each" || { status=1; break; }
    done
    wait "$other" || status=1
    cat "$log"
    rm -f "$log"
    return $status
}

# The runner is tried with failing steps first: each must fail, and none may end in a line that reads as a pass.
ok() { echo "rt: ok; handles allowed: none; must-fail edits: $1; every proof was done in this run"; }
good() { ok '2 refused'; echo '1 passed, 0 failed'; }
some() { ok '2 refused'; echo '1 passed, 0 failed (c and the crates below alone: not the gate)'; }
bad_status() { good; return 1; }
bad_line() { ok '2 refused'; echo '1 passed, 1 failed'; }
bad_edit() { ok '2 refused, 1 bad'; echo '1 passed, 0 failed'; }
no_edit() { echo 'rt: ok; handles allowed: none; done in this run'; echo '1 passed, 0 failed'; }
not_ok() { echo '1 passed, 0 failed'; }
silent() { :; }
refuses() {
    local out
    if out=$(steps "$@"); then echo "test: the runner let $* pass"; exit 1; fi
    if [[ $(tail -n 1 <<<"$out") =~ passed,\ 0\ failed$ ]]; then
        echo "test: the runner reads as a pass on $*"
        exit 1
    fi
}
refuses false good true true
refuses true bad_status true true
refuses true bad_line true true
refuses true some true true
refuses true bad_edit true true
refuses true no_edit true true
refuses true not_ok true true
refuses true silent true true
refuses true good false true
refuses true good true false

# Comparison tests in a folder for trial: all there and passing; one missing; one failing; one too many; none at all.
trial=$(mktemp -d)
trap 'rm -rf "$trial"' EXIT
try() { compare_in "$trial"; }
fill() { local name; for name in "${comparisons[@]}"; do echo true > "$trial/$name"; done; }
fill
steps true good true try >/dev/null || { echo "test: the runner refuses passing comparisons"; exit 1; }
for each in "${comparisons[@]}"; do
    rm "$trial/$each"
    refuses true good true try
    echo false > "$trial/$each"
    refuses true good true try
    fill
done
echo true > "$trial/other.sh"
refuses true good true try
rm "$trial"/*
refuses true good true try
steps true good true true >/dev/null || { echo "test: the runner refuses a pass"; exit 1; }
if same_kit "another $(cat "$top/tools/kit")" "$top/tools/kit" >/dev/null; then
    echo "test: another kit is taken for the one that is pinned"
    exit 1
fi

steps look prove edits compare
