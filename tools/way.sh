#!/usr/bin/env bash
# Prints how long the way of a request is: the functions that an SM?KL may reach, by crate, and the copies that an
# accepted request of each command makes on full tables. No figure fails it.
set -eu -o pipefail
cd "$(dirname "$0")/.."

# The functions, crate and name on a line each. What has a bracket after it is called, if it is a function. An arm of
# another command or another decision is left out, from its pattern to the next line that is not deeper.
reached() {
    awk -v ours='(Command::KL|Decision::Load)([^A-Za-z]|$)' '
        function declare(line) {
            sub(/.*fn /, "", line)
            sub(/[^a-z0-9_].*/, "", line)
            caller = crate "::" line
            calls[caller] = ""
        }
        function note_calls(line) {
            gsub(/::<[^<>]*>/, "", line)
            while (match(line, /[A-Za-z0-9_:.]+\(/)) {
                calls[caller] = calls[caller] " " substr(line, RSTART, RLENGTH - 1)
                line = substr(line, RSTART + RLENGTH)
            }
        }
        # What is called in a crate; a name alone, or after a module, is of that crate.
        function reach(crate, path,    name, called, count, i) {
            name = path
            sub(/.*::/, "", name)
            if (!(path in calls)) path = crate "::" name
            if (!(path in calls) || path in met) return
            met[path]
            crate = path
            sub(/::.*/, "", crate)
            print crate, name
            count = split(calls[path], called, " ")
            for (i = 1; i <= count; i++) reach(crate, called[i])
        }
        FNR == 1 { split(FILENAME, folders, "/"); crate = folders[2] }
        { sub(/\/\/.*/, "") }
        !NF { next }
        /^ *(pub )?(extern "C" )?fn / { declare($0) } # a method is indented
        { match($0, /[^ ]/); depth = RSTART }
        left_out && depth > left_out { next }
        !/^ *\| / { left_out = 0 } # a line that starts with a bar goes on with the pattern
        /^ *(Command|Decision)::/ { left_out = depth }
        $0 ~ ours { left_out = 0 }
        !left_out { note_calls($0) }
        END { reach("diminurel", "diminurel_handle") }
    ' crates/*/src/*.rt
}
reached | sort | awk '
    $1 != crate { printf "%s%s:", (crates++ ? "\n" : ""), $1 }
    { crate = $1; printf " %s", $2 }
    END { printf "\nSM?KL: %d functions in %d crates\n\n", NR, crates }'

# The calls of the C library in a copy of the static library go to functions of bench/ that count.
bash tools/build.sh diminurel
export DIMINUREL_LIB="$PWD/bench/target/counted"
mkdir -p "$DIMINUREL_LIB"
objcopy --redefine-sym memcpy=counted_memcpy --redefine-sym memmove=counted_memmove \
    --redefine-sym memset=counted_memset target/staticlib/libdiminurel.a "$DIMINUREL_LIB/libdiminurel.a"
cd bench
cargo build --quiet --offline --release --target-dir target/counted
target/counted/release/bench copies
