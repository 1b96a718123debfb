#!/usr/bin/env bash
# Plants the faults of reference/faults.txt in copies of the second implementation, one at a time, and compares each copy
# with the engine: the fixed parts of the comparison must report a difference, or a broken sentence on marks where the
# fault is in those. tools/compare/faults.sh all (`make faults`) tries every fault; without an argument, in the gate,
# those with a star against the library as it stands.
set -eu -o pipefail
top=$(cd "$(dirname "$0")/../.." && pwd)
every=${1:-}
if [ -n "$every" ]; then bash "$top/tools/build.sh" diminurel; fi
export DIMINUREL_LIB="$top/target/staticlib"
work=$(mktemp -d)
trap 'rm -rf "$work"' EXIT
export CARGO_TARGET_DIR="$work/target" CARGO_PROFILE_DEV_DEBUG=0
mkdir "$work/reference" "$work/callers"
cp -r "$top"/reference/{src,Cargo.toml,Cargo.lock} "$work/reference"
cp -r "$top/callers/rust" "$work/callers"

# Builds the copy and compares its fixed parts; what that prints goes to a file.
compare() {
    (cd "$work/reference" && cargo build --quiet --offline --features engine --bin compare) 2> "$work/built" || {
        cat "$work/built"
        echo "faults: $1: the copy does not compile"
        exit 1
    }
    RUST_BACKTRACE=0 "$work/target/debug/compare" fixed > "$work/printed" 2>&1
}

# Puts $3 in place of $2, which must stand once in the file $1.
plant() {
    local text rest
    text=$(cat "$top/reference/src/$1" && echo x)
    rest=${text#*"$2"}
    if [ "$rest" = "$text" ] || [ "$rest" != "${rest#*"$2"}" ]; then
        echo "faults: '$2' does not stand once in $1"
        exit 1
    fi
    text=${text%%"$2"*}$3$rest
    printf '%s' "${text%x}" > "$work/reference/src/$1"
}

# It is tried first with texts that stand nowhere and twice.
for text in 'no such text' 'fn '; do
    if (plant text.rs "$text" x > /dev/null); then echo "faults: '$text' is taken for a text that stands once"; exit 1; fi
done

# Plants a fault, compares, and takes it back.
tried=0
try() {
    local start=$EPOCHREALTIME report='^difference (in|after) call '
    [ "$2" != marks.rs ] || report='^marks, after [0-9]+ requests: '
    plant "$2" "$3" "$4"
    if compare "$1" || ! grep -q -E "$report" "$work/printed"; then
        head -n 3 "$work/printed"
        echo "faults: $1: not reported"
        exit 1
    fi
    awk -v start="$start" -v end="$EPOCHREALTIME" -v name="$1" '
        /^difference / { printf "%5.1f s, call %7d: %s\n", end - start, $4, name; exit }
        /^marks, / { printf "%5.1f s, sentence %3d: %s\n", end - start, $5, name; exit }' "$work/printed"
    cp "$top/reference/src/$2" "$work/reference/src/$2"
    tried=$((tried + 1))
}

# Without a fault there is no difference, which in the gate the comparison itself has said already.
[ -z "$every" ] || compare 'no fault' || { head -n 3 "$work/printed"; exit 1; }
while IFS= read -r line; do
    case $line in
        name:*) name=${line#name: } ;;
        file:*) file=${line#file: } ;;
        old:*) old=${line#old: } ;;
        new:*) [ -z "$every" ] && [ "$name" = "${name#\* }" ] || try "$name" "$file" "$old" "${line#new: }" ;;
        '' | \#*) ;;
        *) echo "faults: a line in no form: $line"; exit 1 ;;
    esac
done < "$top/reference/faults.txt"
[ "$tried" -ge 12 ] || { echo "faults: only $tried tried"; exit 1; }
echo "faults: $tried planted, each reported"
