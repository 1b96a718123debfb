#!/usr/bin/env bash
# Holds what a caller is handed to the engine: the header compiles without a warning in C and C++, and its static
# assertions find another layout; its refusals, and those of docs/REFUSALS.md, are those of crates/response_numbers;
# callers in C and C++ are built from the folder of `make lib`, whose version is the header's. Wrong copies of header
# and page are tried first.
set -eu -o pipefail
cd "$(dirname "$0")/../.."
work=$(mktemp -d)
trap 'rm -rf "$work"' EXIT
header=include/diminurel.h
page=docs/REFUSALS.md
warnings='-Wall -Wextra -Wpedantic -Werror'

# Whether the header $1 compiles alone, by each compiler that is there.
compiles() {
    local compiler
    for compiler in 'gcc -x c -std=c99' 'gcc -x c -std=c11' 'clang -x c -std=c99' 'clang -x c -std=c11' \
        'g++ -x c++ -std=c++11' 'g++ -x c++ -std=c++17' 'clang++ -x c++ -std=c++11' 'clang++ -x c++ -std=c++17'; do
        ! command -v "${compiler%% *}" > /dev/null ||
            $compiler $warnings -fsyntax-only -include "$1" /dev/null || return 1
    done
}

# The table of the refusals, a line each: number, name and form with its bytes.
table() {
    sed -nE 's/^ *Refusal::(\w+) => Entry\(([0-9]+), ReplyForm::(\w+)(\((.*)\))?\),$/\2 \1 \3 \5/p' \
        crates/response_numbers/src/lib.rt | sed -E "s/b'(.)'/\\1/; s/\\*b\"(..)\"/\\1/"
}

# The refusals by the names of the header, a line each: number, name, status and string, - where there is none.
refusals() {
    local number name form a
    while read -r number name form a; do
        name=$(sed -E 's/([a-z])([A-Z])/\1_\2/g' <<< "$name")
        case $form in
            Nothing) a='- -' ;;
            Status) a="$a -" ;;
            Numbered) a=$(printf 'EE KM.%02d' "$number") ;;
            Module) a="EE SM.3B.$a" ;;
        esac
        echo "$number DIMINUREL_REFUSED_${name^^} $a"
    done < <(table)
}

# The same of a header, without status and string, and of a page.
in_header() { sed -nE 's/^ *(DIMINUREL_REFUSED_\w+) = ([0-9]+).*/\2 \1/p' "$1"; }
on_page() { sed -nE 's/^\| ([0-9]+) `(\w+)` \| [^|]* \| (\S+) \| (\S+) \|.*/\1 \2 \3 \4/p' "$1"; }
same_header() { in_header "$1" | diff <(refusals | cut -d' ' -f1,2) -; }
same_page() { on_page "$1" | diff <(refusals) -; }

# A look must find what sed makes of a file.
finds() {
    sed -E "$3" "$2" > "$work/wrong.h"
    ! cmp -s "$2" "$work/wrong.h" || { echo "library: $3 changes nothing in $2"; exit 1; }
    if "$1" "$work/wrong.h" > "$work/out" 2>&1; then echo "library: $1 passes $2 with $3"; exit 1; fi
}
finds compiles $header 's/uint8_t state;/uint16_t state;/'
finds compiles $header 's/uint8_t mark;/uint16_t mark;/'
finds compiles $header '/uint8_t mark;/d'
finds compiles $header 's/(LOAD_REQUEST_MAX) 700/\1 699/'
finds compiles $header 's/^#define DIMINUREL_H$/&\n;/'
finds same_header $header 's/(_EXPIRED = )11/\112/'
finds same_header $header 's/_OTHER_TVP/_TVP/'
finds same_page $page 's/\| 27 \|/| 28 |/'
finds same_page $page 's/SM\.3B\.8/SM.3B.9/'
[ "$(refusals | wc -l)" -eq 21 ]
compiles $header
same_header $header
same_page $page
echo "library: header and page of refusals are the engine's"

bash tools/lib.sh "$work/built"
mv "$work/built" "$work/moved"
packages=$work/moved/lib/pkgconfig
version=$(sed -n 's/^Version: //p' "$packages/diminurel.pc")
grep -qxF "#define DIMINUREL_VERSION \"$version\"" $header
flags="-I$work/moved/include -L$work/moved/lib -ldiminurel"
if command -v pkg-config > /dev/null; then
    [ "$(PKG_CONFIG_PATH=$packages pkg-config --modversion diminurel)" = "$version" ]
    flags=$(PKG_CONFIG_PATH=$packages pkg-config --cflags --libs diminurel)
fi
cc -std=c11 $warnings callers/c/example.c $flags -o "$work/example"
mkdir "$work/host" # where it keeps its rows
(cd "$work/host" && ../example) | diff callers/c/example.out -
cat > "$work/empty.cc" << 'END'
#include <diminurel.h>
int main() {
    diminurel_slot slots[1] = {};
    diminurel_register registers[1] = {};
    return diminurel_usable(slots, 1, registers, 1, 1);
}
END
c++ -std=c++17 $warnings "$work/empty.cc" $flags -o "$work/empty"
"$work/empty"
echo "library: callers in C and C++ are built from the folder of make lib"
