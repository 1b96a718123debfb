#!/usr/bin/env bash
# Counts the definitions that a reader must read to know what is proved: the files that the contracts of the two entry
# points, the demands and what is said of SM?GL's list and of the supply group name reach by `use`, and the types of the
# code that they name. A line counts unless it is empty, a comment or part of a `use`. It prints the table of
# docs/TRUST.md; `tools/definitions.sh write` puts it there.
set -eu -o pipefail
export LC_ALL=C
cd "$(dirname "$0")/.."
# The contracts of the entry points; the statement of the demands, and how calls and rows are read for them; SM?GL's
# list; the supply group name.
roots=(crates/diminurel/src/lib.rt crates/demands/specs/Demands.antt crates/demands/specs/Screens.antt
    crates/demands/specs/GroupNames.antt crates/demands/specs/Vending.antt)

# What a file uses of the repository's definitions: a line "crate folder Module" or "crate folder declared.Type" each.
uses() {
    sed -nE 's/^(pub |ghost )?use Rattle\.([a-z0-9_]+)\.(specs|proofs)\.((declared\.)?[A-Za-z0-9]+).*/\2 \3 \4/p' "$1" |
        grep -v '^\(std\|core\) ' |
        sort -u
}

lines() {
    awk '/^(pub )?use / { inside = /{[^}]*$/; next }
         inside { if (/}/) inside = 0; next }
         /^ *(--.*)?$/ { next }
         { n++ }
         END { print n + 0 }' "$1"
}

# The lines of a struct or an enum that a crate declares.
type_lines() {
    cat "crates/$1"/src/*.rt |
        awk -v name="$2" '$1 == "pub" && $3 ~ "^" name "([^A-Za-z0-9_]|$)" && /(struct|enum)/ { on = 1 }
                          on && !/^ *\/\// { n++ } on && (/^}/ || /;$/) { on = 0 } END { print n + 0 }'
}

count() {
    local file crate folder item types=0 type_total=0 files=0 total=0 n
    local -A seen=() declared=()
    local todo=("${roots[@]}")
    while [ ${#todo[@]} -gt 0 ]; do
        file=${todo[-1]}
        unset 'todo[-1]'
        [ -z "${seen[$file]:-}" ] || continue
        [ -f "$file" ] || { echo "definitions: no $file" >&2; return 1; }
        seen[$file]=1
        while read -r crate folder item; do
            if [[ $item == declared.* ]]; then
                declared[$crate ${item#declared.}]=1
            else
                todo+=("crates/$crate/$folder/$item.antt")
            fi
        done < <(uses "$file")
    done
    printf '| definitions | lines |\n|---|---:|\n'
    while read -r file; do
        [[ $file == *.antt ]] || continue
        n=$(lines "$file")
        printf '| [%s](../%s) | %d |\n' "${file#crates/}" "$file" "$n"
        files=$((files + 1)) total=$((total + n))
    done < <(printf '%s\n' "${!seen[@]}" | sort)
    while read -r crate item; do
        n=$(type_lines "$crate" "$item")
        [ "$n" -gt 0 ] || { echo "definitions: crate $crate declares no $item" >&2; return 1; }
        types=$((types + 1)) type_total=$((type_total + n))
    done < <(printf '%s\n' "${!declared[@]}" | sort)
    printf '| all %d files | %d |\n' "$files" "$total"
    printf '| %d structs and enums of the code that they name | %d |\n' "$types" "$type_total"
}

if [ "${1:-}" = write ]; then
    table=$(count)
    page=$(mktemp)
    awk -v table="$table" '/^<!-- end -->$/ { on = 0 } !on { print } /^<!-- definitions -->$/ { print table; on = 1 }' \
        docs/TRUST.md > "$page"
    cat "$page" > docs/TRUST.md
    rm -f "$page"
else
    count
fi
