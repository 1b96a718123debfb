#!/usr/bin/env bash
# Holds the must-fail edits to what they say: each wrong answer is refused, by the function or the law that is meant,
# and for a fact. rt refuses an edit as soon as anything in its crate is not proved, and says of each only where the
# first error is. An edit file says above each of its wrong answers, which are pairs of lines, one of
#   # FUNCTION at STEP: why      the function is refused; STEP, where it is given, says at which step of the proof
#   # law NAME: why              the definition, alone in its file, breaks this law, and not only what the law cites
#
#   tools/edits.sh said LOG         reads what `rt ci` printed: no edit is missing, bad, or refused by a limit of the
#                                   prover or a missing name alone, and where an edit of code tells what is refused
#                                   first, it is a function that the edit means. It tries itself first.
#   tools/edits.sh check [CRATE..]  checks each edit in a copy of the repository, where rt prints all errors, and holds
#                                   each wrong answer to its own refusal; a function that waits for one that it calls
#                                   is tried alone. It tries itself first, and prints last what the edits cost.
# TREE is the repository, this one unless told otherwise.
set -eu -o pipefail
export LC_ALL=C.UTF-8
top=${TREE:-$(cd "$(dirname "$0")/.." && pwd)}
work=$(mktemp -d)
trap 'rm -rf "$work"' EXIT
failed=0 answers=0 files=0

complain() { echo "edits: $crate/$label: $1"; failed=$((failed + 1)); }

# What the prover says where a proof does not fit the shape of what it is about; such an error shows no fact.
misfits='is checked against|was not admitted|was not checked|binders, but its type|that can be named from here'
misfits+='|[Uu]nknown name|not in scope|has no field|has no `|expects? [0-9]+ argument|is not a (function|record|`)'
is_misfit() { grep -qE "$misfits" <<<"$1"; }

# The first of the errors that is not only one of what is cited. It reads them all: where it stopped at the first, what
# writes them could be broken off, and that would count as finding none.
first_own() { grep -vE 'was not admitted|was not checked' | sed -n 1p; }

# Reads an edit file: kinds, names and the text of each wrong answer, which is the file's lines that are its own.
read_edit() {
    local line file='' n=-1
    kinds=() names=() texts=() headless=0
    while IFS= read -r line || [ -n "$line" ]; do
        case $line in
            '# law '*:*) n=$((n + 1)) kinds[n]=law names[n]=${line#'# law '} texts[n]=''; names[n]=${names[n]%%:*} ;;
            '# '*:*) [[ $line =~ ^'# '([a-z0-9_]+)(' at '|': ') ]] || continue
                n=$((n + 1)) kinds[n]=fn names[n]=${BASH_REMATCH[1]} texts[n]='' ;;
            'file: '*) file=$line ;;
            'old: '*) [ "$n" -ge 0 ] || { headless=1; continue; }
                texts[n]+="$file"$'\n'"$line"$'\n' ;;
            'new:'*) [ "$n" -lt 0 ] || texts[n]+="$line"$'\n' ;;
        esac
    done <"$1"
}

# The headings are in form.
hold_headings() {
    local n laws=0
    [ ${#kinds[@]} -gt 0 ] || complain "it names no function and no law"
    [ "$headless" -eq 0 ] || complain "a pair without a heading"
    for n in "${!kinds[@]}"; do
        [ -n "${texts[n]}" ] || complain "there is nothing under the heading of ${names[n]}"
        [ "${kinds[n]}" != law ] || laws=$((laws + 1))
    done
    [ "$laws" -eq 0 ] || [ ${#kinds[@]} -eq 1 ] || complain "an edit of a definition stands beside another"
    answers=$((answers + ${#kinds[@]}))
}

# --- what rt printed

# Holds the line of rt's log to the edit.
hold_line() {
    local line name said
    said=$(grep -F "rt: must-fail $crate/$label.edit: " "$log" || true)
    line=${said#"rt: must-fail $crate/$label.edit: "}
    case $line in
        '') complain "it was not tried"; return ;;
        'refused, as it must be (only because a proof file names'*) complain "no fact: ${line#*): }"; return ;;
        'refused, as it must be (only by a limit'*) complain "no verdict: ${line#*): }"; return ;;
        'refused, as it must be'*) ;;
        *) complain "$line"; return ;;
    esac
    if is_misfit "$line"; then complain "no fact: ${line#*: error: }"; fi
    [[ ${kinds[*]} != *law* && $line =~ proofs/(fn/)?([+]?[a-z0-9_]+)/ ]] || return 0
    for name in "${names[@]}"; do [ "${BASH_REMATCH[2]#+}" != "$name" ] || return 0; done
    complain "it means ${names[*]}, and first ${BASH_REMATCH[2]} is refused"
}

# A tree of one crate and one edit, whose headings are $1; its log is standard input.
forge() {
    rm -rf "$work/forged"
    mkdir -p "$work/forged/crates/c/must-fail"
    printf '%s\nfile: src/lib.rt\nold: a\nnew: b\n' "$1" >"$work/forged/crates/c/must-fail/e.edit"
    cat >"$work/forged/log"
}
held() { TREE=$work/forged bash "$0" held "$work/forged/log" >/dev/null; }
passes() { held || { echo "edits: the reader refuses: $1"; exit 1; }; }
finds() { if held; then echo "edits: the reader lets pass: $1"; exit 1; fi; }
try_lines() {
    local is='rt: must-fail c/e.edit: refused, as it must be'
    local of='rt: must-fail c/e.edit:'
    local at='./proofs/f/Proof.antt:1:11: error: `f_spec`: `search`: no proof of `x`'
    local law='./proofs/Laws.antt:1:1: error: `l`: the two types differ'
    forge '# f at returns: why' <<<"$is: $at"; passes 'a wrong answer that is refused'
    forge '# f: why' <<<"$is"; passes 'a wrong answer that is refused with no file'
    forge '# law l: why' <<<"$is: $law"; passes 'a law that is broken'
    forge '# law l: why' <<<"$is: ${law/Laws/g/Proof}"; passes 'a law that is broken where it is used'
    forge '# f: why' <<<"$is: ${at/proofs\/f/proofs\/fn\/f\/fold}"; passes 'a closure of the function'
    forge '# g: why' <<<"$is: $at"; finds 'another function'
    forge '# g: why' <<<"$is: ${at/proofs\/f/proofs\/fn\/f\/fold}"; finds 'a closure of another function'
    forge '# f: why' <<<"$is: ${at/no proof of/is checked against}"; finds 'a misfit of shape'
    forge '# f: why' <<<"$is (only because a proof file names what is gone): $at"; finds 'a missing name'
    forge '# f: why' <<<"$is (only by a limit of the prover): $at"; finds 'a limit'
    forge '# f: why' <<<"$of NOT REFUSED: the crate is still proved"; finds 'one that is still proved'
    forge '# f: why' <<<"$of BAD EDIT: it changes nothing"; finds 'a bad edit'
    forge '# f: why' <<<"${is/e.edit/other.edit}: $at"; finds 'an edit that was not tried'
    forge '# why' <<<"$is: $at"; finds 'no heading'
    forge $'# f: why\n# g: why' <<<"$is: $at"; finds 'a heading over nothing'
    forge $'# law l: why\nfile: specs/S.antt\nold: c\nnew: d\n# f: why' <<<"$is: $at"
    finds 'a definition beside another'
}

# --- what a check says

# The function $1 is refused by itself. It answers 2 where the check waits for a function that it calls.
holds_function() {
    local verdict error
    verdict=$(grep -m 1 "^fn $crate::$1: " "$log") || { complain "the log has no function $1"; return 0; }
    case $verdict in
        *': proved'*) complain "$1 is still proved"; return 0 ;;
        *'`search` did not prove'* | *'must prove'*) return 0 ;;
        *': no proof: it calls '*) return 2 ;;
    esac
    error=$(grep -E "proofs/[+]?$1/[A-Za-z]+\.antt:[0-9]+:[0-9]+: error: " "$log" | first_own) || true
    [ -n "$error" ] || return 2
    if is_misfit "$error"; then complain "the proof of $1 does not fit its shape: ${error:0:200}"; fi
}

# The law $1 has an error of its own in the log, not only one of what it cites.
holds_law() {
    local error
    error=$(grep -F ": error: \`$1\`: " "$log" | first_own) || true
    [ -n "$error" ] ||
        { complain "the law $1 is not broken: $(grep -m 1 -o 'error: `[^`]*`.*' "$log" | cut -c1-120)"; return; }
    if is_misfit "$error"; then complain "no fact: ${error#*: error: }"; fi
}

# Of a forged log, standard input, the call $2 $3 must find that $1: the function or law is refused, the edit is wrong,
# or the function is to be tried alone.
finds_that() {
    local crate=c label=e log=$work/forged.log failed=0 status=0 found=refused
    cat >"$log"
    "$2" "$3" >/dev/null || status=$?
    if [ "$status" -eq 2 ]; then found=alone; elif [ "$failed" -gt 0 ]; then found=wrong; fi
    [ "$found" = "$1" ] || { echo "edits: $2 $3 finds it $found, and not $1, in: $(head -c 300 "$log")"; exit 1; }
}
try_checks() {
    local at='./proofs/f/Proof.antt:1:11: error: `f_spec`: `search`: no proof of `x`' not=$'\nfn c::f: not proved'
    local law='./proofs/Laws.antt:1:1: error: `l`: the two types differ' each
    finds_that refused holds_function f <<<"$at$not"
    finds_that refused holds_function f <<<"${at/Proof/Answers}$not"
    finds_that refused holds_function f <<<"${at/proofs\/f/proofs/+f}$not" # a function that calls itself
    finds_that refused holds_function f <<<'fn c::f: no proof: expected answers in f; `search` did not prove `returns`'
    finds_that refused holds_function f <<<"${at/no proof of/was not admitted}"$'\n'"$at$not"
    finds_that wrong holds_function f <<<"$at"$'\nfn c::f: proved'
    finds_that wrong holds_function f <<<"$at"$'\nfn c::g: not proved'
    finds_that wrong holds_function f <<<"${at/no proof of/is checked against}$not"
    finds_that wrong holds_function f <<<"${at/no proof of/has no field}$not"
    finds_that alone holds_function f <<<'fn c::f: no proof: it calls `c::g`, which is not proved'
    finds_that alone holds_function f <<<"${at/no proof of/was not admitted}$not"
    finds_that alone holds_function f <<<"${at//f/g}$not"
    finds_that refused holds_law l <<<"$law"
    finds_that wrong holds_law l <<<"${law/l/m}"
    finds_that wrong holds_law l <<<"${law/the two types differ/\`m\` was not admitted}"
    finds_that wrong holds_law l <<<"${law/the two types differ/\`m\` is not in scope}"
    # more errors than a pipe holds
    finds_that refused holds_function f < <(for each in {1..2000}; do echo "$at"; done; echo "$not")
    finds_that refused holds_law l < <(for each in {1..2000}; do echo "$law"; done)
}

# Applies pairs, standard input, to the copy of the crate; each old text must stand there once.
apply() {
    local line file='' old='' text rest
    while IFS= read -r line; do
        case $line in
            'file: '*) file=$copy/crates/$crate/${line#file: } ;;
            'old: '*) old=${line#old: } ;;
            'new:'*)
                line=${line#new:}
                text=$(cat "$file" && echo x)
                rest=${text#*"$old"}
                if [ "$rest" = "$text" ] || [ "$rest" != "${rest#*"$old"}" ]; then return 1; fi
                text=${text%%"$old"*}${line# }$rest
                printf '%s' "${text%x}" >"$file" ;;
        esac
    done
}

# Checks the copy with these pairs in it, and takes them back. What rt prints goes to the log.
checked() {
    local part status=0
    if apply; then
        (cd "$copy/crates/$crate" && rt check --jobs 1) >"$log" 2>&1 || status=$?
        [ "$status" -eq 1 ] && grep -q '^logic=not-proved' "$log" ||
            { complain "the check ended with status $status and no verdict: $(tail -n 1 "$log")"; status=0; }
    else
        complain "an old text does not stand once"
    fi
    for part in src specs proofs; do
        [ ! -d "$top/crates/$crate/$part" ] || cp -r "$top/crates/$crate/$part" "$copy/crates/$crate/"
    done
    [ "$status" -eq 1 ]
}

# Tries the edits of the crate $1 in a copy of its own, since other crates stand on it, and prints their faults and a
# line of what they cost.
check_crate() {
    local edit n status alone start=$SECONDS
    crate=$1 label='' log=$work/log copy=$work/copy
    mkdir "$copy"
    tar -C "$top" --exclude='crates/*/out' -cf - crates crates.txt | tar -C "$copy" -xf -
    (cd "$copy/crates/$crate" && rt check --jobs 1) >"$log" 2>&1 || { complain "it is not proved as it stands"; exit; }
    for edit in "$top/crates/$crate"/must-fail/*.edit; do
        label=$(basename "$edit" .edit) files=$((files + 1)) alone=()
        read_edit "$edit"
        hold_headings
        checked < <(printf '%s' "${texts[@]}") || continue
        for n in "${!kinds[@]}"; do
            if [ "${kinds[n]}" = law ]; then holds_law "${names[n]}"; continue; fi
            status=0
            holds_function "${names[n]}" || status=$?
            [ "$status" -ne 2 ] || alone+=("$n")
        done
        for n in "${alone[@]}"; do
            checked < <(printf '%s' "${texts[n]}") || continue
            holds_function "${names[n]}" || complain "${names[n]} has no error of its own"
        done
    done
    echo "cost $crate $files $answers $failed $((SECONDS - start))"
}

case ${1:-} in
said | held)
    [ "$1" = held ] || try_lines
    log=$2
    for edit in "$top"/crates/*/must-fail/*.edit; do
        crate=$(basename "$(dirname "$(dirname "$edit")")") label=$(basename "$edit" .edit)
        files=$((files + 1))
        read_edit "$edit"
        hold_headings
        hold_line
    done
    [ "$files" -gt 0 ] || { echo "edits: none"; exit 1; }
    [ "$failed" -eq 0 ] || { echo "edits: $failed faults in $files edit files"; exit 1; }
    [ "$1" = held ] || echo "edits: $answers wrong answers in $files edit files, each file refused as it says" ;;
check-one) check_crate "$2" ;;
check)
    shift
    try_checks
    crates=("$@")
    [ $# -gt 0 ] || for each in "$top"/crates/*/must-fail; do crates+=("$(basename "$(dirname "$each")")"); done
    printf '%s\n' "${crates[@]}" |
        xargs -P "${EDIT_JOBS:-$(nproc)}" -I{} bash "$0" check-one {} |
        tee "$work/printed" | grep --line-buffered -v '^cost ' || true
    awk '$1 == "cost" { printf "%6d s %3d edits %s\n", $6, $3, $2; all += $6; files += $3 }
         END { printf "%6d s %3d edits all\n", all, files }' "$work/printed" | sort -rn
    awk '$1 == "cost" { files += $3; answers += $4; failed += $5 }
         END { printf "edits: %d wrong answers in %d edit files, %d faults\n", answers, files, failed }' "$work/printed"
    [ "$(grep -c '^cost ' "$work/printed")" -eq ${#crates[@]} ] || { echo "edits: some crates were not tried"; exit 1; }
    ! grep -q '^edits: ' "$work/printed" ;;
*) sed -n '2,14s/^# \{0,1\}//p' "$0"; exit 2 ;;
esac
