#!/usr/bin/env bash
# Holds the documents to the tree: tools/documents.sh [TREE]. Each must hold, of every document:
# - a relative link leads to a file or folder that is there;
# - names in backticks right after a link to an .antt or .rt file are declared in it;
# - a path in backticks is there, `crate::item` is declared in that crate, a name in backticks stands somewhere in the
#   tree, and `make WORD` is a command of the Makefile;
# - README.md lists, under "Where things are", every crate of crates.txt and no other;
# - the counts of docs/TRUST.md are those of tools/definitions.sh, and the kit that it names is that of tools/kit;
# - no line but a table's or a sample's is wider than 120 characters, and none of code and definitions (crates/*/src and
#   crates/*/specs).
# Without an argument it first tries itself: it must find what is wrong in broken copies of the documents.
set -eu -o pipefail
export LC_ALL=C.UTF-8 # its order of bytes for sort and comm, its characters for the width of a line
top=$(cd "$(dirname "$0")/.." && pwd)
work=$(mktemp -d)
trap 'rm -rf "$work"' EXIT
documents=(README.md CONTRIBUTING.md CHANGELOG.md 'docs/*.md' reference/README.md)
name='[A-Za-z][A-Za-z0-9_]*(-[A-Za-z0-9_]+)*'
width=120

# A document as one line, without its samples (lines set in by four columns after an empty one).
running() {
    awk '/^$/ { fresh = 1; print; next }
         fresh && /^    / { next }
         { fresh = 0; print }' "$1" | tr '\n' ' ' | sed -E 's/ +/ /g'
}

# The spans in backticks of a document, a line each.
spans() { running "$1" | grep -oE '`[^`]+`' | tr -d '`' | sort -u || true; }

# Whether a file declares a name.
declares() {
    case $1 in
        *.antt) grep -qE -- "^ *((pub|abbrev|unfoldable) )*((data|record) )?$2( .*)? :( |$)" "$1" ;;
        *) grep -qE -- "\b(fn|struct|enum|const|type) $2\b" "$1" ;;
    esac
}

# Whether a path is there, from the top, the document's folder or any crate's; a part in capitals alone stands for any
# name.
is_there() {
    local path
    path=$(sed -E ':a; s,(^|/)[A-Z]+(/|$),\1*\2,; ta' <<< "${1%%#*}")
    [[ $path != target/* ]] || return 0
    compgen -G "$path" > /dev/null || compgen -G "$2/$path" > /dev/null || compgen -G "crates/*/$path" > /dev/null
}

links() {
    local from path names each
    from=$(dirname "$1")
    while read -r path; do
        [[ $path == http* || $path == '#'* ]] || [ -e "$from/${path%%#*}" ] || echo "$1: no $path"
    done < <(running "$1" | grep -oE '\]\([^)]*\)' | sed 's/^](//; s/)$//' | sort -u || true)
    while IFS=')' read -r path names; do
        path=$from/${path#*\](}
        for each in $(tr -d '`,' <<< "${names// and / }"); do
            [ ! -f "$path" ] || declares "$path" "$each" || echo "$1: $path declares no $each"
        done
    done < <(running "$1" | grep -oE '\]\([^)]*\.(antt|rt)\)((,| and|, and)? `[^`/ ]+`)+' | sort -u || true)
}

# What a span in backticks names is there. The words of the tree are in $work/words, the names of its files in
# $work/files.
named() {
    local from span word crate
    from=$(dirname "$1")
    spans "$1" > "$work/spans"
    while read -r span; do
        for word in $span; do
            [[ ! $word =~ ^[A-Za-z.*][A-Za-z0-9_.*-]*/[A-Za-z0-9_.*/-]*$ ]] || is_there "${word%/}" "$from" ||
                echo "$1: no $word"
        done
        if [[ $span =~ ^make\ ([a-z]+) ]]; then
            grep -q "^${BASH_REMATCH[1]}:" Makefile || echo "$1: no command $span"
        elif [[ $span =~ ^([a-z0-9_]+)::([A-Za-z0-9_]+)$ && -d crates/${BASH_REMATCH[1]} ]]; then
            word=${BASH_REMATCH[2]}
            crate=${BASH_REMATCH[1]}
            cat "crates/$crate"/src/*.rt > "$work/crate.rt"
            declares "$work/crate.rt" "$word" || echo "$1: crate $crate declares no $word"
        fi
    done < <(grep -E '[/ :]' "$work/spans" || true)
    { grep -xE '[A-Za-z_]+\.(antt|rt|md|sh|rs|h)' "$work/spans" || true; } | comm -23 - "$work/files" |
        sed "s,^,$1: no file ,"
    { grep -xE "$name" "$work/spans" || true; } | comm -23 - "$work/words" |
        sed "s,^,$1: nothing in the tree is called ,"
}

crates() {
    sed '/^## Where things are$/,/^## /!d' README.md | grep -oE '`[a-z0-9_]+`' | tr -d '`' |
        sort -u > "$work/listed" || true
    sed -E '/^ *(#|$)/d; s/[ :].*//' crates.txt | sort > "$work/crates"
    comm -3 "$work/listed" "$work/crates" |
        sed -E 's/^\t(.*)/README.md: the crate \1 is not listed/; t; s/(.*)/README.md: no crate \1/'
}

counts() {
    bash tools/definitions.sh > "$work/counted"
    awk '/^<!-- definitions -->$/ { on = 1; next } /^<!-- end -->$/ { on = 0 } on' docs/TRUST.md |
        diff - "$work/counted" > "$work/difference" || {
        echo "docs/TRUST.md: stated <, counted by tools/definitions.sh >"
        cat "$work/difference"
    }
    grep -qF "\`$(cat tools/kit)\`" docs/TRUST.md || echo "docs/TRUST.md: the kit is $(cat tools/kit)"
}

wide() {
    awk '/^$/ { fresh = 1 }
         !/^$/ && !/^    / { fresh = 0 }
         !(fresh && /^    /) && !/^\|/ { print FILENAME ":" FNR ": " $0 }' "$1" |
        grep -E "^[^ ]+ .{$((width + 1))}" | sed -E "s/^([^ ]+) .*/\1 wider than $width characters/" || true
}

# The names of the tree's files, and all words of its files but the documents.
read_tree() {
    find . \( -name target -o -name out -o -name .git \) -prune -o -type f -print | sed 's,.*/,,' | sort -u > "$work/files"
    { LC_ALL=C grep -rohE "$name" --exclude-dir=target --exclude-dir=out --exclude='*.md' --exclude=documents.sh \
          crates crates.txt include callers reference bench tools scripts Makefile
      grep -oE "$name" "$work/files"; } | sort -u > "$work/words"
}

# Lines of code and of definitions that are wider than 120 characters.
wide_code() {
    grep -nE "^.{$((width + 1))}" crates/*/src/*.rt crates/*/specs/*.antt |
        sed -E "s/^([^:]*:[0-9]+):.*/\1: wider than $width characters/" || true
}

# Prints what is wrong with the documents $2.. of the tree $1, and fails if there is anything.
held() (
    cd "$1"
    shift
    { for each; do
          links "$each"
          named "$each"
          wide "$each"
      done
      crates
      counts
      wide_code; } > "$work/found"
    cat "$work/found"
    [ ! -s "$work/found" ]
)

if [ $# -gt 0 ]; then
    cd "$1"
    read_tree
    held . ${documents[@]}
    exit
fi
cd "$top"
read_tree

# A copy of the tree's documents with one of them edited by sed must be found wrong, in the words $3.
finds() {
    local each
    rm -rf "$work/copy"
    mkdir "$work/copy"
    for each in "$top"/*; do [[ $each == */target ]] || ln -s "$each" "$work/copy/"; done
    rm "$work/copy/${1%%/*}"
    cp -r "$top/${1%%/*}" "$work/copy/"
    sed -i -E "$2" "$work/copy/$1"
    ! cmp -s "$top/$1" "$work/copy/$1" || { echo "documents: $2 changes nothing in $1"; exit 1; }
    if held "$work/copy" "$1" > "$work/out" || ! grep -qE "$3" "$work/out"; then
        cat "$work/out"
        echo "documents: $1 with $2 is not found wrong"
        exit 1
    fi
}
finds docs/PROOFS.md '0,/\]\(\.\.\/crates/s//](..\/crate/' 'PROOFS.md: no \.\./crate/'
finds docs/PROOFS.md '0,/(\]\(\.\.\/crates\/[^)]*\.antt\) `)/s//\1no-/' '\.antt declares no no-'
finds docs/PROOFS.md '0,/(`[a-z0-9_]+::)/s//\1no_/' 'crate [a-z0-9_]+ declares no no_'
finds README.md '0,/^(- \*\*[^*]+\*\*: `)[a-z0-9_]+`/s//\1no_crate`/' 'the crate [a-z0-9_]+ is not listed'
finds README.md '0,/^(- \*\*[^*]+\*\*: `)[a-z0-9_]+`/s//\1no_crate`/' 'no crate no_crate'
finds README.md '0,/`make [a-z]/s//`make no/' 'no command make no'
finds README.md '0,/\]\(docs\//s//](docs\/no-/' 'README.md: no docs/no-'
finds README.md '0,/`scripts\/[a-z]/s//`scripts\/no-/' 'README.md: no scripts/no-'
finds docs/DECISIONS.md '0,/`([a-z]+_[a-z]+`)/s//`no_\1/' 'nothing in the tree is called no'
finds docs/DECISIONS.md '0,/^- /s//- once more the same, and once more the same, and once more the same, /' 'wider than'
finds docs/TRUST.md 's/^(\| all [0-9]+ files \| )/\11/' 'stated <, counted'
finds docs/TRUST.md "s/$(cat tools/kit)/& no/" 'the kit is'
finds crates/diminurel/src/lib.rt "1s/\$/$(printf 'x%.0s' {1..120})/" 'lib.rt:1: wider than 120'
echo "documents: broken ones are found"
held "$top" ${documents[@]}
echo "documents: what they name is there"
