#!/usr/bin/env bash
# The module's processor has no divide instruction (document 02, N4). So what the entry points reach divides by powers
# of two alone, which are shifts: the source of their crates, whatever a compiler makes of it, and the compiled library,
# by an instruction, by a routine that another library has or by a multiplication with an inverse. The compiler makes
# one of these of a loop that subtracts a number it knows; which of them, depends on the processor. Wrong sources and
# libraries are tried first. The library is built before it is looked at, unless DIMINUREL_BUILT says that it is.
set -eu -o pipefail
export LC_ALL=C # the marks of a contract are bytes to every awk
cd "$(dirname "$0")/../.."
work=$(mktemp -d)
trap 'rm -rf "$work"' EXIT
fail() { echo "divides: $1"; exit 1; }

# The crates that the entry points of the tree $1 reach, a line each.
reached() {
    awk '
        function reach(crate,    below, count, i) {
            if (crate in met) return
            met[crate]
            print crate
            if (!(crate in depends)) { print "crates.txt has no crate " crate > "/dev/stderr"; bad = 1 }
            count = split(depends[crate], below, " ")
            for (i = 1; i <= count; i++) reach(below[i])
        }
        { sub(/#.*/, "") }
        split($0, parts, ":") == 2 { sub(/ .*/, "", parts[1]); depends[parts[1]] = parts[2] }
        END { reach("diminurel"); exit bad }' "$1/crates.txt"
}

# The files of their source; no crate is without.
sources() {
    local crate
    reached "$1" > "$work/reached" || return 1
    while read -r crate; do
        find "$1/crates/$crate/src" -name '*.rt' | sort | grep . ||
            { echo "the crate $crate has no source" >&2; return 1; }
    done < "$work/reached"
}

# Whether $1 is a literal of 64 bits and a power of two. The shell counts in 64 bits, and says nothing where a number
# has more: what it has read must be what is written.
is_power() {
    local digits=${1//_/} base=10 form=%u value
    if [[ $digits == 0x* ]]; then digits=${digits#0x} base=16 form=%x; fi
    digits=${digits,,}
    digits=${digits#"${digits%%[!0]*}"}
    [[ $digits =~ ^[0-9a-f]+$ ]] || return 1
    value=$(($base#$digits))
    [ "$(printf "$form" "$value")" = "$digits" ] && ((!(value & (value - 1))))
}

# Source without comments, contracts and texts, line by line.
plain() { awk -v plain=yes -f tools/compare/divides.awk "$@"; }

# Whether the name $2, by which is divided at the place $1, is a const parameter of the function there, whose parameters
# in angle brackets are all numbers, and each mention of that function in the source that is reached gives it a power of
# two. There must be one. The function starts its line and has not ended before the place, and nothing else in that file
# may have the name. What a pipe ends in reads all of it: where it stopped, what writes it could be broken off.
is_parameter() {
    local file=${1%:*} line=${1##*:} head name other calls call i n=-1
    local -a parameters arguments
    [[ $2 =~ ^[A-Z] ]] || return 1
    head=$(plain "$file" | sed -n "1,${line}p" | grep -E '\bfn [a-z]|^\}' | tail -n 1)
    [[ $head != *fn\ *fn\ * ]] || return 1
    [[ $head =~ ^(pub\ )?fn\ ([a-z0-9_]+)\<([^\>]*)\>\( ]] || return 1
    name=${BASH_REMATCH[2]}
    IFS=, read -ra parameters <<< "${BASH_REMATCH[3]}"
    for i in "${!parameters[@]}"; do
        [[ ${parameters[i]} =~ ^\ *const\ ([A-Z0-9_]+):\ u[a-z0-9]+$ ]] || return 1
        if [ "${BASH_REMATCH[1]}" = "$2" ]; then n=$i; fi
    done
    [ "$n" -ge 0 ] || return 1
    other="\b(const|static|as|let|mut|ref) +$2\b|\b$2 *:[^:]|[|,(] *$2 *[|,)]|\buse [^;]*(\b$2\b|\*)"
    [ "$(plain "$file" | sed -E 's/^(pub )?fn [a-z0-9_]+<[^>]*>//' | tr '\n' ' ' | grep -cE "$other")" = 0 ] || return 1
    calls=$(plain "${files[@]}" | sed -E "s/\bfn $name\b//" | grep -oE "\b$name\b(::<[^>]*>)?") || return 1
    while read -r call; do
        [[ $call =~ ::\<(.*)\>$ ]] || return 1
        IFS=, read -ra arguments <<< "${BASH_REMATCH[1]}"
        [ "${#arguments[@]}" -eq "${#parameters[@]}" ] && is_power "${arguments[n]// /}" || return 1
    done <<< "$calls"
}

# Prints each line of source that the entry points of the tree $1 reach and that divides by anything else, and fails if
# there is one.
sound_source() {
    local place literal files
    sources "$1" > "$work/sources" || return 1
    mapfile -t files < "$work/sources"
    awk -f tools/compare/divides.awk "${files[@]}" > "$work/divisions" || return 1
    while IFS=$'\t' read -r place literal; do
        is_power "$literal" || is_parameter "$place" "$literal" ||
            echo "$place: $(sed -n "${place##*:}s/^ *//p" "${place%:*}")"
    done < "$work/divisions" | uniq > "$work/found"
    cat "$work/found"
    [ ! -s "$work/found" ]
}

# Prints what divides in the archive $1, and fails if anything does, or if there is no instruction to look at. A routine
# is known by its name, whether the archive has it or another library.
sound_library() {
    objdump -d --no-show-raw-insn "$1" > "$work/code" || return 1
    nm -P "$1" > "$work/names" || return 1
    awk -v archive="$1" -v code="$work/code" '
        function report(what) { print archive ": " what; bad = 1 }
        FILENAME != code && $2 ~ /^[A-Za-z]$/ {
            if ($1 ~ /^__.*(div|mod|rem)|^\.?(u|s|l|ll|imax)?(div|rem)$|^(fmod|remainder|remquo)[fl]?$/)
                report("the routine " $1)
        }
        FILENAME == code && /^[0-9a-f]+ <.*>:$/ { place = $2 }
        FILENAME == code && /^ *[0-9a-f]+:\t/ {
            count++
            text = $0
            gsub(/<[^>]*>/, "", text) # names of functions
            sub(/^[^\t]*\t/, "", text)
            if (text ~ /div|^f?p?rem|^mod/) report(place $0)
            # An inverse: the high half of a product, a product with the inverse of ten, or a wide inverse of ten.
            if (text ~ /^i?mul[bwlq]? +[^,]*$|^mulx|^umul|^i?mul[bwlq]? +\$0x(c+d|6+7),|\$0x(ccc+d|666+7),/)
                report(place $0)
        }
        END { if (!count) report("no instruction"); exit bad }' "$work/code" "$work/names"
}

# A tree for trial: the entry points reach the crate below, which gets the source $1, and not the crate beside.
tree=$work/tree
source=$tree/crates/below/src/lib.rt
plant() {
    rm -rf "$tree"
    mkdir -p "$tree"/crates/{diminurel,below,beside}/src
    printf '%s\n' '# Layers' 'below:' 'diminurel staticlib: below # the entry points' 'beside: below' > "$tree/crates.txt"
    echo 'pub fn high(n: u64) -> u64 { n / 65536 }' > "$tree/crates/diminurel/src/lib.rt"
    echo 'pub fn tens(n: u64) -> u64 { n / 10 }' > "$tree/crates/beside/src/lib.rt"
    printf '%s\n' "$1" > "$source"
}

passes() {
    plant "$1"
    sound_source "$tree" > "$work/out" 2>&1 || { cat "$work/out"; fail "this source is found wrong: $1"; }
}

# The line $2 of the source $1 must be reported, or its last one, and nothing else.
finds() {
    local line
    plant "$1"
    line=${2:-$(wc -l < "$source")}
    if sound_source "$tree" > "$work/out" 2>&1 ||
        [ "$(cat "$work/out")" != "$source:$line: $(sed -n "${line}s/^ *//p" "$source")" ]; then
        cat "$work/out"
        fail "this source is not found wrong in line $line: $1"
    fi
}

wrong=(
    'n / 10' 'n/10' 'n % 10' 'n / SEVEN' 'n % m' 'n / (4)' 'n / 0' 'n / 0x30' 'n / 256 % 10' "n / b'@'"
    'n / 72057594037927937' 'n / 18446744073709551617' 'n % 0x10000000000000001'
    'n / 4u64' 'n / 0b11' 'n / 2_SEVEN' 'n / 4.pow(m)' 'n /= 3;' 'n %= 10;' 'n /= 4 + 3;'
    'u32::wrapping_div(n, 10)' 'n.checked_rem(10)' 'u64::rem_euclid(n, 10)' 'n.div_ceil (10)' 'n.is_multiple_of(10)'
    'Div::div(n, 8)' 'let f = u32::saturating_div;'
    "if b == b'/' { n / 10 }" "if b == b'\\'' { n / 10 }" "if b == b'\"' { n / 10 }"
    'put(b"//", n % 10)' 'put(b"\"%", n % 10)'
    $'    ensures { result ≡ n / 10\n    + n % 10 }\n    n / 10' $'ensures low { IfOk r { n } }\nn / 10'
    $'requires { text "}" }\nn / 10' 'ensures { n } n / 10' 'self.requires / { n }'
    $'ghost use Nat.{_+_,\n    _/_};\nn % 10' $'// a / b\nn / 10'
)
right=(
    'n / 256 % 256' 'n % 0x100' '(n / 0016) as u16' 'n / 72057594037927936' 'n / 9_223_372_036_854_775_808'
    'n % 0x8000_0000_0000_0000' 'n /= 2;' 'match n % 4 {' $'let a = n /\n    // of two\n    2;'
    '// a / b' 'f(n); // a % b' 'ensures { result ≡ n / 10 }' $'ensures { result ≡ n / 10\n    + n % 10 }'
    '    requires tens { record { low : n % 10 } }' $'ensures {\n    text "}" ≡ n / 10 }'
    'ghost use Nat.{_+_, _/_, _%_};' $'ghost use Nat.{_+_,\n    _/_};'
    "a == b'/' || a == b'%'" "b'\\'' == b'/'" 'say(b"5 % of \"a / b\"")'
    'check_sums::crc_modbus(read_module(modes))' 'let rem = n - ten;'
)
for each in "${wrong[@]}"; do finds "$each"; done
for each in "${right[@]}"; do passes "$each"; done
finds $'let a = n /\n    // of ten\n    10;' 1
finds $'let a = n\n    / 8\n        .max(m);' 2

# A const parameter, by what each call gives it.
divided='fn f<const M: u64, const N: u64>(n: u64) -> u64 { n / N % M }'
passes "$divided"$'\nfn g(n: u64) -> u64 { f::<2, 8>(n) + f::<16, 256>(n) }'
finds "$divided" 1
finds "$divided"$'\nfn g(n: u64) -> u64 { f::<2, 8>(n) + f::<2, 10>(n) }' 1
finds "$divided"$'\nfn g(n: u64) -> u64 { f::<10, 8>(n) }' 1
finds "$divided"$'\nfn g(n: u64) -> u64 { f::<2, 8>(n) + f(n) }' 1
finds "$divided"$'\nfn g<const N: u64>(n: u64) -> u64 { f::<2, N>(n) }' 1
finds $'fn g(n: u64) -> u64 { f::<8>(n) }\nfn f<const M: u64>(n: u64) -> u64 { n / N }'
finds $'fn f<const N: u64>(n: u64) -> u64 { n / N }\nfn g(n: u64) -> u64 { f::<8>(n) + g(b"//") + f::<10>(n) }' 1
finds $'fn f<T, const N: u64>(n: u64) -> u64 { n / N }\nfn g(n: u64) -> u64 { f::<Pair<1, 2>, 10>(n) }' 1
finds $'fn f<const N: u64>(n: u64) -> u64 { const N: u64 = 10; n / N }\nfn g(n: u64) -> u64 { f::<8>(n) }' 1
finds $'const N: u64 = 10;\nfn f(n: u64) -> u64 {\n    fn g<const N: u64>() {}\n    g::<8>();\n    n / N\n}' 5
finds $'fn f(n: u64) -> u64 {\n    let N = n + 3;\n    fn g<const N: u64>() {}\n    g::<8>();\n    n / N\n}' 5
finds $'use crate::limits::{\n    M,\n    N,\n};\nfn f<const N: u64>(n: u64) -> u64 { n / N }\nfn g(n: u64) -> u64 { f::<8>(n) }' 5
finds 'fn f<const N: u64>() {} fn h(n: u64, N: u64) -> u64 { f::<8>(); n / N }'
finds "const N: u64 = 10;"$'\n'"$(printf '// a file of many lines %s\n' {1..400})"$'\n'"fn f<const N: u64>(n: u64) -> u64 { f::<8>(n) + n / N }"
passes "$divided"$'\n// f::<2, 10>(n)\nfn g(n: u64) -> u64 { f::<2, 8>(n) + h(b"f::<2, 10>") }'

# The tree as it stands must be found wrong, in the words $1.
finds_tree() {
    if sound_source "$tree" > "$work/out" 2>&1 || ! grep -q "$1" "$work/out"; then
        cat "$work/out"
        fail "it is not found: $1"
    fi
}
plant 'n / 16'
mkdir "$tree/crates/below/src/deep"
echo 'n / 10' > "$tree/crates/below/src/deep/tens.rt"
finds_tree 'below/src/deep/tens.rt:1: n / 10'
plant 'ensures { n / 10'
finds_tree 'its end is inside'
rm "$source"
finds_tree 'the crate below has no source'
rmdir "$tree/crates/below/src"
finds_tree 'the crate below has no source'
plant 'n / 16'
sed -i '/^below/d' "$tree/crates.txt"
finds_tree 'no crate below'
plant 'n / 16'
sed -i '/^diminurel/d' "$tree/crates.txt"
finds_tree 'no crate diminurel'

# An archive of what $1 is in C, and what must be found in it.
archive() {
    rm -f "$work/trial.a"
    echo "$1" | cc -x c -O2 -c - -o "$work/trial.o"
    ar rcs "$work/trial.a" "$work/trial.o"
}
finds_code() {
    archive "$1"
    if sound_library "$work/trial.a" > "$work/out" || ! grep -q "$2" "$work/out"; then fail "$2 is not found in: $1"; fi
}
archive 'unsigned divided(unsigned n) { while (n & 7) n += n >> 4; return n * 1000000 / 16 % 16; }'
sound_library "$work/trial.a" || fail 'an archive without a division is found wrong'
finds_code 'unsigned f(unsigned n, unsigned m) { return n / m; }' '<f>:.*div'
finds_code 'int f(int n, int m) { return n % m; }' '<f>:.*div'
finds_code 'double f(double n, double m) { return n / m; }' '<f>:.*div'
finds_code 'unsigned __udivdi3(unsigned, unsigned); unsigned f(unsigned n) { return __udivdi3(n, 10); }' __udivdi3
finds_code 'unsigned __umodti3(unsigned n, unsigned m) { while (n >= m) n -= m; return n; }' __umodti3
finds_code 'int __aeabi_uidivmod(int, int); int f(int n) { return __aeabi_uidivmod(n, 10); }' __aeabi_uidivmod
finds_code 'unsigned char f(unsigned char n) { return n / 10; }' '<f>:.*mul'
finds_code 'unsigned f(unsigned n) { return n / 10; }' '<f>:.*0xcccccccd'
finds_code 'unsigned long f(unsigned long n) { return n / 1000; }' '<f>:.*mul'
finds_code 'const int nothing = 0;' 'no instruction'
echo "divides: wrong sources and libraries are found"

sound_source . | sed 's,^\./,,' || fail 'what the entry points reach divides there, and not by a power of two'
echo "divides: the source of $(wc -l < "$work/reached") crates divides by powers of two alone"
[ -n "${DIMINUREL_BUILT:-}" ] || bash tools/build.sh diminurel
sound_library target/staticlib/libdiminurel.a || fail 'the library divides'
count=$(grep -c $'^ *[0-9a-f]*:\t' "$work/code")
echo "divides: none of the library's $count instructions divides or takes an inverse, and it calls no routine that does"
