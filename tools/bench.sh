#!/usr/bin/env bash
# Builds the engine's static library, and prints its time, stack and size beside those of the engine written for speed
# in bench/. No figure fails it.
set -eu -o pipefail
cd "$(dirname "$0")/.."
bash tools/build.sh diminurel
export DIMINUREL_LIB="$PWD/target/staticlib"
cd bench
cargo build --quiet --offline --release
target/release/bench

# All sections of the library are reached from its two entry points, so a firmware links all of them; memcpy and memset
# of the C library come to that.
echo "size of the code, bytes"
size -A "$DIMINUREL_LIB/libdiminurel.a" |
    awk '/^\.text/ { code += $2 } /^\.rodata/ { constants += $2 }
         END { printf "  proved %d code, %d constants\n", code, constants }'
nm --print-size --radix=d --demangle target/release/bench |
    awk '/bench::fast::/ { if ($3 ~ /[tT]/) code += $2; else constants += $2 }
         END { printf "  fast   %d code, %d constants\n", code, constants }'
