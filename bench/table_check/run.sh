#!/usr/bin/env bash
# Times table_check beside plain Rust and libtirpc on the largest example table.
#
# Usage: bench/table_check/run.sh [LIBTABLE_A]
#
# Builds the static library first, unless the path of one is given. Wants gcc, rustc, rpcgen
# and libtirpc-dev.
set -euo pipefail
cd "$(dirname "$0")/../.."

out=target/bench/table_check
mkdir -p "$out"

library=${1:-target/staticlib/libtable.a}
[ $# -gt 0 ] || tools/build.sh libtable.a

# A shared library, because two Rust static libraries in one program define the same names.
rustc --edition 2024 -C opt-level=3 -C panic=abort --crate-type cdylib --crate-name plain \
    bench/table_check/plain.rs -o "$out/libplain.so"

formats/make_codec.sh "$out"
gcc -w -O3 -isystem /usr/include/tirpc -c "$out/table_codec.c" -o "$out/table_codec.o"

gcc -std=c11 -D_DEFAULT_SOURCE -O3 -Wall -Wextra -Werror -Iinclude -I"$out" \
    -isystem /usr/include/tirpc bench/table_check/bench.c "$out/table_codec.o" "$library" \
    -L"$out" -lplain -Wl,-rpath,"$PWD/$out" -ltirpc -o "$out/bench"
"$out/bench" examples/largest.table
