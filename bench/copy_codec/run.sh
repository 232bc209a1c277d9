#!/usr/bin/env bash
# Times writing and reading a copy of 16 switches and 48 nodes beside libtirpc.
#
# Usage: bench/copy_codec/run.sh [LIBCOPY_PROBE_A]
#
# Builds the static library first, unless the path of one is given. Wants gcc, rpcgen and
# libtirpc-dev.
set -euo pipefail
cd "$(dirname "$0")/../.."

out=target/bench/copy_codec
mkdir -p "$out"

library=${1:-target/staticlib/libcopy_probe.a}
[ $# -gt 0 ] || tools/build.sh libcopy_probe.a

formats/make_codec.sh "$out"
gcc -w -O3 -isystem /usr/include/tirpc -c "$out/copy_codec.c" -o "$out/copy_codec.o"
gcc -std=c11 -D_DEFAULT_SOURCE -O3 -Wall -Wextra -Werror -I"$out" -isystem /usr/include/tirpc \
    bench/copy_codec/bench.c "$out/copy_codec.o" "$library" -ltirpc -o "$out/bench"
"$out/bench"
