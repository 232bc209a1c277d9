#!/usr/bin/env bash
# Checks the static libraries from outside: C programs, Python reference, XDR library.
#
# Usage: tests/outside.sh [DIRECTORY]
#
# Builds the libraries first, unless their directory is given. Installs the Debian packages
# that are missing, for which it must run as root.
# shellcheck disable=SC2086 # flags and packages are lists of words
set -euo pipefail
cd "$(dirname "$0")/.."

out=target/outside
tirpc="-isystem /usr/include/tirpc"
export PYTHONDONTWRITEBYTECODE=1

missing_packages() {
    command -v gcc >/dev/null || echo gcc libc6-dev
    command -v python3 >/dev/null || echo python3
    command -v rpcgen >/dev/null || echo rpcsvc-proto
    [ -e /usr/include/tirpc/rpc/rpc.h ] || echo libtirpc-dev
}

install_packages() {
    local packages
    packages=$(missing_packages)
    [ -n "$packages" ] || return 0
    apt-get update -qq
    DEBIAN_FRONTEND=noninteractive apt-get install -y -qq --no-install-recommends $packages >/dev/null
}

# The sanitizers watch the C programs only; for the library's own accesses the programs use
# guard pages.
sanitizer_flags() {
    local flags="-fsanitize=address,undefined -fno-sanitize-recover=all"
    echo 'int main(void) { return 0; }' >"$out/empty.c"
    if gcc $flags "$out/empty.c" -o "$out/empty" 2>/dev/null && "$out/empty" 2>/dev/null; then
        echo "$flags"
    fi
}

# compile NAME WORD... : makes $out/NAME from the sources, linked with the static libraries.
compile() {
    local name=$1
    shift
    gcc -std=c11 -D_DEFAULT_SOURCE -O1 -g -Wall -Wextra -Werror $sanitizers \
        -Iinclude -Itests/c "$@" $libraries -o "$out/$name"
}

# rpcgen's code has unused variables, so it is compiled without warnings.
compile_codec() {
    formats/make_codec.sh "$out"
    gcc -w -O1 -g $tirpc -c "$out/table_codec.c" -o "$out/table_codec.o"
    gcc -w -O1 -g $tirpc -c "$out/copy_codec.c" -o "$out/copy_codec.o"
}

# What an archive does not define firmware has to bring: it must be the names given here, and no others.
expect_needs() { # ARCHIVE NAME...
    local archive=$1 needs
    shift
    needs=$(nm -u "$directory/$archive" | sed -n 's/^ *U //p' | sort -u | xargs)
    if [ "$needs" != "$*" ]; then
        echo "outside: $archive needs '$needs' from outside, where '$*' is wanted" >&2
        exit 1
    fi
    echo "$archive needs from outside: ${needs:-nothing}"
}

install_packages
mkdir -p "$out"

# The copy codec is no call for firmware, so the tests have it in a library of their own.
directory=${1:-target/staticlib}
archives='libtable.a libcarriers.a libcopy_probe.a'
[ $# -gt 0 ] || tools/build.sh $archives
libraries=
for archive in $archives; do
    libraries="$libraries $directory/$archive"
done

expect_needs libtable.a memset
expect_needs libcarriers.a

sanitizers=$(sanitizer_flags)
compile_codec
compile table_check_demo tests/c/table_check_demo.c
compile table_check_batch tests/c/table_check_batch.c
compile table_xdr $tirpc -I"$out" tests/xdr/table_xdr.c "$out/table_codec.o" -ltirpc
compile copy_xdr $tirpc -I"$out" tests/xdr/copy_xdr.c "$out/copy_codec.o" -ltirpc

"$out/table_check_demo"
python3 tests/table_examples.py "$out/table_check_batch"
python3 tests/table_cases.py "$out/table_check_batch"
python3 tests/table_random.py "$out/table_check_batch"
python3 tests/xdr/table_xdr.py "$out/table_xdr"
"$out/copy_xdr" 1 2000
