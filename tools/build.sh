#!/usr/bin/env bash
# Builds programs into target/bin and static libraries for C into target/staticlib.
#
# Usage: tools/build.sh NAME...     inspect, rehearse, libtable.a, libcarriers.a or libcopy_probe.a
#
# Each is proved first. What the build says stands in target/build.log, and on standard error where it fails.
set -euo pipefail
cd "$(dirname "${BASH_SOURCE[0]}")/.."

mkdir -p target/bin target/staticlib
: >target/build.log
trap '[ $? = 0 ] || cat target/build.log >&2' EXIT

# `rt run` builds a program and runs it, here on the input that its crate has.
program() { # NAME
    (cd "crates/$1" && rt run <stdin) >>target/build.log 2>&1
    cp "crates/$1/out/$1" "target/bin/$1"
}

# The exports for C stand in crates of their own, over the libraries; C callers know the archive by the library's name.
library() { # CRATE ARCHIVE
    (cd "crates/$1" && rt lib) >>target/build.log 2>&1
    cp "crates/$1/out/lib$1.a" "target/staticlib/$2"
}

[ $# -gt 0 ] || {
    echo 'usage: tools/build.sh NAME...' >&2
    exit 2
}
for name in "$@"; do
    case $name in
    inspect | rehearse) program "$name" ;;
    libtable.a) library table_c "$name" ;;
    libcarriers.a) library carriers_c "$name" ;;
    libcopy_probe.a) library copy_probe "$name" ;;
    *)
        echo "tools/build.sh: there is no $name" >&2
        exit 2
        ;;
    esac
done
