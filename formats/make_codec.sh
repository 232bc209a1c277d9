#!/usr/bin/env bash
# Makes the C codecs of the formats: NAME.h and NAME_codec.c for each, in the directory given.
#
# Usage: formats/make_codec.sh DIRECTORY
set -euo pipefail

directory=$1
mkdir -p "$directory"
for name in table copy; do
    # rpcgen writes the name of its input into the code, and never over a file that is there.
    rm -f "$directory/$name.h" "$directory/${name}_codec.c"
    cp "$(dirname "$0")/$name.x" "$directory/$name.x"
    (
        cd "$directory"
        rpcgen -h -o "$name.h" "$name.x"
        rpcgen -c -o "${name}_codec.c" "$name.x"
    )
done
