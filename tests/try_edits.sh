#!/usr/bin/env bash
# Tries edits of a crate one after another, and says where each is refused.
#
# Usage: tests/try_edits.sh CRATE EDIT...
#
# Works on a copy of the repository in a temporary folder. It is not the verdict: `rt ci` tries the edits of each crate's
# must-fail/ itself.
set -euo pipefail
cd "$(dirname "$0")/.."

crate=$1
shift
work=$(mktemp -d)
trap 'rm -rf "$work"' EXIT
tar -cf - --exclude=out --exclude='*.edit' crates crates.txt | tar -xf - -C "$work"
mkdir -p "$work/crates/$crate/must-fail"
cp "$@" "$work/crates/$crate/must-fail/"

# `rt must-fail` fails where an edit is not refused, and where one is bad: it cannot be applied or is a compiler's error.
(cd "$work/crates/$crate" && rt check) >"$work/log" 2>&1 || {
    cat "$work/log" >&2
    exit 1
}
(cd "$work" && rt must-fail "$crate")
