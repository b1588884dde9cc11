#!/bin/sh
# Runs the gate from nothing in a copy of the crates outside the checkout, and prints the minutes that it took: of the processors by
# crate (its proof, its tests, its wrong bodies) and in sum, and by the clock.
# Usage: tools/gate-time.sh [NAME..]: all crates, or these and those below them. It is no part of the gate; on a busy machine each
# figure is greater.
set -eu
CDPATH='' cd -- "$(dirname -- "$0")/.."
copy=$(mktemp -d "${TMPDIR:-/tmp}/gate-time.XXXXXX")
trap 'rm -rf "$copy"' EXIT
trap 'exit 130' INT TERM HUP
# (rt takes the folder with .git for a repository's)
mkdir "$copy/.git"
tar -cf - --exclude='crates/*/out' crates crates.txt HANDLES | tar -xf - -C "$copy"
python3 tools/gate_time.py "$copy" "$@"
