#!/bin/sh
# What each crate costs in the gate: runs `rt ci` in this checkout, which proves all from nothing, or the command that is
# given, as `bench/gate.sh .ci/run`, and lists of each crate the processor seconds of its check, its tests and its edits.
cd "$(dirname "$0")/.." || exit 1
if [ $# -eq 0 ]; then set -- rt ci; fi
exec python3 bench/gate.py "$@"
