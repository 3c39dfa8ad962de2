#!/usr/bin/env bash
# Tries every edit that must fail of the crates that are named, or of all crates: those of more-edits/ beside those of must-fail/,
# which the gate tries too.
# The prover must refuse each: the verdict is that of rt must-fail, in a copy of the checkout where they all stand in must-fail/.
set -euo pipefail
top=$(cd "$(dirname "$0")/.." && pwd)
copy=$(mktemp -d)
trap 'rm -rf "$copy"' EXIT
cp "$top/crates.txt" "$top/HANDLES" "$copy/"
for crate in "$top"/crates/*/; do
    place=$copy/crates/$(basename "$crate")
    mkdir -p "$place/must-fail"
    for part in src specs proofs; do
        if [ -d "$crate$part" ]; then cp -r "$crate$part" "$place/"; fi
    done
    for edit in "$crate"must-fail/*.edit "$crate"more-edits/*.edit; do
        if [ -f "$edit" ]; then cp -n "$edit" "$place/must-fail/"; fi
    done
done
cd "$copy"
status=0
rt must-fail "$@" 2>&1 | tee "$copy/tried" || status=$?
refused=$(grep -c ': refused, as it must be' "$copy/tried" || true)
other=$(grep -cE 'NOT REFUSED|BAD EDIT|NOT TRIED' "$copy/tried" || true)
echo "edits: $refused refused, $other not"
exit "$status"
