#!/usr/bin/env bash
# The gate, which says at its start how long it takes, and with each crate that is proved how far it is.
set -u -o pipefail
cd "$(dirname "$0")/.."
crates=$(grep -c '^[a-z]' crates.txt)
echo "make test: $crates crates. Each is proved from nothing, which takes about two hours on four processors that do nothing else."
.ci/run 2>&1 | awk -v crates="$crates" -v from="$(date +%s)" '
    { print; fflush() }
    /^rt: [a-z0-9_]+ proved$/ {
        "date +%s" | getline now; close("date +%s")
        printf "make test: %d of %d crates are proved, after %d minutes\n", ++proved, crates, (now - from) / 60; fflush()
    }'
