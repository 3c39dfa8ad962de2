#!/bin/sh
# How long it takes to find the format of a machine instruction by its mnemonic: a program over instruction_table, built by
# rt in a copy of this repository, which looks up each of the 2,413 mnemonics in turn.
set -eu
top=$(cd "$(dirname "$0")/.." && pwd)
work=$(mktemp -d)
trap 'rm -rf "$work"' EXIT
mkdir -p "$work/crates"
cp -r "$top/crates/hl_base" "$top/crates/instruction_table" "$work/crates/"
cp "$top/HANDLES" "$work/"
grep -E '^(hl_base|instruction_table):' "$top/crates.txt" > "$work/crates.txt"
mkdir -p "$work/crates/instructions_bench/src"
echo 'instructions_bench: hl_base instruction_table' >> "$work/crates.txt"
cat > "$work/crates/instructions_bench/src/main.rt" <<'PROGRAM'
//! Times look-ups of names, each read once.
#![tactic(auto)]

use hl_base::Name;
use instruction_table::find;
use std::alloc::{AllocError, Global};
use std::time::Instant;
use std::{env, io};

/// How often the names are looked up.
const TIMES: u32 = 1_000;

/// The names that words spell.
fn names(alloc: Global, words: &[String]) -> Result<Vec<Name>, AllocError> {
    let mut names = Vec::new(alloc);
    for word in words {
        if let Some(name) = Name::read(word.as_str()) {
            names.push(name)?;
        }
    }
    Ok(names)
}

/// How many of the names are machine instructions.
fn found(names: &[Name]) -> usize {
    names.iter().filter(|name| find(name).is_some()).count()
}

fn main(rt: HostRuntime) -> io::Result<()> {
    let mut words = Vec::new(rt.alloc());
    for word in env::args(&rt)?.skip(1) {
        words.push(word)?;
    }
    let names = names(rt.alloc(), words.as_slice())?;
    for _ in 0..11 {
        let start = Instant::now(&rt)?;
        let mut sum = 0usize;
        for _ in 0..TIMES {
            sum = sum.wrapping_add(found(names.as_slice()));
        }
        println!(&rt; "{} {sum}", start.elapsed(&rt)?.as_nanos())?;
    }
    Ok(())
}
PROGRAM
cd "$work/crates/instructions_bench"
words=$(grep -v '^#' "$top/tools/instructions/instructions.tsv" | cut -f1)
# shellcheck disable=SC2086
rt run -- $words > "$work/times" 2> "$work/log" || { tail -n 20 "$work/times" "$work/log" >&2; exit 1; }
awk -v names="$(echo "$words" | wc -w)" '
    NF == 2 && $1 ~ /^[0-9]+$/ && $2 == 1000 * names { if (!best || $1 < best) best = $1 }
    END {
        if (!best) { print "no times were printed"; exit 1 }
        printf "a mnemonic is found in %.1f ns, the least of 11 times 1,000 rounds over %d (to be at most 40)\n", best / 1000 / names, names
        exit best > 40000 * names
    }' "$work/times"
