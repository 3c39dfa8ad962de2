#!/bin/sh
# How long one statement takes that was read: a program over conditional_asm, built by rt in a copy of this repository.
set -eu
top=$(cd "$(dirname "$0")/.." && pwd)
work=$(mktemp -d)
trap 'rm -rf "$work"' EXIT
cp -r "$top/crates" "$top/crates.txt" "$top/HANDLES" "$work/"
mkdir -p "$work/crates/effects_bench/src"
echo 'effects_bench: case_words conditional_asm hl_base hlasm_statements' >> "$work/crates.txt"
cat > "$work/crates/effects_bench/src/main.rt" <<'PROGRAM'
//! Times the effects of statements, each read once, where whatever is asked is answered at once.
#![tactic(auto)]

use case_words::Surroundings;
use conditional_asm::{Act, ReadStatement, effect, perform};
use hl_base::OutOfMemory;
use hlasm_statements::{Statement, read_statements};
use std::time::Instant;
use std::{env, io};

/// How often each statement is performed.
const TIMES: u32 = 100_000;

/// One effect of a statement that was read; whether it is more than the next statement.
fn performed(rt: &HostRuntime, read: &ReadStatement, among: &mut Surroundings) -> Result<bool, OutOfMemory> {
    let done = perform(rt.alloc(), read, among)?;
    Ok(!matches!(done.act, Act::Next))
}

/// The same of a statement that is read each time.
fn read_anew(rt: &HostRuntime, s: &Statement, among: &mut Surroundings) -> Result<bool, OutOfMemory> {
    let done = effect(rt.alloc(), s, among)?;
    Ok(!matches!(done.act, Act::Next))
}

/// The nanoseconds of performing a statement, and of reading and performing it.
fn timed(rt: &HostRuntime, s: &Statement, among: &mut Surroundings) -> io::Result<(u128, u128)> {
    let Ok(read) = ReadStatement::of(rt.alloc(), s) else {
        return Ok((0, 0));
    };
    let start = Instant::now(rt)?;
    for _ in 0..TIMES {
        let _act = performed(rt, &read, among);
    }
    let once = start.elapsed(rt)?.as_nanos();
    let start = Instant::now(rt)?;
    for _ in 0..TIMES {
        let _act = read_anew(rt, s, among);
    }
    Ok((once, start.elapsed(rt)?.as_nanos()))
}

fn main(rt: HostRuntime) -> io::Result<()> {
    for text in env::args(&rt)?.skip(1) {
        let Ok(Some(mut among)) = Surroundings::read(rt.alloc(), "nothing, number 3") else {
            return Ok(());
        };
        let Ok(statements) = read_statements(rt.alloc(), text.as_str()) else {
            return Ok(());
        };
        if let [s, ..] = statements.as_slice() {
            for _ in 0..11 {
                let (once, anew) = timed(&rt, s, &mut among)?;
                println!(&rt; "{once} {anew} {text}")?;
            }
        }
    }
    Ok(())
}
PROGRAM
cd "$work/crates/effects_bench"
rt run -- '&I SETA &I+1' ' AIF (&I LE 100).L' ' LR 1,2' "&L DC F'&N'" > "$work/times" 2> "$work/log" || {
    tail -n 20 "$work/times" "$work/log" >&2
    exit 1
}
python3 - "$work/times" <<'RESULT'
import sys
best = {}
for line in open(sys.argv[1]):
    words = line.rstrip("\n").split(" ", 2)
    if len(words) == 3 and words[0].isdigit() and words[1].isdigit():
        once, anew = best.get(words[2], (1 << 80, 1 << 80))
        best[words[2]] = (min(once, int(words[0])), min(anew, int(words[1])))
for text, (once, anew) in best.items():
    print(f"{text.strip()}: {once / 100000:.0f} ns performed, {anew / 100000:.0f} ns read and performed")
RESULT
