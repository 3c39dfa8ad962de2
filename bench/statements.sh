#!/bin/sh
# How fast the statements of a text are read: a program over hlasm_statements, built by rt in a copy of this repository.
set -eu
. "$(dirname "$0")/program.sh"
program statements_bench 'hl_base hlasm_statements' <<'PROGRAM'
//! Times the reading of the texts that its arguments name, and a pass over their lines.
#![tactic(auto)]

use hl_base::lines;
use hlasm_statements::read_statements;
use std::time::Instant;
use std::{env, fs, io};

/// The nanoseconds of one reading, and how many statements there are.
fn statements(rt: &HostRuntime, text: &str) -> io::Result<(u128, usize)> {
    let start = Instant::now(rt)?;
    let count = match read_statements(rt.alloc(), text) {
        Ok(statements) => statements.as_slice().len(),
        Err(_) => 0,
    };
    Ok((start.elapsed(rt)?.as_nanos(), count))
}

/// The nanoseconds of one pass over the lines, and how many there are.
fn plain(rt: &HostRuntime, text: &str) -> io::Result<(u128, usize)> {
    let start = Instant::now(rt)?;
    let mut count = 0usize;
    for _ in lines(text) {
        count = count.saturating_add(1);
    }
    Ok((start.elapsed(rt)?.as_nanos(), count))
}

fn main(rt: HostRuntime) -> io::Result<()> {
    for path in env::args(&rt)?.skip(1) {
        let text = fs::read_to_string(&rt, path.as_str())?;
        for _ in 0..21 {
            let (time, count) = statements(&rt, text.as_str())?;
            println!(&rt; "statements {} {count} {time}", text.len())?;
            let (time, count) = plain(&rt, text.as_str())?;
            println!(&rt; "lines {} {count} {time}", text.len())?;
        }
    }
    Ok(())
}
PROGRAM
python3 - "$work" <<'TEXTS'
import sys
shapes = [
    "LABEL{n:03} MVC   TARGET,SOURCE            remarks on the move",
    "         LR    R1,R2",
    "* a comment line with some words in it",
    "         AIF   ('&TYPE' EQ 'X').NEXT",
    "         LA    R3,FIELD+4(R5)",
]
def line(n):
    if n % 20 == 10:
        return "         CALL  SUBR,(FIRST,SECOND,".ljust(71) + "X00000000"
    if n % 20 == 11:
        return "               THIRD,FOURTH)".ljust(72) + "00000000"
    return shapes[n % 5].format(n=n % 1000).ljust(72) + "%08d" % n
def text(count):
    return "".join(line(n).ljust(83) + "\n" for n in range(count))
for name, count in (("once", 50000), ("twice", 100000)):
    with open(f"{sys.argv[1]}/{name}.hlasm", "w") as out:
        out.write(text(count))
TEXTS
rt run -- "$work/once.hlasm" "$work/twice.hlasm" > "$work/times" || { cat "$work/times" >&2; exit 1; }
python3 - "$work/times" <<'RESULT'
import sys
best = {}
for words in map(str.split, open(sys.argv[1])):
    if len(words) == 4 and words[0] in ("statements", "lines"):
        key = (words[0], int(words[1]))
        best[key] = min(best.get(key, 1 << 80), int(words[3]))
once, twice = sorted({size for _, size in best})
for kind in ("statements", "lines"):
    print(f"{kind}: {once} bytes in {best[kind, once] / 1e6:.2f} ms, {once * 1000 / best[kind, once]:.0f} MB/s")
print(f"twice the text: {best['statements', twice] / best['statements', once]:.2f} times the time (at most 2.2)")
RESULT
