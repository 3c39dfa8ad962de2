#!/bin/sh
# What the checks of generated statements cost. A program over statement_checks, built by rt in a copy of this repository, lays out
# 50,000 statements, nearly all of them machine instructions whose addresses stand in one of four ranges, and checks them; every tenth
# has a literal. Each text is read and laid out before the checks are timed.
set -eu
. "$(dirname "$0")/program.sh"
program checks_bench 'hl_base hlasm_statements section_layout statement_checks' <<'PROGRAM'
//! Times the checks of the statements of the texts that its arguments name.
#![tactic(auto)]

use hl_base::{Line, OutOfMemory};
use hlasm_statements::{Statements, read_statements};
use section_layout::{Layout, lay_out};
use statement_checks::check_statements;
use std::alloc::Global;
use std::time::Instant;
use std::{env, fs, io};

/// How often the statements are checked.
const TIMES: u32 = 11;

/// What is said where memory is wanting.
fn failed() -> io::Error {
    io::Error::from(io::ErrorKind::OutOfMemory)
}

/// The lines of some statements, as an assembly generates them.
fn lines_of(alloc: Global, statements: &Statements) -> Result<Vec<Line>, OutOfMemory> {
    let mut lines = Vec::new(alloc);
    for statement in statements.as_slice() {
        lines.push(Line {
            label: statement.label.copy(alloc)?,
            op: statement.op.copy(alloc)?,
            operands: statement.operands.copy(alloc)?,
        })?;
    }
    Ok(lines)
}

/// The same lines, lent.
fn lent(alloc: Global, lines: &[Line]) -> Result<Vec<&Line>, OutOfMemory> {
    let mut all = Vec::new(alloc);
    for line in lines {
        all.push(line)?;
    }
    Ok(all)
}

/// How much is said of the statements of a layout.
fn said(layout: &Layout) -> usize {
    let mut count: usize = 0;
    for statement in layout.statements.as_slice() {
        count = count.wrapping_add(statement.rows.as_slice().len());
    }
    count
}

/// Times the checks once, and prints how many statements there are, how much is said of them, and the nanoseconds.
fn time(rt: &HostRuntime, path: &str, lines: &[&Line]) -> io::Result<()> {
    let mut layout = lay_out(rt.alloc(), lines).map_err(|_| failed())?;
    let start = Instant::now(rt)?;
    check_statements(rt.alloc(), lines, &mut layout).map_err(|_| failed())?;
    let time = start.elapsed(rt)?.as_nanos();
    let statements = layout.statements.as_slice().len();
    let reports = said(&layout);
    println!(rt; "checked {path} {statements} {reports} {time}")
}

fn main(rt: HostRuntime) -> io::Result<()> {
    for path in env::args(&rt)?.skip(1) {
        let text = fs::read_to_string(&rt, path.as_str())?;
        let statements = read_statements(rt.alloc(), text.as_str()).map_err(|_| failed())?;
        let owned = lines_of(rt.alloc(), &statements).map_err(|_| failed())?;
        let lines = lent(rt.alloc(), owned.as_slice()).map_err(|_| failed())?;
        for _ in 0..TIMES {
            time(&rt, path.as_str(), lines.as_slice())?;
        }
    }
    Ok(())
}
PROGRAM
python3 - "$work" <<'TEXTS'
import sys
shapes = ["LOAD{n:03} L     1,FIELD{where}", "SAVE{n:03} ST    1,FIELD{where}+4", "MOVE{n:03} MVC   AREA{where}(8),FIELD{where}",
          "STEP{n:03} LR    1,2",
          "MASK{n:03} TM    FLAG{where},X'80'", "BACK{n:03} LA    3,8(,4)", "NEXT{n:03} BC    8,*+8", "LITS{n:03} A     1,=F'{few}'",
          "MANY{n:03} STM   14,12,12(13)", "TEST{n:03} CLI   FLAG{where},C'A'"]
COUNT = 50_000
BLOCK = 400
lines = ["BENCH    CSECT"] + [f"         USING MAP{k},{10 + k}" for k in range(3)] + ["         USING *,9"]
maps = [f"MAP{k}     DSECT\nFIELD{k}   DS    2F\nAREA{k}    DS    CL16\nFLAG{k}    DS    X" for k in range(3)]
last = ["         LTORG"] + maps + ["         END"]
for n in range(COUNT - len(lines) - 14):
    if n % BLOCK == BLOCK - 2:
        lines.append("         LTORG")
    elif n % BLOCK == BLOCK - 1:
        lines.append("         USING *,9")
    else:
        lines.append(shapes[n % 10].format(n=n, where=n % 3, few=n % 7))
with open(f"{sys.argv[1]}/statements", "w") as out:
    out.write("\n".join(lines + last) + "\n")
TEXTS
rt run -- "$work/statements" > "$work/times" || { cat "$work/times" >&2; exit 1; }
python3 - "$work/times" <<'RESULT'
import sys
best = {}
for words in map(str.split, open(sys.argv[1])):
    if words and words[0] == "checked":
        key = words[1].rpartition("/")[2]
        if words[3] != "0":
            sys.exit(f"checks.sh: {words[3]} reports of {key}, which has none")
        best[key] = int(words[2]), min(best.get(key, (0, 1 << 80))[1], int(words[4]))
statements, time = best["statements"]
print(f"{statements} statements over four ranges: checked in {time / 1e6:.1f} ms (at most 25)")
RESULT
