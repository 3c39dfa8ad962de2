#!/bin/sh
# What the layout of generated statements costs. A program over section_layout, built by rt in a copy of this repository, lays out
# 50,000 statements of DC, DS and machine instructions, each with a label, of which every tenth has a literal of its own; and ten
# thousand EQUs of which each names the next one, so that the first has its value last. Each text is read before it is timed.
set -eu
. "$(dirname "$0")/program.sh"
program layout_bench 'hl_base hlasm_statements section_layout' <<'PROGRAM'
//! Times the layout of the statements of the texts that its arguments name.
#![tactic(auto)]

use hl_base::{Line, OutOfMemory};
use hlasm_statements::{Statements, read_statements};
use section_layout::{Layout, lay_out};
use std::alloc::Global;
use std::time::Instant;
use std::{env, fs, io};

/// How often a layout is made.
const TIMES: u32 = 11;

/// What is said where memory is wanting.
fn failed() -> io::Error {
    io::Error::from(io::ErrorKind::OutOfMemory)
}

/// The lines of some statements, as an assembly generates them.
fn lines_of(alloc: Global, statements: &Statements) -> Result<Vec<Line>, OutOfMemory> {
    let mut lines = Vec::new(alloc);
    for statement in statements.as_slice() {
        lines.push(Line {
            label: statement.label.copy(alloc)?,
            op: statement.op.copy(alloc)?,
            operands: statement.operands.copy(alloc)?,
        })?;
    }
    Ok(lines)
}

/// The same lines, lent.
fn lent(alloc: Global, lines: &[Line]) -> Result<Vec<&Line>, OutOfMemory> {
    let mut all = Vec::new(alloc);
    for line in lines {
        all.push(line)?;
    }
    Ok(all)
}

/// How much is said of the statements of a layout.
fn said(layout: &Layout) -> usize {
    let mut count: usize = 0;
    for statement in layout.statements.as_slice() {
        count = count.wrapping_add(statement.rows.as_slice().len());
    }
    count
}

/// Times a layout once, and prints how many statements it has, how much is said of them, and its nanoseconds.
fn time(rt: &HostRuntime, path: &str, lines: &[&Line]) -> io::Result<()> {
    let start = Instant::now(rt)?;
    let layout = lay_out(rt.alloc(), lines).map_err(|_| failed())?;
    let time = start.elapsed(rt)?.as_nanos();
    let statements = layout.statements.as_slice().len();
    let reports = said(&layout);
    println!(rt; "laid {path} {statements} {reports} {time}")
}

fn main(rt: HostRuntime) -> io::Result<()> {
    for path in env::args(&rt)?.skip(1) {
        let text = fs::read_to_string(&rt, path.as_str())?;
        let statements = read_statements(rt.alloc(), text.as_str()).map_err(|_| failed())?;
        let owned = lines_of(rt.alloc(), &statements).map_err(|_| failed())?;
        let lines = lent(rt.alloc(), owned.as_slice()).map_err(|_| failed())?;
        for _ in 0..TIMES {
            time(&rt, path.as_str(), lines.as_slice())?;
        }
    }
    Ok(())
}
PROGRAM
python3 - "$work" <<'TEXTS'
import sys
shapes = ["COUNT{n:03} DC    F'{n}'", "NAME{n:03} DC    CL8'TEXT',H'1',X'0F'", "ROOM{n:03} DS    XL12", "LOAD{n:03} L     1,=F'{n}'",
          "MOVE{n:03} MVC   0(8,2),0(3)", "STEP{n:03} LR    1,2", "LIST{n:03} DC    A(COUNT{before:03},*),AL1(1,2)", "LINE{n:03} DS    3F",
          "TEST{n:03} LTR   1,1", "NEXT{n:03} BC    8,MOVE{near:03}"]
COUNT, EQUATES = 50_000, 10_000
with open(f"{sys.argv[1]}/statements", "w") as out:
    out.write("BENCH    CSECT\n")
    for n in range(COUNT - 2):
        out.write(shapes[n % 10].format(n=n, before=n - 6, near=n - 5) + "\n")
    out.write("         END\n")
with open(f"{sys.argv[1]}/equates", "w") as out:
    for n in range(EQUATES - 1):
        out.write(f"X{n:05}   EQU   X{n + 1:05}+1\n")
    out.write(f"X{EQUATES - 1:05}   EQU   1\n")
TEXTS
rt run -- "$work/statements" "$work/equates" > "$work/times" || { cat "$work/times" >&2; exit 1; }
python3 - "$work/times" <<'RESULT'
import sys
best = {}
for words in map(str.split, open(sys.argv[1])):
    if words and words[0] == "laid":
        key = words[1].rpartition("/")[2]
        if words[3] != "0":
            sys.exit(f"layout.sh: {words[3]} reports of {key}, which has none")
        best[key] = int(words[2]), min(best.get(key, (0, 1 << 80))[1], int(words[4]))
statements, time = best["statements"]
print(f"{statements} statements with {statements // 10} literals: laid out in {time / 1e6:.1f} ms (at most 40)")
statements, time = best["equates"]
print(f"{statements} EQUs, each of the next one: laid out in {time / 1e6:.1f} ms (at most 50)")
RESULT
