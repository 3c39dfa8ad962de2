#!/bin/sh
# What the assembly of open code costs: a program over program_assembly, built by rt in a copy of this repository. It assembles a text
# of 50,000 statements without conditional assembly, beside the reading of its statements alone, and a loop of 90,000 points, and says
# how much more memory the loop takes than one of a few points.
set -eu
. "$(dirname "$0")/program.sh"
program open_code_bench 'document_store hl_base hlasm_statements program_assembly' <<'PROGRAM'
//! Times the assembly of the text that its first argument names, and the reading of its statements, as often as the second says.
#![tactic(auto)]

ghost use Rattle.std.specs.Prelude.{◌≡◌};

use document_store::DocumentStore;
use hl_base::{Ledger, PathId, Steps};
use hlasm_statements::read_statements;
use program_assembly::assembly_notes;
use std::marker::Brand;
use std::rc::RcStr;
use std::sync::ledger::Blank;
use std::time::Instant;
use std::{env, fs, io};

/// The greatest budget.
const BUDGET: u32 = 400_000;

/// The nanoseconds of one reading, and how many statements there are.
fn statements(rt: &HostRuntime, text: &str) -> io::Result<(u128, usize)> {
    let start = Instant::now(rt)?;
    let count = match read_statements(rt.alloc(), text) {
        Ok(statements) => statements.as_slice().len(),
        Err(_) => 0,
    };
    Ok((start.elapsed(rt)?.as_nanos(), count))
}

/// The nanoseconds of one assembly without members, and how many notes there are.
fn assembly<L: Ledger>(
    rt: &HostRuntime,
    text: &RcStr,
    steps: &mut Steps<L>,
) -> io::Result<(u128, usize)> {
    let none = DocumentStore::new(rt.alloc());
    let start = Instant::now(rt)?;
    let count = match assembly_notes(rt.alloc(), PathId(0), text, "", &none, BUDGET, steps) {
        Ok(notes) => notes.as_slice().len(),
        Err(_) => usize::MAX,
    };
    Ok((start.elapsed(rt)?.as_nanos(), count))
}

/// Times both, so many times.
fn time<L: Ledger>(rt: &HostRuntime, text: &RcStr, times: usize, blank: Blank) -> io::Result<()>
    requires name { blank.name ≡ L.name }
    requires parts { blank.parts ≡ L.parts }
    requires one { blank.parts ≡ 1 }
{
    let mut steps = Steps::<L>::open(blank);
    for _ in 0..times {
        let (nanoseconds, count) = statements(rt, text.as_str())?;
        println!(rt; "statements {count} {nanoseconds}")?;
        let (nanoseconds, count) = assembly(rt, text, &mut steps)?;
        println!(rt; "assembly {count} {nanoseconds}")?;
    }
    Ok(())
}

fn main(rt: HostRuntime) -> io::Result<()> {
    let mut words = env::args(&rt)?.skip(1);
    if let (Some(path), Some(times)) = (words.next(), words.next()) {
        let text = fs::read_to_string(&rt, path.as_str())?;
        let times = times.as_str().parse::<usize>().unwrap_or(1);
        let text = RcStr::from_str(rt.alloc(), text.as_str())?;
        time::<Brand>(&rt, &text, times, Blank::new(1))?;
    }
    Ok(())
}
PROGRAM
python3 - "$work" <<'TEXTS'
import sys
shapes = ["LABEL{n:03} MVC   TARGET,SOURCE            remarks on the move", "         LR    R1,R2", "         LA    R3,FIELD+4(R5)",
          "         BC    8,NEXT", "FIELD{n:03} DC    CL8'TEXT',F'1'"]
def line(n):
    return shapes[n % 5].format(n=n % 1000).ljust(72) + "%08d\n" % n
# Three points for each time that the loop is gone through, and three more.
def loop(times):
    return ("         ACTR  100000\n&I       SETA  0\n.L       DC    F'&I'\n&I       SETA  &I+1\n"
            f"         AIF   (&I LT {times}).L\n         END\n")
for name, text in (("plain", "".join(map(line, range(50000))) + "         END\n"), ("loop", loop(30000)), ("few", loop(10))):
    with open(f"{sys.argv[1]}/{name}.hlasm", "w") as out:
        out.write(text)
TEXTS
mkdir -p proofs/main
cat > proofs/main/Invariants.antt <<'GHOSTS'
use Rattle.open_code_bench.proofs.main.Given as goal

abbrev pub ghosts-time : goal.ghosts-time
ghosts-time a = record { name = a.blank.name; parts = a.blank.parts }
GHOSTS
rt run -- "$work/few.hlasm" 1 > "$work/built" || { cat "$work/built" >&2; exit 1; }
python3 - "$work" "$work/crates/open_code_bench/out/open_code_bench" <<'RESULT'
import os, subprocess, sys
work, program = sys.argv[1:]

# The least nanoseconds of each sort, how many notes there were, and the peak in kB.
def run(name, times):
    child = subprocess.Popen([program, f"{work}/{name}.hlasm", str(times)], stdout=subprocess.PIPE, text=True)
    lines = [line.split() for line in child.stdout]
    _, status, usage = os.wait4(child.pid, 0)
    child.returncode = os.waitstatus_to_exitcode(status)
    if child.returncode or not lines:
        sys.exit(f"{name}: ended with {child.returncode}")
    best = {sort: min(int(n) for kind, _, n in lines if kind == sort) for sort in ("statements", "assembly")}
    return best, {int(count) for kind, count, _ in lines if kind == "assembly"}, usage.ru_maxrss

best, notes, _ = run("plain", 11)
print(f"50000 statements: assembled in {best['assembly'] / 1e6:.1f} ms with {max(notes)} notes, read alone in {best['statements'] / 1e6:.1f} ms: "
      f"{best['assembly'] / best['statements']:.2f} times (at most 4)")
best, notes, peak = run("loop", 11)
if notes != {0}:
    sys.exit(f"the loop has notes: {notes}")
print(f"a loop of 90003 points: {best['assembly'] / 1e6:.1f} ms (at most 150), {best['assembly'] / 90003:.0f} ns a point")
once, few = run("loop", 1)[2], run("few", 1)[2]
print(f"memory: {(once - few) * 1024 / 90003:.0f} bytes a point (at most 300)")
RESULT
