#!/bin/sh
# What looking ahead costs. A program over lookahead_scan, built by rt in a copy of this repository, makes the index of a text of 50,000
# statements and asks it ten thousand times; and the built program is run over whole sessions of that text, without an attribute
# reference and with one T' of the last label in front.
set -eu
here=$(cd "$(dirname "$0")" && pwd)
(
. "$here/program.sh"
program lookahead_bench 'document_store hl_base hlasm_statements lookahead_scan' <<'PROGRAM'
//! Times the index of the text that its first argument names, and ten thousand questions, as often as the second says.
#![tactic(auto)]

use document_store::DocumentStore;
use hl_base::{Name, OutOfMemory};
use hlasm_statements::{Statements, read_statements};
use lookahead_scan::LookIndex;
use std::time::Instant;
use std::{env, fs, io};

/// How often is asked.
const QUESTIONS: u32 = 10_000;

/// What is said where memory is wanting.
fn failed() -> io::Error {
    io::Error::from(io::ErrorKind::OutOfMemory)
}

/// How many of the questions for the labels of a list find something, in front of all of its statements.
fn ask(index: &LookIndex, names: &[Name]) -> usize {
    let mut found: usize = 0;
    let mut left = names;
    for _ in 0..QUESTIONS {
        match left {
            [name, rest @ ..] => {
                found = found.wrapping_add(usize::from(index.find(name, 0).is_some()));
                left = rest;
            }
            [] => left = names,
        }
    }
    found
}

/// The labels of some statements that are names, as many as are asked for at most.
fn names_of(rt: &HostRuntime, statements: &Statements) -> Result<Vec<Name>, OutOfMemory> {
    let mut names = Vec::new(rt.alloc());
    for statement in statements.as_slice() {
        if let Some(name) = Name::read(statement.label.as_str()) {
            names.push(name)?;
        }
    }
    Ok(names)
}

/// Times both once.
fn time(rt: &HostRuntime, statements: &Statements, names: &[Name]) -> io::Result<()> {
    let store = DocumentStore::new(rt.alloc());
    let start = Instant::now(rt)?;
    let index = LookIndex::build(rt.alloc(), statements, &store).map_err(|_| failed())?;
    let built = start.elapsed(rt)?.as_nanos();
    let start = Instant::now(rt)?;
    let found = ask(&index, names);
    let asked = start.elapsed(rt)?.as_nanos();
    println!(rt; "built {built} asked {asked} found {found}")
}

fn main(rt: HostRuntime) -> io::Result<()> {
    let mut words = env::args(&rt)?.skip(1);
    if let (Some(path), Some(times)) = (words.next(), words.next()) {
        let text = fs::read_to_string(&rt, path.as_str())?;
        let times = times.as_str().parse::<usize>().unwrap_or(1);
        let statements = read_statements(rt.alloc(), text.as_str()).map_err(|_| failed())?;
        let names = names_of(&rt, &statements).map_err(|_| failed())?;
        for _ in 0..times {
            time(&rt, &statements, names.as_slice())?;
        }
    }
    Ok(())
}
PROGRAM
python3 - "$work/plain.hlasm" <<'TEXT'
import sys
shapes = ["LABEL{n:05} MVC   TARGET,SOURCE            remarks on the move", "         LR    R1,R2", "         LA    R3,FIELD+4(R5)",
          "         BC    8,NEXT", "FIELD{n:05} DC    CL8'TEXT',F'1'"]
with open(sys.argv[1], "w") as out:
    out.write("".join(shapes[n % 5].format(n=n) + "\n" for n in range(50000)) + "         END\n")
TEXT
rt run -- "$work/plain.hlasm" 1 > "$work/built" || { cat "$work/built" >&2; exit 1; }
"$work/crates/lookahead_bench/out/lookahead_bench" "$work/plain.hlasm" 11 | python3 -c '
import sys
lines = [line.split() for line in sys.stdin]
built, asked = (min(int(line[place]) for line in lines) / 1e6 for place in (1, 3))
print(f"the index of 50000 statements: made in {built:.1f} ms")
print(f"ten thousand questions: {asked * 100:.0f} ns each (at most 1000)")'
)
. "$here/served.sh"
python3 - "$server" "$work" "$here" <<'RUNS'
import sys
server, work, bench = sys.argv[1:]
sys.path.insert(0, bench)
sys.dont_write_bytecode = True
from replay import opened, run, write_session
shapes = ["LABEL{n:05} MVC   TARGET,SOURCE            remarks on the move", "         LR    R1,R2", "         LA    R3,FIELD+4(R5)",
          "         BC    8,NEXT", "FIELD{n:05} DC    CL8'TEXT',F'1'"]
text = "".join(shapes[n % 5].format(n=n) + "\n" for n in range(50000)) + "         END\n"
times = {}
for name, front in (("without", "&T       SETC  'C'\n"), ("with", "&T       SETC  T'FIELD49999\n")):
    path = write_session(f"{work}/{name}", [opened("file:///w/a.hlasm", front + text)])
    times[name] = min(run([server, "serve"], path)[2] for _ in range(11))
print(f"50000 lines with one T' of the last label: {times['with'] * 1000:.1f} ms, without {times['without'] * 1000:.1f}: "
      f"{times['with'] / times['without']:.2f} times (at most 1.3)")
RUNS
