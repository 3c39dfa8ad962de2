#!/bin/sh
# Compares what the built parser answers with the recognizer of grammar.py, on random texts: compare.sh [COUNT [SEED [GRAMMAR]]],
# where a grammar is arith, ordinary, char or logic, and all where none is named.
# The program stands in a copy of this repository, built by rt there; nothing here is proved.
set -eu
top=$(cd "$(dirname "$0")/../.." && pwd)
count=${1:-100000}
seed=${2:-1}
grammars=${3:-arith ordinary char logic}
work=$(mktemp -d)
trap 'rm -rf "$work"' EXIT
cp -r "$top/crates" "$top/crates.txt" "$top/HANDLES" "$work/"
mkdir -p "$work/crates/expressions_compare/src"
echo 'expressions_compare: hl_base operand_grammar' >> "$work/crates.txt"
cat > "$work/crates/expressions_compare/src/main.rt" <<'PROGRAM'
//! Answers for each line of a file, which begins with `a`, `o`, `c` or `l` for its grammar: `read`, or how far some expression
//! begins so.
#![tactic(auto)]

use operand_grammar::{Expr, SyntaxFault, parse_arith, parse_char, parse_logic, parse_ordinary};
use std::alloc::Global;
use std::{env, fs, io};

fn read(alloc: Global, line: &str) -> Result<Expr, SyntaxFault> {
    if let Some(text) = line.strip_prefix('a') {
        return parse_arith(alloc, text);
    }
    if let Some(text) = line.strip_prefix('o') {
        return parse_ordinary(alloc, text);
    }
    if let Some(text) = line.strip_prefix('c') {
        return parse_char(alloc, text);
    }
    match line.strip_prefix('l') {
        Some(text) => parse_logic(alloc, text),
        None => Err(SyntaxFault::OutOfMemory),
    }
}

fn main(rt: HostRuntime) -> io::Result<()> {
    for path in env::args(&rt)?.skip(1) {
        let lines = fs::read_to_string(&rt, path.as_str())?;
        for line in lines.as_str().lines() {
            match read(rt.alloc(), line) {
                Ok(_) => println!(&rt; "read")?,
                Err(SyntaxFault::At(count)) => println!(&rt; "{count}")?,
                Err(SyntaxFault::OutOfMemory) => println!(&rt; "out of memory")?,
            }
        }
    }
    Ok(())
}
PROGRAM
cd "$top/tests/expressions"
python3 -c '
import sys
from texts import texts
with open(sys.argv[3], "w") as out:
    for grammar, text in texts(int(sys.argv[1]), int(sys.argv[2]), sys.argv[4].split()):
        out.write(grammar[0] + text + "\n")
' "$count" "$seed" "$work/texts" "$grammars"
cd "$work/crates/expressions_compare"
rt try --seconds 600 -- "$work/texts" > "$work/answers" 2> "$work/log" || { tail -n 20 "$work/answers" "$work/log" >&2; exit 1; }
cd "$top/tests/expressions"
python3 -c '
import sys
from grammar import GRAMMARS
texts = open(sys.argv[1]).read().split("\n")[:-1]
answers = [line for line in open(sys.argv[2]).read().split("\n") if line == "read" or line.isdigit() or line == "out of memory"]
if len(answers) != len(texts):
    sys.exit(f"{len(texts)} texts, but {len(answers)} answers")
read = wrong = 0
for text, answer in zip(texts, answers):
    place = {name[0]: g for name, g in GRAMMARS.items()}[text[0]].read(text[1:])
    read += place is None
    if answer != ("read" if place is None else str(place)):
        wrong += 1
        print(f"{text!r}: the parser says {answer}, the grammar {place}")
print(f"{len(texts)} texts, {read} of them expressions: {wrong} answers differ")
sys.exit(wrong > 0)
' "$work/texts" "$work/answers"
