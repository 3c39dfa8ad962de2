#!/bin/sh
# How fast expressions are read: a program over operand_grammar, built by rt in a copy of this repository.
set -eu
top=$(cd "$(dirname "$0")/.." && pwd)
work=$(mktemp -d)
trap 'rm -rf "$work"' EXIT
cp -r "$top/crates" "$top/crates.txt" "$top/HANDLES" "$work/"
mkdir -p "$work/crates/expressions_bench/src"
echo 'expressions_bench: operand_grammar' >> "$work/crates.txt"
cat > "$work/crates/expressions_bench/src/main.rt" <<'PROGRAM'
//! Times the reading of the lines of its arguments as expressions, and a pass over their characters. A file named as the
//! condition of an AIF is read as one, up to the parenthesis that ends it.
#![tactic(auto)]

use operand_grammar::logical_grammar::parse_logic_front;
use operand_grammar::{parse_arith, parse_char, parse_logic};
use std::time::Instant;
use std::{env, fs, io};

/// What the lines of a file are.
#[derive(Clone, Copy)]
enum Kind {
    Numbers,
    Texts,
    Truths,
}

/// What a file's lines are, by its first character.
fn kind_of(text: &str) -> Kind {
    if text.starts_with('\'') {
        Kind::Texts
    } else if text.starts_with('N') {
        Kind::Truths
    } else {
        Kind::Numbers
    }
}

/// The nanoseconds of reading each line, and how many are expressions.
fn expressions(rt: &HostRuntime, text: &str, kind: Kind) -> io::Result<(u128, usize)> {
    let start = Instant::now(rt)?;
    let mut count = 0usize;
    for line in text.lines() {
        let is_read = match kind {
            Kind::Numbers => parse_arith(rt.alloc(), line).is_ok(),
            Kind::Texts => parse_char(rt.alloc(), line).is_ok(),
            Kind::Truths => parse_logic(rt.alloc(), line).is_ok(),
        };
        if is_read {
            count = count.saturating_add(1);
        }
    }
    Ok((start.elapsed(rt)?.as_nanos(), count))
}

/// The nanoseconds of one pass over the characters, and how many there are.
fn plain(rt: &HostRuntime, text: &str) -> io::Result<(u128, usize)> {
    let start = Instant::now(rt)?;
    let mut count = 0usize;
    for line in text.lines() {
        for c in line.chars() {
            if c != '(' {
                count = count.saturating_add(1);
            }
        }
    }
    Ok((start.elapsed(rt)?.as_nanos(), count))
}

/// The nanoseconds of reading a text as the condition that it begins with, and how many characters that has.
fn condition(rt: &HostRuntime, text: &str) -> io::Result<(u128, usize)> {
    let start = Instant::now(rt)?;
    let count = match parse_logic_front(rt.alloc(), text) {
        Ok(front) => front.before,
        Err(_) => 0,
    };
    Ok((start.elapsed(rt)?.as_nanos(), count))
}

fn main(rt: HostRuntime) -> io::Result<()> {
    for path in env::args(&rt)?.skip(1) {
        let text = fs::read_to_string(&rt, path.as_str())?;
        if path.as_str().ends_with(".condition") {
            for _ in 0..11 {
                let (time, count) = condition(&rt, text.as_str())?;
                println!(&rt; "condition {} {count} {time}", text.len())?;
            }
            continue;
        }
        for _ in 0..21 {
            let kind = kind_of(text.as_str());
            let (time, count) = expressions(&rt, text.as_str(), kind)?;
            let name = match kind {
                Kind::Numbers => "expressions",
                Kind::Texts => "texts",
                Kind::Truths => "truths",
            };
            println!(&rt; "{name} {} {count} {time}", text.len())?;
            let (time, count) = plain(&rt, text.as_str())?;
            println!(&rt; "characters {} {count} {time}", text.len())?;
        }
    }
    Ok(())
}
PROGRAM
python3 - "$work" <<'TEXTS'
import sys
arithmetic = ["&COUNT+1", "(&A(1)-K'&NAME)*2", "X'1F'/3 + &LONGER_NAME(&I,2)", " 4 * ( N'&SYSLIST - 1 ) ", "+".join(["(&V*12)"] * 120)]
texts = ["'&NAME'.'_1'", "(&N+1)'AB'.T'&X", "'ABC&X..(''&Y(1,&I)'')'(2,*)", "T'&SYSLIST(&I)",
         ".".join(["'some text &V. and more of it'"] * 30)]
truths = ["NOT &COUNT+1 EQ 3 AND (&A(1) GT 2)", "(&N EQ 1) OR ('&TYPE' NE 'X' AND T'&X EQ 'F')", "((1)) XOR (&A LT K'&NAME)",
          "(2)'AB' EQ '&V.&W'(1,4)", " OR ".join(["(&V EQ 12)"] * 80)]
for name, lines, count in (("arithmetic", arithmetic, 5500), ("texts", texts, 5500), ("truths", truths, 5500)):
    for times in (1, 2):
        with open(f"{sys.argv[1]}/{name}{times}.txt", "w") as out:
            out.write("".join(lines[n % 5] + "\n" for n in range(count * times)))
# A parenthesis closes no condition within quotes, nor where others are open; both were read again at each parenthesis once.
conditions = {"closing": "'" + "abc)" * 1_000_000 + "' EQ 'A'", "nested": "(" * 900 + " " * 2_000_000 + "1" + ")" * 900}
for name, text in conditions.items():
    with open(f"{sys.argv[1]}/{name}.condition", "w") as out:
        out.write(text + ").L")
TEXTS
cd "$work/crates/expressions_bench"
files="$work/arithmetic1.txt $work/arithmetic2.txt $work/texts1.txt $work/texts2.txt $work/truths1.txt $work/truths2.txt"
files="$files $work/closing.condition $work/nested.condition"
# shellcheck disable=SC2086
rt run -- $files > "$work/times" 2> "$work/log" || { tail -n 20 "$work/times" "$work/log" >&2; exit 1; }
python3 - "$work/times" <<'RESULT'
import sys
best, read = {}, {}
least = {"expressions": 60, "texts": 100, "truths": 40}
for words in map(str.split, open(sys.argv[1])):
    if len(words) == 4 and words[0] in (*least, "characters", "condition"):
        key = (words[0], int(words[1]))
        read[key] = int(words[2])
        best[key] = min(best.get(key, 1 << 80), int(words[3]))
for kind in ("expressions", "texts", "truths"):
    once, twice = sorted(size for k, size in best if k == kind)
    for what, name in ((kind, kind), ("characters", f"the characters of these {kind}")):
        print(f"{name}: {once} bytes in {best[what, once] / 1e6:.2f} ms, {once * 1000 / best[what, once]:.0f} MB/s")
    print(f"a byte of {kind}: {best[kind, once] / once:.2f} ns (at most {1000 / least[kind]:.1f}, which is {least[kind]} MB/s)")
    print(f"twice the text: {best[kind, twice] / best[kind, once]:.2f} times the time (at most 2.2)")
for size in sorted((size for what, size in best if what == "condition"), reverse=True):
    if read["condition", size] != size - len(").L"):
        sys.exit(f"a condition of {size} bytes was not read")
    what = "with a million closing parentheses" if size > 4_000_000 else "in 900 parentheses, with 2 MB of blanks"
    print(f"a condition {what}: {size} bytes in {best['condition', size] / 1e6:.2f} ms (at most 100)")
RESULT
