#!/bin/sh
# How fast a long text is edited: a program over document_store, built by rt in a copy of the crates below it.
set -eu
top=$(cd "$(dirname "$0")/.." && pwd)
work=$(mktemp -d)
trap 'rm -rf "$work"' EXIT
mkdir -p "$work/crates/edits_bench/src"
for name in hl_base file_uri text_pool document_store; do
    cp -r "$top/crates/$name" "$work/crates/"
    grep "^$name:" "$top/crates.txt" >> "$work/crates.txt"
done
cp "$top/HANDLES" "$work/"
echo 'edits_bench: hl_base document_store' >> "$work/crates.txt"
cat > "$work/crates/edits_bench/src/main.rt" <<'PROGRAM'
//! Times edits of the text that its argument names, and copies of that text.
#![tactic(auto)]

use document_store::{DocumentStore, StoreFault};
use hl_base::{Edit, Edits, Position, Text};
use std::alloc::Global;
use std::time::Instant;
use std::{env, fs, io};

/// The URI of the one document.
const NAME: &str = "file:///long.hlasm";

/// The next of a row of numbers that look drawn by lot.
fn drawn(last: u64) -> u64 {
    last.wrapping_mul(6_364_136_223_846_793_005).wrapping_add(1_442_695_040_888_963_407)
}

/// A place in the text for such a number: it has at least 50,000 lines of 80 characters.
fn place(drawn: u64) -> Position {
    let line = (drawn >> 32) % 50_000;
    let character = (drawn >> 16) % 80;
    Position {
        line: line as u32,
        character: character as u32,
    }
}

/// Types a character at a place of the document.
fn type_at(alloc: Global, store: &mut DocumentStore, at: Position) -> Result<(), StoreFault> {
    let mut edits = Edits::new(alloc);
    edits.push(Edit {
        from: Some(at),
        to: Some(at),
        text: Text::of(alloc, "x")?,
    })?;
    store.change(alloc, NAME, 1, edits.as_slice())
}

/// The nanoseconds of 1,000 edits of an open document, and how many were taken.
fn edits(rt: &HostRuntime, text: &str) -> io::Result<(u128, usize)> {
    let mut store = DocumentStore::new(rt.alloc());
    let mut taken = 0usize;
    if store.open_text(rt.alloc(), NAME, "hlasm", 0, text).is_err() {
        return Ok((0, taken));
    }
    let mut number = 1u64;
    let start = Instant::now(rt)?;
    for _ in 0..1000 {
        number = drawn(number);
        if type_at(rt.alloc(), &mut store, place(number)).is_ok() {
            taken = taken.wrapping_add(1);
        }
    }
    Ok((start.elapsed(rt)?.as_nanos(), taken))
}

/// The nanoseconds of 1,000 copies into memory that is there.
fn copies(rt: &HostRuntime, text: &str) -> io::Result<(u128, usize)> {
    let mut copy = String::from_str(rt.alloc(), text)?;
    let start = Instant::now(rt)?;
    for _ in 0..1000 {
        copy.clear();
        copy.push_str(text)?;
    }
    Ok((start.elapsed(rt)?.as_nanos(), copy.len()))
}

fn main(rt: HostRuntime) -> io::Result<()> {
    for path in env::args(&rt)?.skip(1) {
        let text = fs::read_to_string(&rt, path.as_str())?;
        for _ in 0..5 {
            let (time, taken) = edits(&rt, text.as_str())?;
            println!(&rt; "edits {taken} {time}")?;
            let (time, length) = copies(&rt, text.as_str())?;
            println!(&rt; "copies {length} {time}")?;
        }
    }
    Ok(())
}
PROGRAM
python3 - "$work/text.hlasm" <<'TEXT'
import sys
size = 4 * 1024 * 1024 - 1000
lines = "".join(("L%05d   MVC   TARGET,SOURCE" % n).ljust(72) + "%08d\n" % n for n in range(size // 81))
with open(sys.argv[1], "w") as out:
    out.write(lines.ljust(size, "*"))
TEXT
cd "$work/crates/edits_bench"
rt run -- "$work/text.hlasm" > "$work/times" || { cat "$work/times" >&2; exit 1; }
python3 - "$work/times" <<'RESULT'
import sys
best = {}
size = 4 * 1024 * 1024
for words in map(str.split, open(sys.argv[1])):
    if words and words[0] == "edits" and int(words[1]) != 1000:
        sys.exit(f"an edit was refused: {words[1]} of 1000 were taken")
    if len(words) == 3 and words[0] in ("edits", "copies"):
        best[words[0]] = min(best.get(words[0], 1 << 80), int(words[2]))
for kind in ("edits", "copies"):
    print(f"{kind}: {1e12 / best[kind]:.0f} a second, {best[kind] / 1e9:.3f} ms each")
print(f"an edit of {size} bytes takes as long as {best['edits'] / best['copies']:.2f} copies (at most 6)")
RESULT
