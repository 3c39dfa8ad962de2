#!/bin/sh
# What traces cost: a program over trace_arena and trace_cursor, built by rt in a copy of the crates below it. It makes nested nodes of a
# million points and walks through them, finds points of a node of 10,000 links, and releases a chain of a million linked nodes with a
# stack of 64 KiB.
set -eu
top=$(cd "$(dirname "$0")/.." && pwd)
work=$(mktemp -d)
trap 'rm -rf "$work"' EXIT
program=$work/crates/traces_bench
mkdir -p "$program/src"
for name in hl_base trace_values trace_arena trace_cursor; do
    cp -r "$top/crates/$name" "$work/crates/"
    grep "^$name:" "$top/crates.txt" >> "$work/crates.txt"
done
cp "$top/HANDLES" "$work/"
echo 'traces_bench: hl_base trace_values trace_arena trace_cursor' >> "$work/crates.txt"
cat > "$program/src/main.rt" <<'PROGRAM'
//! Times traces: points that are appended and linked, walked and found, and chains that are released.
#![tactic(auto)]

ghost use Rattle.std.specs.Prelude.{◌≡◌, ◌+◌, ◌<◌, IfOk, OnOk};
ghost use Rattle.trace_arena.specs.Nodes.{outside, IsLive, IsUnshared};

use hl_base::{
    Declarations, Frame, FrameKind, Frames, Ledger, Line, Notes, Origin, OutOfMemory, PathId,
    Steps, Text,
};
use std::alloc::Global;
use std::marker::Brand;
use std::mem::size_of;
use std::sync::ledger::Blank;
use std::time::Instant;
use std::{env, io};
use trace_arena::{NodeId, TraceArena};
use trace_cursor::Cursor;
use trace_values::{OwnFrames, Settings, TraceItem};

/// The frames of open code.
fn open_code(alloc: Global) -> Result<OwnFrames, OutOfMemory> {
    let origin = Origin {
        path: PathId(0),
        line: 0,
    };
    let innermost = Frame {
        kind: FrameKind::OpenCode,
        name: None,
        origin,
    };
    OwnFrames::of(alloc, Frames::new(alloc), innermost)
}

/// An item that only generates a line.
fn item(alloc: Global, frames: &OwnFrames, line: u32) -> Result<TraceItem, OutOfMemory> {
    let text = Line {
        label: Text::of(alloc, "LABEL")?,
        op: Text::of(alloc, "MVC")?,
        operands: Text::of(alloc, "TARGET,SOURCE")?,
    };
    Ok(TraceItem {
        frames: frames.at(Origin {
            path: PathId(0),
            line,
        })?,
        definition: None,
        called: None,
        entry: Settings::new(alloc),
        locals: Settings::new(alloc),
        declared: Declarations::new(alloc),
        globals: Settings::new(alloc),
        line: Some(text),
        notes: Notes::new(alloc),
    })
}

/// Makes so many items.
fn make_items(alloc: Global, frames: &OwnFrames, count: u32) -> Result<u32, OutOfMemory> {
    let mut sum = 0u32;
    for line in 0..count {
        let item = item(alloc, frames, line)?;
        sum = sum.wrapping_add(item.frames.origin().line);
    }
    Ok(sum)
}

/// Makes so many items and keeps them in room that was taken before.
fn keep_items(
    alloc: Global,
    frames: &OwnFrames,
    count: u32,
) -> Result<Vec<TraceItem>, OutOfMemory> {
    let mut items = Vec::with_capacity(alloc, count as usize)?;
    for line in 0..count {
        items.push(item(alloc, frames, line)?)?;
    }
    Ok(items)
}

/// A node of so many items.
fn leaf<L: Ledger>(
    alloc: Global,
    arena: &mut TraceArena<TraceItem>,
    frames: &OwnFrames,
    count: u32,
    steps: &mut Steps<L>,
) -> Result<NodeId, OutOfMemory> {
    let node = arena.begin(alloc)?;
    for line in 0..count {
        arena.append(node, item(alloc, frames, line)?, steps)?;
    }
    Ok(node)
}

/// A node of an item before each of these nodes, which are linked.
fn branch<L: Ledger>(
    alloc: Global,
    arena: &mut TraceArena<TraceItem>,
    frames: &OwnFrames,
    nodes: &[NodeId],
    steps: &mut Steps<L>,
) -> Result<NodeId, OutOfMemory> {
    let node = arena.begin(alloc)?;
    for child in nodes {
        arena.append(node, item(alloc, frames, child.0)?, steps)?;
        if arena.live(*child) && *child != node {
            arena.link(node, *child)?;
        }
    }
    Ok(node)
}

/// A root of nested nodes, of `width` items each, or items with a linked node behind each; at the bottom stand `leaves`.
fn nested<L: Ledger>(
    alloc: Global,
    arena: &mut TraceArena<TraceItem>,
    frames: &OwnFrames,
    leaves: u32,
    width: u32,
    steps: &mut Steps<L>,
) -> Result<Option<NodeId>, OutOfMemory> {
    let mut nodes = Vec::new(alloc);
    for _ in 0..leaves {
        nodes.push(leaf(alloc, arena, frames, width, steps)?)?;
    }
    for _ in 0..32 {
        if nodes.len() < 2 {
            break;
        }
        let mut above = Vec::new(alloc);
        for part in nodes.as_slice().chunks(width.max(1) as usize) {
            above.push(branch(alloc, arena, frames, part, steps)?)?;
        }
        nodes = above;
    }
    Ok(nodes.pop())
}

/// Walks from the first point to the last, and tells how many there are.
fn walk(arena: &TraceArena<TraceItem>, root: NodeId) -> u32
    requires { IsLive arena.now.nodes root.0 }
{
    let Some(mut cursor) = Cursor::at(arena, root, 0) else {
        return 0;
    };
    let mut count = 1u32;
    for _ in 0..u32::MAX {
        if !cursor.advance(arena) {
            break;
        }
        count = count.wrapping_add(1);
    }
    count
}

/// Finds so many points, drawn by lot, and tells how many there are.
fn find(arena: &TraceArena<TraceItem>, root: NodeId, points: u32, times: u32) -> u32
    requires { IsLive arena.now.nodes root.0 }
{
    let mut number = 1u64;
    let mut found = 0u32;
    for _ in 0..times {
        number = number
            .wrapping_mul(6_364_136_223_846_793_005)
            .wrapping_add(1_442_695_040_888_963_407);
        let index = (number >> 33) % u64::from(points.max(1));
        if Cursor::at(arena, root, index as u32).is_some() {
            found = found.wrapping_add(1);
        }
    }
    found
}

/// A node that links this one, whose maker gives it up.
fn longer(
    alloc: Global,
    arena: &mut TraceArena<TraceItem>,
    node: NodeId,
) -> Result<NodeId, OutOfMemory>
    requires { IsUnshared arena.old.nodes node.0 }
    ensures { IfOk result (λ above. IsUnshared arena.new.nodes above.0) }
{
    let above = arena.begin(alloc)?;
    arena.link(above, node)?;
    arena.release(node);
    Ok(above)
}

/// A chain of so many nodes.
fn chain(
    alloc: Global,
    arena: &mut TraceArena<TraceItem>,
    count: u32,
) -> Result<NodeId, OutOfMemory>
    ensures { IfOk result (λ node. IsUnshared arena.new.nodes node.0) }
{
    let mut node = arena.begin(alloc)?;
    for _ in 1..count {
        node = longer(alloc, arena, node)?;
    }
    Ok(node)
}

/// What a text of the arena says where memory is wanting.
fn failed() -> io::Error {
    io::Error::from(io::ErrorKind::OutOfMemory)
}

/// Times items that are made and dropped, and such that are made and kept in room that was taken before.
fn time_items(rt: &HostRuntime, frames: &OwnFrames, count: u32) -> io::Result<()> {
    let start = Instant::now(rt)?;
    let sum = make_items(rt.alloc(), frames, count).map_err(|_| failed())?;
    let time = start.elapsed(rt)?.as_nanos();
    println!(rt; "made {count} {time} {sum}")?;
    let start = Instant::now(rt)?;
    let items = keep_items(rt.alloc(), frames, count).map_err(|_| failed())?;
    let time = start.elapsed(rt)?.as_nanos();
    println!(rt; "kept {} {time}", items.len())?;
    Ok(())
}

/// Times a walk from the first point to the last.
fn time_walk(
    rt: &HostRuntime,
    arena: &TraceArena<TraceItem>,
    root: NodeId,
    width: u32,
) -> io::Result<()>
    requires { IsLive arena.now.nodes root.0 }
{
    let start = Instant::now(rt)?;
    let count = walk(arena, root);
    let time = start.elapsed(rt)?.as_nanos();
    println!(rt; "walk{width} {count} {time}")?;
    Ok(())
}

/// Makes a root of nested nodes and walks through it.
fn time_nested<L: Ledger>(
    rt: &HostRuntime,
    leaves: u32,
    width: u32,
    steps: &mut Steps<L>,
) -> io::Result<()> {
    let alloc = rt.alloc();
    let frames = open_code(alloc).map_err(|_| failed())?;
    let mut arena = TraceArena::new(alloc);
    let start = Instant::now(rt)?;
    let root = nested(alloc, &mut arena, &frames, leaves, width, steps).map_err(|_| failed())?;
    let time = start.elapsed(rt)?.as_nanos();
    let made = arena.made();
    println!(rt; "nested{width} {made} {time}")?;
    if let Some(root) = root
        && arena.live(root)
    {
        time_walk(rt, &arena, root, width)?;
        time_walk(rt, &arena, root, width)?;
    }
    time_items(rt, &frames, u32::try_from(made).unwrap_or(0))
}

/// Finds points of a node of 10,000 links.
fn time_wide<L: Ledger>(rt: &HostRuntime, steps: &mut Steps<L>) -> io::Result<()> {
    let alloc = rt.alloc();
    let frames = open_code(alloc).map_err(|_| failed())?;
    let mut arena = TraceArena::new(alloc);
    let leaf = leaf(alloc, &mut arena, &frames, 3, steps).map_err(|_| failed())?;
    let nodes = vec![in alloc; leaf; 10_000].map_err(|_| failed())?;
    let root = branch(alloc, &mut arena, &frames, &nodes, steps).map_err(|_| failed())?;
    if arena.live(root) {
        let points = arena.points(root);
        for _ in 0..3 {
            let start = Instant::now(rt)?;
            let found = find(&arena, root, points, 100_000);
            let time = start.elapsed(rt)?.as_nanos();
            println!(rt; "find {found} {time}")?;
        }
    }
    Ok(())
}

/// Makes and releases a chain of so many nodes.
fn time_chain(rt: &HostRuntime, count: u32) -> io::Result<()> {
    let alloc = rt.alloc();
    let mut arena: TraceArena<TraceItem> = TraceArena::new(alloc);
    let start = Instant::now(rt)?;
    let node = chain(alloc, &mut arena, count).map_err(|_| failed())?;
    let made = start.elapsed(rt)?.as_nanos();
    println!(rt; "chain {count} {made}")?;
    let start = Instant::now(rt)?;
    arena.release(node);
    let time = start.elapsed(rt)?.as_nanos();
    println!(rt; "release {count} {time} {}", arena.live(NodeId(0)))?;
    Ok(())
}

/// Times what the words of the program name.
fn time_each<L: Ledger>(rt: &HostRuntime, blank: Blank) -> io::Result<()>
    requires name { blank.name ≡ L.name }
    requires parts { blank.parts ≡ L.parts }
    requires one { blank.parts ≡ 1 }
{
    println!(rt; "item {}", size_of::<TraceItem>())?;
    let mut steps = Steps::<L>::open(blank);
    for word in env::args(rt)?.skip(1) {
        match word.as_str() {
            "tens" => time_nested(rt, 90_000, 10, &mut steps)?,
            "hundreds" => time_nested(rt, 9_900, 100, &mut steps)?,
            "wide" => time_wide(rt, &mut steps)?,
            _ => time_chain(rt, 1_000_000)?,
        }
    }
    Ok(())
}

fn main(rt: HostRuntime) -> io::Result<()> {
    time_each::<Brand>(&rt, Blank::new(1))
}
PROGRAM

# What a loop keeps, or what is picked of a ghost name: FUNCTION, NAME, the libraries' names that it uses, and the term.
invariant() {
    mkdir -p "$program/proofs/$1"
    printf '%suse Rattle.traces_bench.proofs.%s.Given as goal\n\nabbrev pub %s : goal.%s\n%s %s\n' "$3" "$1" "$2" "$2" "$2" "$4" \
        > "$program/proofs/$1/Invariants.antt"
}
unshared='use Rattle.trace_arena.specs.Nodes.{IsUnshared}
'
standing='use Rattle.std.proofs.Common.{◌≡◌}
use Rattle.trace_cursor.specs.Places.{StandsAt}
'
invariant leaf invariant-loop-line "$unshared" 'g l = IsUnshared l.arena.nodes l.node.0'
invariant branch invariant-loop-child "$unshared" 'g l = IsUnshared l.arena.nodes l.node.0'
invariant chain invariant-loop "$unshared" 'l = IsUnshared l.arena.nodes l.node.0'
invariant walk invariant-loop "$standing" \
    'l = StandsAt l.arena.nodes l.cursor × (l.cursor.root ≡ l.fn.root) × (l.arena ≡ l.fn.arena)'
invariant main ghosts-time_each '' 'a = record { name = a.blank.name; parts = a.blank.parts }'

cd "$program"
rt run -- wide > "$work/log" 2>&1 || { tail -n 40 "$work/log" >&2; exit 1; }
(
    ulimit -s 64
    for run in 1 2 3 4 5 6 7; do
        out/traces_bench hundreds tens wide chain
    done
) > "$work/times"
python3 - "$work/times" <<'RESULT'
import sys
best, count = {}, {}
for words in map(str.split, open(sys.argv[1])):
    if words[0] == "item":
        size = words[1]
    else:
        count[words[0]] = int(words[1])
        best[words[0]] = min(best.get(words[0], 1 << 80), int(words[2]))
each = {name: best[name] / count[name] for name in best}
print(f"an item takes {size} bytes (at most 300)")
print(f"an item: made {each['made']:.0f} ns, made and kept in a list {each['kept']:.0f} ns")
for width in (100, 10):
    nested, walk = each[f"nested{width}"], each[f"walk{width}"]
    more = nested - each["kept"]
    print(f"a point in nodes of {width}: made, appended and linked {nested:.0f} ns, {more:.0f} more than kept in a list (at most 100)")
    print(f"a step of a walk through them {walk:.1f} ns (at most 50)")
print(f"a point found in a node of 10,000 links: {each['find'] / 1000:.2f} us (at most 5)")
print(f"a chain of {count['release']} nodes: made in {best['chain'] / 1e6:.0f} ms, released in {best['release'] / 1e6:.0f} ms")
RESULT
