#!/bin/sh
# What it costs to read a macro definition: a program over macro_library, built by rt in a copy of this repository. It reads a definition
# of 60,000 statements, and one that copies a member of as many, beside the reading of these statements alone; and a definition that
# copies a member, which copies the next one twice, and so on: with more and more members, and with so many that it is stopped at the
# limit of 65,536 statements.
set -eu
. "$(dirname "$0")/program.sh"
program definitions_bench 'hl_base hlasm_statements macro_library statement_listing' <<'PROGRAM'
//! Times the reading of definitions, as often as its third argument says: of the text that the second names where the first is
//! `definition`, of one that copies this text where it is `member`, and of one that copies so many members where it is `copies`.
#![tactic(auto)]

use hl_base::{Name, OutOfMemory, PathId};
use hlasm_statements::read_statements;
use macro_library::{Member, MemberFile, Members, read_definition};
use statement_listing::Listing;
use std::alloc::Global;
use std::rc::RcStr;
use std::time::Instant;
use std::{env, fs, io};

/// A definition that copies the member M0.
const COPYING: &str = " MACRO\n MAC\n COPY M0\n MEND";

/// What is said where memory is wanting.
fn failed() -> io::Error {
    io::Error::from(io::ErrorKind::OutOfMemory)
}

/// The list of a text.
fn list_of(alloc: Global, text: &str) -> Result<Listing, OutOfMemory> {
    Listing::of(alloc, PathId(0), read_statements(alloc, text)?)
}

/// Tells of the member of a number, from 0.
fn tell(alloc: Global, members: &mut Members, number: u32, text: &str) -> Result<(), OutOfMemory> {
    let path = PathId(number.saturating_add(1));
    let name = format!(in alloc; "M{number}")?;
    if let Some(name) = Name::read(name.as_str()) {
        members.add(alloc, &name, Member::File(MemberFile::of(alloc, path, RcStr::from_str(alloc, text)?)?))?;
    }
    Ok(())
}

/// So many members, each of which copies the next one twice; the last has one statement.
fn doubling(alloc: Global, count: u32) -> Result<Members, OutOfMemory> {
    let mut members = Members::new(alloc);
    for next in 1..count {
        let text = format!(in alloc; " COPY M{next}\n COPY M{next}")?;
        tell(alloc, &mut members, next.saturating_sub(1), text.as_str())?;
    }
    tell(alloc, &mut members, count.saturating_sub(1), " LR 1,2")?;
    Ok(members)
}

/// A member with this text.
fn one_member(alloc: Global, text: &str) -> Result<Members, OutOfMemory> {
    let mut members = Members::new(alloc);
    tell(alloc, &mut members, 0, text)?;
    Ok(members)
}

/// How many statements the definition at the front of a list has; 0 where it has a fault.
fn statement_count(alloc: Global, list: &Listing, members: &Members) -> usize {
    match read_definition(alloc, list, 0, members) {
        Ok(definition) => definition.list().lines().len(),
        Err(_) => 0,
    }
}

/// Times the reading of a definition.
fn time_definition(
    rt: &HostRuntime,
    sort: &str,
    list: &Listing,
    members: &Members,
) -> io::Result<()> {
    let start = Instant::now(rt)?;
    let count = statement_count(rt.alloc(), list, members);
    let time = start.elapsed(rt)?.as_nanos();
    println!(rt; "{sort} {count} {time}")
}

/// Times the reading of the statements of a text.
fn time_statements(rt: &HostRuntime, text: &str) -> io::Result<()> {
    let start = Instant::now(rt)?;
    let count = match read_statements(rt.alloc(), text) {
        Ok(statements) => statements.as_slice().len(),
        Err(_) => 0,
    };
    let time = start.elapsed(rt)?.as_nanos();
    println!(rt; "statements {count} {time}")
}

/// Times the making of the list of a text, of which each statement is read and then prepared.
fn time_list(rt: &HostRuntime, text: &str) -> io::Result<()> {
    let start = Instant::now(rt)?;
    let count = match list_of(rt.alloc(), text) {
        Ok(list) => list.lines().len(),
        Err(_) => 0,
    };
    let time = start.elapsed(rt)?.as_nanos();
    println!(rt; "list {count} {time}")
}

/// Times a text that is a definition: its statements, its list, and the definition.
fn time_text(rt: &HostRuntime, text: &str, times: usize) -> io::Result<()> {
    let list = list_of(rt.alloc(), text).map_err(|_| failed())?;
    let none = Members::new(rt.alloc());
    for _ in 0..times {
        time_statements(rt, text)?;
        time_list(rt, text)?;
        time_definition(rt, "definition", &list, &none)?;
    }
    Ok(())
}

/// Times a definition that copies a member with this text.
fn time_member(rt: &HostRuntime, text: &str, times: usize) -> io::Result<()> {
    let copying = list_of(rt.alloc(), COPYING).map_err(|_| failed())?;
    let told = one_member(rt.alloc(), text).map_err(|_| failed())?;
    for _ in 0..times {
        time_definition(rt, "member", &copying, &told)?;
    }
    Ok(())
}

/// Times a definition that copies so many members.
fn time_copies(rt: &HostRuntime, count: u32, times: usize) -> io::Result<()> {
    let copying = list_of(rt.alloc(), COPYING).map_err(|_| failed())?;
    let told = doubling(rt.alloc(), count).map_err(|_| failed())?;
    for _ in 0..times {
        time_definition(rt, "copies", &copying, &told)?;
    }
    Ok(())
}

fn main(rt: HostRuntime) -> io::Result<()> {
    let mut words = env::args(&rt)?.skip(1);
    let (Some(sort), Some(what), Some(times)) = (words.next(), words.next(), words.next()) else {
        return Ok(());
    };
    let times = times.as_str().parse::<usize>().unwrap_or(1);
    if sort.as_str() == "copies" {
        return time_copies(&rt, what.as_str().parse::<u32>().unwrap_or(1), times);
    }
    let text = fs::read_to_string(&rt, what.as_str())?;
    if sort.as_str() == "member" {
        return time_member(&rt, text.as_str(), times);
    }
    time_text(&rt, text.as_str(), times)
}
PROGRAM
python3 - "$work" <<'TEXTS'
import sys
shapes = ["&I       SETA  &I+1                      count", "         AIF   (&I LT 100).L{n:03}", ".L{n:03}    ANOP",
          "*        a comment on what follows",
          "LAB&SYSNDX MVC   TARGET,&FIELD           remarks on the move", "         LR    R1,R2"]
def line(n):
    return shapes[n % 6].format(n=n % 1000).ljust(72) + "%08d\n" % n
body = "".join(map(line, range(59999)))
for name, text in (("definition", f"         MACRO\n         MAC   &FIELD\n{body}         MEND"), ("member", body.rstrip("\n"))):
    with open(f"{sys.argv[1]}/{name}.hlasm", "w") as out:
        out.write(text)
TEXTS
rt run -- definition "$work/definition.hlasm" 1 > "$work/built" || { cat "$work/built" >&2; exit 1; }
python3 - "$work" "$work/crates/definitions_bench/out/definitions_bench" <<'RESULT'
import subprocess, sys
work, program = sys.argv[1:]

# The least nanoseconds of each sort, and its count.
def run(sort, what, times=21):
    printed = subprocess.run([program, sort, str(what), str(times)], stdout=subprocess.PIPE, text=True, check=True).stdout
    best, counts = {}, {}
    for words in map(str.split, printed.splitlines()):
        best[words[0]] = min(best.get(words[0], 1 << 80), int(words[2]))
        counts[words[0]] = int(words[1])
    return best, counts

best, counts = run("definition", f"{work}/definition.hlasm")
member, copied = run("member", f"{work}/member.hlasm")
if counts != {"statements": 60002, "list": 60002, "definition": 60000} or copied != {"member": 60000}:
    sys.exit(f"not what was wanted: {counts}, {copied}")
alone = best["statements"]
print(f"a definition of 60000 statements: read in {best['definition'] / 1e6:.1f} ms, its statements alone in {alone / 1e6:.1f} ms: "
      f"{best['definition'] / alone:.2f} times (at most 2)")
print(f"copied from a member: read in {member['member'] / 1e6:.1f} ms, {member['member'] / alone:.2f} times (at most 2)")
print(f"their list is made in {best['list'] / 1e6:.1f} ms, {best['list'] / alone:.2f} times")

# So many members double a statement; each statement and each COPY is counted, and the MEND.
counted = {members: 3 * 2 ** (members - 1) for members in (10, 15)}
times = {}
for members in counted:
    best, counts = run("copies", members, 101)
    if counts["copies"] != 2 ** (members - 1) + 1:
        sys.exit(f"{members} members: {counts}")
    times[members] = best["copies"]
each = times[15] / counted[15]
print(f"members that copy the next one twice: {counted[15]} statements in {times[15] / 1e6:.1f} ms, {each:.0f} ns a statement; "
      f"32 times as many as {counted[10]} take {times[15] / times[10]:.1f} times as long (at most 48)")
best, counts = run("copies", 26, 101)
if counts["copies"] != 0:
    sys.exit(f"26 members: {counts}")
stopped = best["copies"] / 65536
print(f"stopped at 65536 statements: in {best['copies'] / 1e6:.1f} ms, {stopped:.0f} ns a statement, "
      f"{stopped / each:.2f} times what one costs that is read (at most 1.5)")
RESULT
