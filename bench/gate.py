"""Runs a command, and lists what the rattle processes below it cost, by crate. Used by gate.sh."""
import os
import subprocess
import sys
import time

TICK = os.sysconf("SC_CLK_TCK")
# A crate is to cost at most so many processor minutes for a thousand lines of code.
MOST = 8


def processes():
    """Of each process: the one above it, when it began, its processor seconds, its words and its folder."""
    rows = {}
    for pid in filter(str.isdigit, os.listdir("/proc")):
        try:
            with open(f"/proc/{pid}/stat") as file:
                fields = file.read().rpartition(")")[2].split()
            with open(f"/proc/{pid}/cmdline") as file:
                words = file.read().split("\0")
            seconds = sum(map(int, fields[11:15])) / TICK
            rows[pid] = fields[1], fields[19], seconds, words, os.readlink(f"/proc/{pid}/cwd")
        except (OSError, ValueError):
            pass
    return rows


def is_below(rows, pid, top):
    while pid in rows and pid != top:
        pid = rows[pid][0]
    return pid == top


def sample(top, seen):
    """Notes the processor seconds of each outermost rattle process below the command."""
    rows = processes()
    for pid, (above, began, seconds, words, folder) in rows.items():
        name = os.path.basename(words[0])
        if name != "rattle" or above in rows and os.path.basename(rows[above][3][0]) == "rattle":
            continue
        if is_below(rows, pid, top) and "--crate-name" in words:
            kind = "edits" if "/rt-edit" in folder else "tests" if "--test" in words else "check"
            seen[pid, began] = words[words.index("--crate-name") + 1], kind, seconds


def lines_of(crate):
    """The lines of code of a crate."""
    total = 0
    for at, _, files in os.walk(f"crates/{crate}/src"):
        for name in files:
            with open(f"{at}/{name}", encoding="utf-8") as file:
                total += sum(1 for _ in file)
    return total


def listed(seen, clock):
    """The table, the dearest crate first."""
    crates = {}
    for crate, kind, seconds in seen.values():
        row = crates.setdefault(crate, {"check": 0, "tests": 0, "edits": 0})
        row[kind] += seconds
    print("| Crate | Lines | Check, s | Tests, s | Edits, s | Minutes | Minutes a 1,000 lines |\n|---|---|---|---|---|---|---|")
    for crate, row in sorted(crates.items(), key=lambda it: -sum(it[1].values())):
        lines, minutes = lines_of(crate), sum(row.values()) / 60
        rate = minutes * 1000 / lines if lines else 0
        mark = " (above its share)" if rate > MOST else ""
        print(f"| `{crate}` | {lines} | {row['check']:.0f} | {row['tests']:.0f} | {row['edits']:.0f} | {minutes:.1f} | {rate:.1f}{mark} |")
    total = sum(sum(row.values()) for row in crates.values()) / 60
    print(f"\n{total:.0f} processor minutes in {clock / 60:.0f} minutes by the clock.")


def main(words):
    seen, began = {}, time.time()
    command = subprocess.Popen(words)
    while command.poll() is None:
        sample(str(command.pid), seen)
        time.sleep(0.5)
    listed(seen, time.time() - began)
    return command.returncode


if __name__ == "__main__":
    sys.exit(main(sys.argv[1:]))
