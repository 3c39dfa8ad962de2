#!/bin/sh
# What a session from a number costs: `bulk --count N` with 1,000 and 10,000 calls (eleven assemblies of 50,003 points, and those for its
# figures), its time and its memory; beside it GNU as on a program with the same macros and calls, eleven times in a row, where it is
# installed (binutils-s390x-linux-gnu, or the one of this machine).
set -eu
. "$(dirname "$0")/served.sh"
python3 - "$server" "$work" "$bench" <<'RUNS'
import shutil, sys, time
server, work, bench = sys.argv[1:]
sys.path.insert(0, bench)
sys.dont_write_bytecode = True
from replay import run
open(f"{work}/nothing", "w").close()

# The six lines, worked out by hand: each call has five points and one symbol, and the members add its operand to the total.
def lines(count):
    operands = [call % 97 for call in range(count)]
    before = sum(operands)
    for edit in range(10):
        operands[edit * count // 10] = 5
    return (f"points {5 * count + 3}\nsymbols {count + 1}\ndiagnostics 0\ntotal {before}\nedits 10\n"
            f"total after edits {sum(operands)}\n").encode()

# The least seconds of five runs, and the peak in kB.
def measure(count):
    best = 1e9
    for _ in range(5):
        output, _, whole, peak = run([server, "bulk", "--count", str(count)], f"{work}/nothing")
        if output != lines(count):
            sys.exit(f"other lines: {output}")
        best = min(best, whole)
    return best, peak

# The least seconds of three times eleven runs of GNU as with the same macros.
def peer(assembler, count):
    with open(f"{work}/peer.s", "w") as out:
        out.write(".set TOT, 0\n")
        for member in range(10):
            out.write(f".macro M{member} l, p\n.set TOT, TOT+\\p\n\\l: .long \\p\n.endm\n")
        for call in range(count):
            out.write(f"M{call % 10} X{call}, {call % 97}\n")
    command = [assembler, "-o", "/dev/null", f"{work}/peer.s"]
    times = []
    for _ in range(3):
        start = time.perf_counter()
        for _ in range(11):
            run(command, f"{work}/nothing")
        times.append(time.perf_counter() - start)
    return min(times)

assembler = shutil.which("s390x-linux-gnu-as") or shutil.which("as")
for count in (1_000, 10_000):
    seconds, peak = measure(count)
    beside = f", GNU as eleven times {peer(assembler, count) * 1000:.0f} ms" if assembler else ""
    print(f"{count} calls: {seconds * 1000:.0f} ms, {peak / 1000:.0f} MB{beside}")
RUNS
