#!/bin/sh
# What macro calls cost: whole sessions of the built program with 10,000 and 100,000 calls of a macro with a counter and a constant,
# beside GNU as with the same macro where it is installed (binutils-s390x-linux-gnu); how much memory a point takes; and calls at the
# depths 1 and 100.
set -eu
. "$(dirname "$0")/served.sh"
python3 - "$server" "$work" "$bench" <<'RUNS'
import shutil, sys
server, work, bench = sys.argv[1:]
sys.path.insert(0, bench)
sys.dont_write_bytecode = True
from replay import opened, run, write_session
served = [server, "serve", "--budget", "400000"]

NUMBER = "         MACRO\n         NUMBER &P\n         DC    A(&SYSNDX,&P)\n         MEND\n"
# A macro that is called to a depth, and there calls the other so many times.
LOOP = ("         MACRO\n         LOOP  &DEPTH,&TIMES\n         ACTR  100000\n         LCLA  &I\n         AIF   (&DEPTH EQ 1).HERE\n"
        "&D       SETA  &DEPTH-1\n         LOOP  &D,&TIMES\n         MEXIT\n.HERE    NUMBER &I\n&I       SETA  &I+1\n"
        "         AIF   (&I LT &TIMES).HERE\n         MEND\n")

# The least seconds of five sessions with a text, and the peak in kB. Its list is to be empty.
def measure(text, language="hlasm"):
    path = write_session(f"{work}/session", [opened("file:///w/a.hlasm", text, language)])
    best = 1e9
    for _ in range(5):
        output, _, whole, peak = run(served, path)
        if language == "hlasm" and b'"diagnostics":[]' not in output:
            sys.exit(f"the program has notes: {output[-400:]}")
        best = min(best, whole)
    return best, peak

def calls(count):
    return NUMBER + "         NUMBER 7\n" * count + "         END\n"

# The least seconds of five runs of GNU as with the same macro.
def peer(count):
    with open(f"{work}/peer.s", "w") as out:
        out.write(".macro number p\n.long \\@, \\p\n.endm\n" + "number 7\n" * count)
    command = ["s390x-linux-gnu-as", "-o", "/dev/null", f"{work}/peer.s"]
    open(f"{work}/nothing", "w").close()
    return min(run(command, f"{work}/nothing")[2] for _ in range(5))

for count in (10_000, 100_000):
    seconds, peak = measure(calls(count))
    beside = f", GNU as {peer(count) * 1000:.0f} ms" if shutil.which("s390x-linux-gnu-as") else ""
    print(f"{count} calls: {seconds * 1000:.0f} ms{beside}")
_, plain = measure(calls(100_000), "plaintext")
print(f"memory: {(peak - plain) * 1024 / 300_002:.0f} bytes a point (at most 300)")
shallow, deep = (measure(NUMBER + LOOP + f"         LOOP  {depth},20000\n         END\n")[0] for depth in (1, 100))
print(f"20000 calls in a loop at depth 100: {deep * 1000:.0f} ms, {deep / shallow:.2f} times as long as at depth 1")
RUNS
