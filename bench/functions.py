#!/usr/bin/env python3
"""Lists the functions of crates that took the prover longest, in processor seconds: checks each crate by one job, in its folder, and
looks at the prover's processor time as it says that it is done with a function; parts of a function that it checks ahead are in the
time of another (bench/slowest.py takes the files of each, by the clock). What is kept of the crate is set aside first, so all of
it is checked; the libraries below are those that are kept, and built where they are not. The first function of a check has the crate's
own definitions in its time, and a lemma is in the time of the first function that cites it. Usage:
bench/functions.py [--kept] CRATE.. (with --kept only what changed since the last check is checked, and timed)"""
import os
import shutil
import subprocess
import sys

TOP = os.path.dirname(os.path.dirname(os.path.abspath(__file__)))
TICKS = os.sysconf("SC_CLK_TCK")
MOST = 30


def processor_time(pid):
    """The processor seconds of a process and of all below it, those that have ended among them."""
    try:
        with open(f"/proc/{pid}/stat", encoding="utf-8") as file:
            fields = file.read().rsplit(")", 1)[1].split()
        with open(f"/proc/{pid}/task/{pid}/children", encoding="utf-8") as file:
            below = file.read().split()
    except OSError:
        return 0
    return sum(map(int, fields[11:15])) / TICKS + sum(map(processor_time, below))


def times(crate):
    """The seconds of each function of a crate, and of all of its check; what the check says is shown where it fails."""
    words = ["rt", "check", "--jobs", "1", "--progress"]
    found, last, said = {}, 0, []
    how = {"cwd": f"{TOP}/crates/{crate}", "text": True, "errors": "replace"}
    with subprocess.Popen(words, stdout=subprocess.PIPE, stderr=subprocess.STDOUT, **how) as check:
        for line in check.stdout:
            now = processor_time(check.pid)
            said.append(line)
            if line.startswith("checked "):
                found[line.split()[1].rstrip(",")] = now - last
            last = max(last, now)
    if check.returncode:
        sys.exit("".join(said[-40:]) + f"functions.py: {crate} is not proved")
    return found, last


def main(words):
    is_kept = "--kept" in words
    found = []
    for crate in [word for word in words if word != "--kept"]:
        if not is_kept:
            shutil.rmtree(f"{TOP}/crates/{crate}/out/incremental", ignore_errors=True)
        by_name, whole = times(crate)
        print(f"{crate}: {len(by_name)} functions, {whole:.0f} s", file=sys.stderr)
        found += [(seconds, crate, name.removeprefix(f"{crate}::")) for name, seconds in by_name.items()]
    print("| Crate | What | Processor seconds |\n|---|---|---|")
    for seconds, crate, name in sorted(found, reverse=True)[:MOST]:
        print(f"| `{crate}` | `{name}` | {seconds:.1f} |")


if __name__ == "__main__":
    main(sys.argv[1:] or sys.exit(__doc__))
