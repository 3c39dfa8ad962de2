#!/usr/bin/env python3
"""Proves and builds programs (or every crate, where none is named) and the crates that they stand on: as many side by side as there
are processors and memory, each once the crates below it are proved, and first those with the longest chain of others above them. What
is proved is kept in crates/NAME/out, so with no change since it says so and ends. It tries no tests and no edits, as rt ci does.
What rt ci proved on this machine of the same texts is taken over first (kept.py), and is not proved again.
Usage: tools/build.py [PROGRAM..]

A library is kept as its statements, as rt ci has it, and not with its proofs as rt lib has it: the crates above then read a tenth as
much. The words for rattle are those that the kit's own rtlib makes, and the stamps are rt's, so that rt check, rt test and rt run in a
crate's folder take up what is kept here."""
import hashlib
import importlib.machinery
import importlib.util
import os
import shutil
import subprocess
import sys
import time
from concurrent.futures import FIRST_COMPLETED, ThreadPoolExecutor, wait

sys.dont_write_bytecode = True
TOP = os.path.dirname(os.path.dirname(os.path.abspath(__file__)))
TARGET = "x86_64-unknown-linux-gnu"
# The memory that a check may take: most take 2 GB, the largest crate 4.
ROOM = 3_000_000_000


def kit_library():
    """The kit's rtlib, as its command rt loads it."""
    where = os.path.dirname(os.path.realpath(shutil.which("rt") or sys.exit("build: the command rt of the kit is not on the PATH")))
    loader = importlib.machinery.SourceFileLoader("rtlib", f"{where}/rtlib.py")
    made = importlib.util.module_from_spec(importlib.util.spec_from_loader("rtlib", loader))
    sys.modules["rtlib"] = made
    loader.exec_module(made)
    return made


class Crates:
    """The crates of crates.txt. What rtlib computes anew at each question is kept here."""

    def __init__(self):
        self.kit = kit_library()
        self.lists, self.stamps = {}, {}
        self.kit.Crate.below = lambda crate: self.below(crate)
        known = {}
        with open(f"{TOP}/crates.txt", encoding="utf-8") as file:
            rows = [line.split(":")[0].split()[0] for line in file if line.strip() and not line.startswith("#")]
        for name in rows:
            folder = f"{TOP}/crates/{name}"
            known[folder] = known.get(folder) or self.kit.Crate(folder, TOP, known)
        self.named = {crate.name: crate for crate in known.values()}

    def below(self, crate):
        """The crates below a crate, each behind those that it stands on."""
        if crate.name not in self.lists:
            found = {}
            for it in crate.deps:
                found.update({under.name: under for under in [*self.below(it), it]})
            self.lists[crate.name] = list(found.values())
        return self.lists[crate.name]

    def stamp(self, crate):
        """What rt takes for the sum of all that a crate is made from."""
        if crate.name not in self.stamps:
            total = hashlib.sha256(repr((crate.said, crate.has_c)).encode())
            total.update(contents(f"{self.kit.KIT}/WHAT"))
            for path in self.kit.files_of(crate.folder):
                total.update(repr((path.replace(crate.folder, ""), contents(path))).encode())
            total.update(repr([self.stamp(it) for it in crate.deps]).encode())
            self.stamps[crate.name] = total.hexdigest()
        return self.stamps[crate.name]

    def words(self, crate, jobs):
        """The words for a check of a crate."""
        with open(os.devnull, "w", encoding="utf-8") as crate.out:
            return crate.words(["--jobs", str(jobs)])


def contents(path):
    with open(path, "rb") as file:
        return file.read()


def is_kept(crate, stamp):
    """Whether what is kept of a library or a program is of this stamp."""
    made = f"{crate.folder}/out/{crate.name}" if crate.is_program else crate.rlib
    kept = f"{made}.built" if crate.is_program else f"{crate.folder}/out/rlib/stamp"
    return os.path.exists(made) and os.path.isfile(kept) and contents(kept).decode() == stamp


def called(crate, *words):
    """Runs a command in a crate's folder. What it says is shown where it fails."""
    how = {"stdin": subprocess.DEVNULL, "stdout": subprocess.PIPE, "stderr": subprocess.STDOUT, "errors": "replace"}
    ran = subprocess.run([*map(str, words)], cwd=crate.folder, check=False, **how)
    if ran.returncode:
        print(ran.stdout[-4000:], f"\nbuild: {crate.name} is not proved", flush=True)
    return ran.returncode


def keep(path, stamp):
    with open(path, "w", encoding="utf-8") as file:
        file.write(stamp)


def prove_library(crates, crate, jobs):
    """Proves a library, and keeps its statements."""
    shutil.rmtree(f"{crate.folder}/out/rlib", ignore_errors=True)
    os.makedirs(f"{crate.folder}/out/rlib")
    status = called(crate, crates.kit.RATTLE, "build", *crates.words(crate, jobs), "--statements", "-o", crate.rlib)
    if not status:
        keep(f"{crate.folder}/out/rlib/stamp", crates.stamp(crate))
    return status


def build_program(crates, crate, jobs):
    """Proves a program, compiles it and links it."""
    kit, made = crates.kit.KIT, f"{crate.folder}/out/{crate.name}"
    os.makedirs(f"{crate.folder}/out", exist_ok=True)
    toolchain = ("--toolchain", f"{kit}/toolchain")
    words = crates.words(crate, jobs)
    status = called(crate, crates.kit.RATTLE, "build", *words, *toolchain, "--backend", "llvm", "-o", f"{made}.o")
    parts = (f"{made}.o", f"{kit}/c/libos_c.a", f"{kit}/c/liblibc_c.a")
    status = status or called(crate, f"{kit}/bin/rattle-link", "--target", TARGET, *toolchain, "-o", made, *parts)
    if not status:
        keep(f"{made}.built", crates.stamp(crate))
    return status


def proved(crates, crate, jobs):
    """Proves a crate, and returns its name and whether that failed."""
    work = build_program if crate.is_program else prove_library
    return crate.name, work(crates, crate, jobs)


def chains(crates, wanted):
    """Of each crate how much there is to prove in the longest chain from it upwards."""
    longest = {}
    for crate in sorted(wanted, key=lambda it: -len(crates.below(it))):
        above = [longest[it.name] for it in wanted if crate in it.deps]
        longest[crate.name] = 20_000 + sum(map(os.path.getsize, crates.kit.files_of(crate.folder))) + max(above, default=0)
    return longest


def lanes():
    """How many checks go side by side."""
    with open("/proc/meminfo", encoding="utf-8") as file:
        free = next(1024 * int(line.split()[1]) for line in file if line.startswith("MemAvailable"))
    return max(1, min(len(os.sched_getaffinity(0)), free // ROOM))


def next_jobs(ready, idle):
    """A crate has a job for each processor that no other waits for, and at most three: each job costs some of what it saves."""
    return max(1, min(3, 1 + (idle - len(ready)) // 2))


def build(crates, wanted):
    """Proves all that is wanted and not kept, lowest first."""
    done = {it.name for it in wanted if is_kept(it, crates.stamp(it))}
    left = [it for it in wanted if it.name not in done]
    total, began, longest, running, most = len(left), 0, chains(crates, wanted), {}, lanes()
    with ThreadPoolExecutor(most) as pool:
        while left or running:
            ready = [it for it in left if all(under.name in done for under in it.deps)]
            for crate in sorted(ready, key=lambda it: -longest[it.name]):
                idle = most - sum(running.values())
                if idle <= 0:
                    break
                jobs, began = next_jobs(ready, idle), began + 1
                left.remove(crate)
                ready.remove(crate)
                print(f"proving {began} of {total}: {crate.name}", flush=True)
                running[pool.submit(proved, crates, crate, jobs)] = jobs
            for lane in wait(running, return_when=FIRST_COMPLETED).done:
                del running[lane]
                name, status = lane.result()
                if status:
                    return status
                done.add(name)
    return 0


def main(names):
    crates = Crates()
    asked = [crates.named[it] for it in names] if names else list(crates.named.values())
    wanted = list({it.name: it for crate in asked for it in [*crates.below(crate), crate]}.values())
    what = " ".join(names) or "every crate"
    if all(is_kept(it, crates.stamp(it)) for it in wanted):
        print(f"{what}: proved and built, and nothing of it has changed")
        return 0
    # what rt ci proved on this machine of the same texts is taken over
    how = {"stdout": subprocess.DEVNULL, "stderr": subprocess.DEVNULL}
    subprocess.run([sys.executable, f"{TOP}/tools/kept.py"], check=False, **how)
    print(f"{what}: {len(wanted)} crates, which go side by side. From nothing each takes a processor one to ten minutes (a hundred of "
          "them more than an hour on four processors); what is proved is kept.", flush=True)
    began = time.time()
    status = build(crates, wanted)
    if not status:
        print(f"{what}: proved and built, in {(time.time() - began) / 60:.1f} minutes", flush=True)
    return status


if __name__ == "__main__":
    sys.exit(main(sys.argv[1:]))
