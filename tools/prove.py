#!/usr/bin/env python3
"""Proves this checkout again and again as commits come into it: each crate once the crates below it are proved, first those with the
longest chain of others above them. A commit is taken up at once: checks of texts that it changes are stopped, and a library that was
proved before with the same text, and over the same ones, is taken from the store. So the work of several clones can be merged into one
checkout while it is being proved. What is proved is kept in crates/NAME/out, as tools/build.py keeps it. It says when nothing is left,
goes on waiting for commits, and ends when it is interrupted. A crate that is not proved is tried again once a commit changes it; what
was said of it is in STORE/NAME.log.
Usage: tools/prove.py STORE [LANES]"""
import importlib.machinery
import importlib.util
import os
import shutil
import signal
import subprocess
import sys
import time

sys.dont_write_bytecode = True
TOP = os.path.dirname(os.path.dirname(os.path.abspath(__file__)))


def builder():
    """tools/build.py as a module."""
    loader = importlib.machinery.SourceFileLoader("build", f"{TOP}/tools/build.py")
    made = importlib.util.module_from_spec(importlib.util.spec_from_loader("build", loader))
    loader.exec_module(made)
    return made


BUILD = builder()


def say(*words):
    print(time.strftime("%H:%M:%S"), *words, flush=True)


def prove_one(store, name, jobs):
    """Proves one crate, and puts what is kept of a library into the store."""
    crates = BUILD.Crates()
    crate = crates.named[name]
    stamp = crates.stamp(crate)
    status = BUILD.proved(crates, crate, jobs)[1]
    if not status and not crate.is_program:
        shutil.copytree(f"{crate.folder}/out/rlib", f"{store}/{name}-{stamp[:16]}", dirs_exist_ok=True, copy_function=os.link)
    return status


class Texts:
    """The crates of one commit: the stamp of each, the chain above it, and which are proved."""

    def __init__(self, store):
        self.crates = BUILD.Crates()
        self.stamps = {name: self.crates.stamp(crate) for name, crate in self.crates.named.items()}
        self.chains = BUILD.chains(self.crates, list(self.crates.named.values()))
        for crate in self.crates.named.values():
            self.take(store, crate)
        self.kept = {name for name in self.stamps if self.is_kept(name)}

    def is_kept(self, name):
        return BUILD.is_kept(self.crates.named[name], self.stamps[name])

    def take(self, store, crate):
        """Takes a library from the store, if it is there and not here."""
        stored = f"{store}/{crate.name}-{self.stamps[crate.name][:16]}"
        if crate.is_program or self.is_kept(crate.name) or not os.path.isfile(f"{stored}/stamp"):
            return
        shutil.rmtree(f"{crate.folder}/out/rlib", ignore_errors=True)
        os.makedirs(f"{crate.folder}/out", exist_ok=True)
        shutil.copytree(stored, f"{crate.folder}/out/rlib", copy_function=os.link)

    def ready(self, without):
        """The crates that can be proved now, the longest chain first."""
        found = [crate for name, crate in self.crates.named.items() if name not in self.kept and name not in without]
        found = [crate for crate in found if all(under.name in self.kept for under in crate.deps)]
        return sorted(found, key=lambda crate: -self.chains[crate.name])


class Proving:
    """The checks that are under way."""

    def __init__(self, store, lanes):
        self.store, self.lanes, self.running, self.failed, self.texts = store, lanes, {}, set(), None

    def stop(self, name):
        child = self.running.pop(name)[0]
        os.killpg(child.pid, signal.SIGKILL)
        child.wait()

    def take_up(self):
        """Takes up the texts as they are now."""
        self.texts = Texts(self.store)
        for name, (_, stamp) in list(self.running.items()):
            if self.texts.stamps.get(name) != stamp:
                self.stop(name)
                say("stopped, since its text changed:", name)
        say(f"{len(self.texts.kept)} of {len(self.texts.stamps)} crates are proved")

    def collect(self):
        """Notes which checks have ended."""
        for name, (child, stamp) in list(self.running.items()):
            if child.poll() is None:
                continue
            del self.running[name]
            if self.texts.is_kept(name):
                self.texts.kept.add(name)
            else:
                self.failed.add(stamp)
            say("proved" if name in self.texts.kept else "NOT PROVED:", name)

    def begin(self):
        """Begins as many checks as there are lanes for."""
        stopped = {name for name, stamp in self.texts.stamps.items() if stamp in self.failed}
        for crate in self.texts.ready({*self.running, *stopped})[: self.lanes - len(self.running)]:
            with open(f"{self.store}/{crate.name}.log", "w", encoding="utf-8") as log:
                how = {"stdin": subprocess.DEVNULL, "stdout": log, "stderr": log, "start_new_session": True}
                child = subprocess.Popen([sys.executable, __file__, self.store, "--one", crate.name], **how)
            self.running[crate.name] = child, self.texts.stamps[crate.name]
            say("proving", crate.name)


def commit():
    return subprocess.run(["git", "rev-parse", "HEAD"], cwd=TOP, capture_output=True, check=True).stdout


def prove_on(proving):
    at, told = None, False
    while True:
        if commit() != at:
            at, told = commit(), False
            proving.take_up()
        proving.collect()
        proving.begin()
        if not proving.running and not told:
            lacking = [name for name in proving.texts.stamps if name not in proving.texts.kept]
            say("not proved: " + " ".join(lacking) if lacking else "all is proved")
            told = True
        time.sleep(1)


def main(store, lanes):
    os.makedirs(store, exist_ok=True)
    proving = Proving(store, lanes)
    try:
        prove_on(proving)
    except KeyboardInterrupt:
        for name in list(proving.running):
            proving.stop(name)


if __name__ == "__main__":
    if len(sys.argv) == 4 and sys.argv[2] == "--one":
        sys.exit(prove_one(sys.argv[1], sys.argv[3], 1))
    if len(sys.argv) not in (2, 3):
        sys.exit(__doc__)
    main(os.path.abspath(sys.argv[1]), int(sys.argv[2]) if len(sys.argv) == 3 else BUILD.lanes())
