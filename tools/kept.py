#!/usr/bin/env python3
"""Takes into this checkout what `rt ci` kept on this machine of the same texts, from any checkout: each library is linked into
crates/NAME/out as its statements, as tools/build.py keeps it, so that `rt check` in a crate's folder and tools/build.py need not prove
what is below. It says which crates are not kept; a star stands before those whose libraries are all there.
Usage: tools/kept.py"""
import hashlib
import importlib.machinery
import importlib.util
import json
import os
import shutil
import sys

sys.dont_write_bytecode = True
TOP = os.path.dirname(os.path.dirname(os.path.abspath(__file__)))


def loaded(name, path):
    """A script as a module."""
    loader = importlib.machinery.SourceFileLoader(name, path)
    made = importlib.util.module_from_spec(importlib.util.spec_from_loader(name, loader))
    sys.modules[name] = made
    loader.exec_module(made)
    return made


def rt_module():
    """The kit's command rt, which computes the names under which it keeps what passed."""
    made = loaded("rt_command", os.path.realpath(shutil.which("rt") or sys.exit("kept: the command rt is not on the PATH")))
    made.Crate.allowed = made.handles_of(TOP)
    return made


class Taking:
    """What was taken so far: of each crate the sum of its library, or nothing where it is neither kept nor here."""

    def __init__(self, rt, build):
        self.rt, self.build = rt, build
        self.stamps = build.Crates()
        self.sums, self.missing, self.taken = {}, [], 0

    def stamp(self, crate):
        return self.stamps.stamp(self.stamps.named[crate.name])

    def sum_of(self, crate):
        if crate.name not in self.sums:
            below = [(it.name, self.sum_of(it)) for it in crate.below()]
            is_ready = all(it for _, it in below)
            self.sums[crate.name] = self.library(crate, below) if is_ready else None
            if not self.sums[crate.name]:
                self.missing.append(f"{'*' if is_ready else ''}{crate.name}")
        return self.sums[crate.name]

    def library(self, crate, below):
        """The sum of a crate's library, which is taken where it is kept."""
        key = hashlib.sha256(repr((self.rt.own_sum(crate), below)).encode()).hexdigest()
        kept = f"{self.rt.STORE}/proof-{crate.name}-{key}"
        if os.path.isfile(f"{kept}/made.json"):
            with open(f"{kept}/made.json", encoding="utf-8") as file:
                files = [(path, total) for path, total in json.load(file)["files"]]
            self.take(crate, kept, [path for path, _ in files])
        elif crate.is_program or not self.is_here(crate):
            return None
        else:
            files = [(it, self.rt.rtlib.sum_of(f"{crate.folder}/out/{it}")) for it in self.files_here(crate)]
        return hashlib.sha256(repr(files).encode()).hexdigest()

    def is_here(self, crate):
        stamp = f"{crate.folder}/out/rlib/stamp"
        return os.path.isfile(stamp) and self.build.contents(stamp).decode() == self.stamp(crate)

    def files_here(self, crate):
        """The files of a library that was taken before, and that the store has given up since."""
        found = os.walk(f"{crate.folder}/out/rlib/{crate.name}.rlib")
        return sorted(os.path.relpath(f"{at}/{name}", f"{crate.folder}/out") for at, _, names in found for name in names)

    def take(self, crate, kept, paths):
        """Links a library that is kept, file by file: they are numbered there."""
        if crate.is_program or self.is_here(crate):
            return
        shutil.rmtree(f"{crate.folder}/out/rlib", ignore_errors=True)
        for number, path in enumerate(paths):
            os.makedirs(os.path.dirname(f"{crate.folder}/out/{path}"), exist_ok=True)
            self.rt.link_or_copy(f"{kept}/{number}", f"{crate.folder}/out/{path}")
        self.build.keep(f"{crate.folder}/out/rlib/stamp", self.stamp(crate))
        self.taken += 1


def main():
    os.chdir(TOP)
    build, rt = loaded("build", f"{TOP}/tools/build.py"), rt_module()
    taking, crates = Taking(rt, build), rt.crates_of(TOP)
    for crate in crates:
        taking.sum_of(crate)
    print(f"{taking.taken} taken; of {len(crates)} crates {len(taking.missing)} are not kept:", *taking.missing)


if __name__ == "__main__":
    main()
