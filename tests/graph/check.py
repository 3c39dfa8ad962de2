#!/usr/bin/env python3
"""The graph of the crates stays thin: rt ci computes for each library, before and after its proof, a sum over everything below it, and
reads a crate anew for each way down to it. Where each crate names all that it uses of the crates below, the ways double from layer to
layer. Says how many crates are read so, and fails above the number that is allowed; what a crate needs of a lower one is then to be
passed on by a crate between (`pub use`; docs/DECISIONS.md, "The gate").
Usage: check.py [FILE]   another list of crates than crates.txt, whose folders are not looked at
"""
import os
import sys

TOP = os.path.normpath(os.path.join(os.path.dirname(os.path.realpath(__file__)), "../.."))
# A crate takes some 3 to 5 milliseconds to read, so this is about ten minutes of one processor, while the others may wait.
MOST = 150_000


def libraries_of(path):
    """The crates of a list, each with those of its libraries that stand in the list too."""
    with open(path, encoding="utf-8") as file:
        rows = [line.partition(":") for line in file if line.strip() and not line.startswith("#")]
    named = {name.split()[0]: libraries.split() for name, _, libraries in rows}
    return {name: [it for it in libraries if it in named] for name, libraries in named.items()}


def ways(libraries):
    """Of each crate, how many crates are read for its sum: itself, and those of each of its libraries."""
    found = {}

    def of(name):
        if name not in found:
            found[name] = 1 + sum(map(of, libraries[name]))
        return found[name]

    for name in libraries:
        of(name)
    return found


def main(path=f"{TOP}/crates.txt"):
    found = ways(libraries_of(path))
    programs = {it for it in found if os.path.isfile(f"{TOP}/crates/{it}/src/main.rt")}
    read = 2 * sum(count for name, count in found.items() if name not in programs)
    print(f"{len(found)} crates: {read} are read for the sums of rt ci (at most {MOST})")
    if read <= MOST:
        return 0
    dearest = sorted((it for it in found if it not in programs), key=lambda it: -found[it])[:5]
    print("the dearest: " + ", ".join(f"{it} {found[it]}" for it in dearest))
    return 1


if __name__ == "__main__":
    sys.exit(main(*sys.argv[1:]))
