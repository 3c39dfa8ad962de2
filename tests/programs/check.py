#!/usr/bin/env python3
"""Ten whole programs in the style of real ones, and of each the list that is right: NAME.hlasm and NAME.txt. hlasm-lint with the
built program has to print these lists, of each program alone and of all of them in one run.

Usage: check.py [--server PATH]
"""
import argparse
import glob
import os
import subprocess
import sys

HERE = os.path.dirname(os.path.realpath(__file__))
LINT = os.path.normpath(os.path.join(HERE, "../../clients/hlasm-lint"))
BUILT = os.path.normpath(os.path.join(HERE, "../../crates/hlasm_ls/out/hlasm_ls"))


def read(path):
    with open(os.path.join(HERE, path), encoding="utf-8", newline="") as file:
        return file.read()


def lint(server, *names):
    """Status, lines and standard error of hlasm-lint."""
    ran = subprocess.run([sys.executable, LINT, "--server", server, *names], cwd=HERE, capture_output=True, timeout=120, encoding="utf-8")
    return ran.returncode, ran.stdout, ran.stderr


def difference(server, names, listed):
    """What is wrong with the list of some files, if anything."""
    wanted = (1 if ": error: " in listed else 0, listed, "")
    found = lint(server, *names)
    return None if found == wanted else f"{' '.join(names)}: found {found}\n  and not {wanted}"


def main():
    parser = argparse.ArgumentParser(description=__doc__.partition("\n\n")[0])
    parser.add_argument("--server", default=BUILT, type=os.path.abspath)
    server = parser.parse_args().server
    if not os.access(server, os.X_OK):
        sys.exit(f"check.py: there is no program {server}: make run builds it")
    programs = [os.path.basename(path) for path in sorted(glob.glob(f"{HERE}/*.hlasm"))]
    lists = {name: read(name.replace(".hlasm", ".txt")) for name in programs}
    faults = [difference(server, [name], listed) for name, listed in lists.items()]
    faults.append(difference(server, ["."], "".join(lists.values())))
    faults += [f"{name} has {read(name).count(chr(10))} lines" for name in programs if not 200 <= read(name).count("\n") <= 2000]
    if len(programs) != 10:
        faults.append(f"there are {len(programs)} programs")
    faults = [fault for fault in faults if fault]
    for fault in faults:
        print(f"FAIL {fault}")
    print(f"programs: {len(programs)} programs, {sum(map(len, map(str.splitlines, lists.values())))} reports, {len(faults)} faults")
    return 1 if faults else 0


if __name__ == "__main__":
    sys.exit(main())
