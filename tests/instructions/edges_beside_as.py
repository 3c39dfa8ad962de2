#!/usr/bin/env python3
"""Each operand of each machine instruction at the ends of what it may be and just outside, beside GNU as for s390x: as is to
refuse just those statements of which the built program says something, as hlasm-lint lists it. Where as is known to differ
(`OTHERWISE`, `OTHERWISE_OF`), docs/DECISIONS.md says why; a difference that is no more is a fault too. Left out are relative
targets, at which as looks once all else is right; registers that begin a pair, since as wants an even one there; and what this
as does not know. Without as it ends with 77: skipped.

Usage: edges_beside_as.py [--server PATH]
"""
import argparse
import os
import re
import shutil
import subprocess
import sys
import tempfile

HERE = os.path.dirname(os.path.realpath(__file__))
LINT = os.path.normpath(os.path.join(HERE, "../../clients/hlasm-lint"))
BUILT = os.path.normpath(os.path.join(HERE, "../../crates/hlasm_ls/out/hlasm_ls"))
sys.dont_write_bytecode = True
sys.path[:0] = [HERE, os.path.normpath(os.path.join(HERE, "../../tools/instructions"))]
import beside_as  # that of tests/instructions
from make import OPERANDS

# No file has more reports than are sent of one.
MOST_LINES = 900

# Where as differs, by the kind and the text of the operand, in some instructions of the kind or in all.
OTHERWISE = {
    ("I8S", "255"), ("I16", "65535"), ("U16", "-32768"), ("I32", "-2147483647-1"), ("I32", "X'FFFFFFFF'"),
    ("I32", "2147483647+1"), ("L1", "0"), ("L1", "0(0,15)"), ("L2", "0"), ("L2", "0(0,15)"), ("VX", "4095(31)"),
}

# The same by the mnemonic: as knows of the last bit that it is one of six.
OTHERWISE_OF = {("RISBGZ", "255"), ("RISBGNZ", "255")}

# Instructions with an operand that the as of binutils 2.40 does not know.
UNKNOWN = {"KIMD", "KLMD", "VTP"}


class Edge:
    """A statement with one operand at an edge."""

    def __init__(self, row, place, kind, text):
        texts = [*row.operands[:place], text, *row.operands[place + 1:]]
        self.names = (kind, text), (row.mnemonic, text)
        self.line = f"         {row.mnemonic:<8} {','.join(texts)}"
        self.for_as = re.sub("X'([0-9A-F]+)'", r"0x\1", f" {row.name} {','.join(texts + row.fixed).replace('here', '.')}")

    def is_known(self):
        """Whether as is known to differ in it."""
        return not {*self.names}.isdisjoint(OTHERWISE | OTHERWISE_OF)


def edges():
    """The statements that are compared."""
    with open(beside_as.TABLE, encoding="utf-8") as file:
        lines = [line for line in file if not line.startswith("#")]
    for line in lines:
        row, columns = beside_as.Row(line), line.split("\t")
        if not row.name or row.mnemonic in UNKNOWN:
            continue
        pairs = re.findall(r"\d+", columns[5])
        for place, kind in enumerate(it.strip("[]") for it in columns[3].split(",") if it != "-"):
            if kind == "T" or str(place + 1) in pairs:
                continue
            right, wrong = OPERANDS[kind]
            for text in [*right, *(text for text, _ in wrong)]:
                if "PLACE" not in text:
                    yield Edge(row, place, kind, text)


def refused(statements):
    """Which statements as refuses, by their places, and those that it does not know. What stands behind a fatal error is asked anew."""
    found, unknown, start = set(), set(), 0
    while start < len(statements):
        _, errors = beside_as.run(statements[start:])
        last = None
        for line, fatal, error in re.findall(r"(?m)^[^\n]*?:(\d+): (Fatal e|E)rror: (.*)$", errors):
            place = start + int(line) - 2
            (unknown if "nrecognized opcode" in error else found).add(place)
            last = place if fatal != "E" else None
        if last is None:
            break
        start = last + 1
    return found, unknown


def reported(server, statements):
    """Of which statements something is said, by their places."""
    found = set()
    with tempfile.TemporaryDirectory() as folder:
        for start in range(0, len(statements), MOST_LINES):
            lines = ["here     CSECT", *statements[start:start + MOST_LINES], "         END"]
            with open(os.path.join(folder, "program.hlasm"), "w", encoding="utf-8") as file:
                file.write("\n".join(lines))
            words = [sys.executable, LINT, "--server", server, "program.hlasm"]
            ran = subprocess.run(words, cwd=folder, capture_output=True, timeout=300, encoding="utf-8")
            found.update(start + int(line) - 2 for line in re.findall(r"(?m)^program\.hlasm:(\d+):", ran.stdout))
    return found


def main():
    parser = argparse.ArgumentParser(description=__doc__.partition("\n\n")[0])
    parser.add_argument("--server", default=BUILT, type=os.path.abspath)
    server = parser.parse_args().server
    if shutil.which(beside_as.ASSEMBLER) is None:
        print(f"edges_beside_as.py: {beside_as.ASSEMBLER} is not there: skipped")
        return beside_as.SKIPPED
    if not os.access(server, os.X_OK):
        sys.exit(f"edges_beside_as.py: there is no program {server}: rt ci or make run builds it")
    tried = list(edges())
    by_as, unknown = refused([edge.for_as for edge in tried])
    said = reported(server, [edge.line for edge in tried])
    differing = [
        (edge, place) for place, edge in enumerate(tried) if place not in unknown and (place in by_as) != (place in said)
    ]
    faults = [
        f"as {'refuses' if place in by_as else 'takes'}{edge.for_as}" for edge, place in differing if not edge.is_known()
    ]
    differ = {name for edge, _ in differing for name in edge.names}
    faults += [f"as does not differ in {' '.join(it)}" for it in sorted((OTHERWISE | OTHERWISE_OF) - differ)]
    for fault in faults:
        print(f"FAIL {fault}")
    compared = len(tried) - len(unknown)
    print(f"edges: {compared} statements compared, {len(differing)} that as takes otherwise as is known, {len(faults)} faults")
    return 1 if faults or compared < 20_000 else 0


if __name__ == "__main__":
    sys.exit(main())
