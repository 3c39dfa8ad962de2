#!/usr/bin/env python3
"""Each mnemonic of tools/instructions/instructions.tsv in whole programs, as hlasm-lint lists them with the built program: with
each number of right operands that the table allows, of which nothing is said, and with one operand fewer and one more, of which
only the wrong number is. What stands behind an instruction without operands is a remark, of which nothing is said.

Usage: whole.py [--server PATH]
"""
import argparse
import os
import re
import subprocess
import sys
import tempfile

HERE = os.path.dirname(os.path.realpath(__file__))
TABLE = os.path.join(HERE, "../../tools/instructions/instructions.tsv")
LINT = os.path.normpath(os.path.join(HERE, "../../clients/hlasm-lint"))
BUILT = os.path.normpath(os.path.join(HERE, "../../crates/hlasm_ls/out/hlasm_ls"))

# A right operand of each kind.
RIGHT = {
    "R": "4", "F": "4", "AR": "4", "CR": "4", "V": "31", "M": "1", "I4": "1", "I8": "1", "I8S": "-1", "U12": "1", "I16": "-1",
    "U16": "1", "I32": "-1", "X": "0(4,4)", "XL": "-1(4,4)", "VX": "0(31,4)", "B": "0(4)", "BL": "-1(4)", "L1": "0(1,4)",
    "L2": "0(1,4)", "L3": "0(4,4)", "T": "HERE",
}

# No file has more reports than are sent of one.
MOST_LINES = 900


def statements():
    """Statements with what is said of each: nothing, or the wrong number of operands."""
    with open(TABLE, encoding="utf-8") as file:
        rows = [line.rstrip("\n").split("\t") for line in file if not line.startswith("#")]
    for mnemonic, _, _, kinds, *_ in rows:
        kinds = [] if kinds == "-" else kinds.split(",")
        least = sum(not kind.startswith("[") for kind in kinds)
        operands = [RIGHT[kind.strip("[]")] for kind in kinds] + ["1"]
        for count in range(max(least - 1, 0), len(kinds) + 2):
            is_right = not kinds or least <= count <= len(kinds)
            yield f"         {mnemonic:<8} {','.join(operands[:count])}", is_right


def shown(line, lines):
    """The statement of which a line of a list speaks."""
    number = re.match(r"program\.hlasm:(\d+):", line)
    return lines[int(number[1]) - 1].strip() if number else ""


def difference(server, rows, folder):
    """What hlasm-lint lists otherwise than wanted of a program of such statements."""
    lines = ["HERE     CSECT", *(line for line, _ in rows), "         END"]
    with open(os.path.join(folder, "program.hlasm"), "w", encoding="utf-8") as file:
        file.write("\n".join(lines))
    words = [sys.executable, LINT, "--server", server, "program.hlasm"]
    ran = subprocess.run(words, cwd=folder, capture_output=True, timeout=300, encoding="utf-8")
    wrong = [number for number, (_, is_right) in enumerate(rows, 2) if not is_right]
    wanted = {f"program.hlasm:{number}:1: error: wrong number of operands [H080]" for number in wrong}
    found = {*ran.stdout.splitlines(), *ran.stderr.splitlines()}
    return [f"listed: {line}: {shown(line, lines)}" for line in sorted(found - wanted)] + \
        [f"not listed: {line}: {shown(line, lines)}" for line in sorted(wanted - found)]


def main():
    parser = argparse.ArgumentParser(description=__doc__.partition("\n\n")[0])
    parser.add_argument("--server", default=BUILT, type=os.path.abspath)
    server = parser.parse_args().server
    if not os.access(server, os.X_OK):
        sys.exit(f"whole.py: there is no program {server}: rt ci or make run builds it")
    rows, faults = list(statements()), []
    with tempfile.TemporaryDirectory() as folder:
        for start in range(0, len(rows), MOST_LINES):
            faults += difference(server, rows[start:start + MOST_LINES], folder)
    for fault in faults:
        print(f"FAIL {fault}")
    print(f"instructions: {len(rows)} statements, {len(faults)} faults")
    return 1 if faults or not rows else 0


if __name__ == "__main__":
    sys.exit(main())
