#!/usr/bin/env python3
"""Each mnemonic of tools/instructions/instructions.tsv beside GNU as for s390x: with every number of operands from one to one more
than the table has, of which as is to take just those that the table allows; and how many bytes it makes of them. A mnemonic
that as knows by another name stands there by that name. What this as does not know, since it is too old or since none has it,
is counted and not compared. Without as it ends with 77: skipped.
"""
import os
import re
import shutil
import subprocess
import sys
import tempfile

HERE = os.path.dirname(os.path.realpath(__file__))
TABLE = os.path.join(HERE, "../../tools/instructions/instructions.tsv")
ASSEMBLER = "s390x-linux-gnu-as"
SKIPPED = 77

# A right operand of each kind. Register 4 can begin a pair, and as wants a length where HLASM takes that of the operand.
RIGHT = {
    "R": "4", "F": "4", "AR": "4", "CR": "4", "V": "4", "M": "1", "I4": "1", "I8": "1", "I8S": "1", "U12": "1", "I16": "1",
    "U16": "1", "I32": "1", "X": "0(4,4)", "XL": "0(4,4)", "VX": "0(4,4)", "B": "0(4)", "BL": "0(4)", "L1": "0(1,4)",
    "L2": "0(1,4)", "L3": "0(4,4)", "T": "here",
}

# Where as differs, by the number of operands. It lets a second register stand behind that of EFPC and SFPC; and that of
# binutils 2.40 does not know the last operand of KIMD, KLMD and VTP yet, and wants all operands of the rotate instructions.
OTHERWISE = {"EFPC": 2, "SFPC": 2, "KIMD": 3, "KLMD": 3, "VTP": 2} | dict.fromkeys(
    "RISBG RISBGN RISBGNZ RISBGZ RISBHG RISBHGZ RISBLG RISBLGZ RNSBG RNSBGT ROSBG ROSBGT RXSBG RXSBGT".split(), 4
)


class Row:
    """A mnemonic as the table has it."""

    def __init__(self, line):
        self.mnemonic, _, length, operands, _, _, name = line.rstrip("\n").split("\t")
        kinds = [] if operands == "-" else operands.split(",")
        self.length = int(length)
        self.operands = [RIGHT[kind.strip("[]")] for kind in kinds]
        self.least = sum(not kind.startswith("[") for kind in kinds)
        word, _, fixed = name.partition(" +")
        self.name = {"=": self.mnemonic.lower(), "-": None}.get(word, word)
        self.fixed = fixed.split(",") if fixed else []

    def counts(self):
        """The numbers of operands to try. Without any as takes some instructions of which one operand may be left out."""
        return range(1 if self.operands else 0, len(self.operands) + 2)

    def statement(self, count):
        """A statement with so many operands, those that another name needs behind them."""
        return f" {self.name} {','.join((self.operands + ['1'])[:count] + self.fixed)}"

    def agrees(self, count, said):
        """Whether as says of so many operands what the table says: its length of those that are right, an error of others."""
        return said == self.length if self.least <= count <= len(self.operands) else isinstance(said, str)


def run(statements, *options):
    """What as prints of these statements, each a line behind the first, and its errors. It fills up what the last line makes,
    so that is one of its own."""
    with tempfile.TemporaryDirectory() as room:
        source = f"{room}/statements.s"
        with open(source, "w", encoding="utf-8") as file:
            file.write("".join(line + "\n" for line in ["here:", *statements, " lr 0,0"]))
        words = [ASSEMBLER, "-m64", "-mzarch", *options, "-o", "/dev/null", source]
        ran = subprocess.run(words, capture_output=True, timeout=120, encoding="utf-8", errors="replace")
    return ran.stdout, ran.stderr


def refused(statements):
    """The first error of each statement that as refuses, by the place of the statement."""
    errors = {}
    for line, error in re.findall(r"(?m)^[^\n]*?:(\d+): Error: (.*)$", run(statements)[1]):
        errors.setdefault(int(line) - 2, error)
    return errors


def lengths(statements):
    """How many bytes as makes of each of these statements, of which it refuses none."""
    listed = {}
    printed, _ = run(statements, "-aln", "--listing-lhs-width=2")
    for line, code in re.findall(r"(?m)^ *(\d+) [0-9a-f]{4} ([0-9A-F ]+?) *\t", printed):
        listed[int(line) - 2] = len(code.replace(" ", "")) // 2
    return [listed.get(place, "nothing") for place in range(len(statements))]


def assembled(statements):
    """What as says of each statement: how many bytes it makes of it, or its first error."""
    errors = refused(statements)
    right = [place for place in range(len(statements)) if place not in errors]
    made = dict(zip(right, lengths([statements[place] for place in right])))
    return [errors.get(place, made.get(place)) for place in range(len(statements))]


def main():
    if shutil.which(ASSEMBLER) is None:
        print(f"beside_as.py: {ASSEMBLER} is not there: skipped")
        return SKIPPED
    with open(TABLE, encoding="utf-8") as file:
        rows = [Row(line) for line in file if not line.startswith("#")]
    tried = [(row, count) for row in rows if row.name for count in row.counts()]
    answers = assembled([row.statement(count) for row, count in tried])
    unknown = {row.mnemonic for (row, _), said in zip(tried, answers) if "nrecognized opcode" in str(said)}
    differing = [
        f"{row.mnemonic} with {count} operands ({row.statement(count).strip()}): as says {said}"
        for (row, count), said in zip(tried, answers)
        if row.mnemonic not in unknown and OTHERWISE.get(row.mnemonic) != count and not row.agrees(count, said)
    ]
    for line in differing:
        print(line)
    compared = len({row.mnemonic for row, _ in tried} - unknown)
    print(f"{compared} mnemonics compared, {len(rows) - compared} that this as does not know, {len(differing)} differences")
    return 1 if differing or compared < 2000 else 0


if __name__ == "__main__":
    sys.exit(main())
