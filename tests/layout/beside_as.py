#!/usr/bin/env python3
"""The whole programs of this folder beside GNU as for s390x: the value of each symbol and the length of each section have to be
what as makes of the same program. Without as it ends with 77: skipped.

For as each statement becomes directives and instructions of its own, and a symbol is worth its offset. as cannot go back, so
what stands behind an ORG goes into another section of as, which begins there. Of characters, bits, hexadecimal digits and
decimal numbers it gets the bytes.

hlasm_ls is asked by statements. Behind a program stands a constant for each value, whose expression overflows unless the value
is that of as, so that hlasm-lint lists those that differ; beside each program goes one with all values wrong, of which it has
to list each. Behind a pool that END places nothing can stand: there the section is filled until the pool just fits, and until
it lacks a byte.

Where a literal stands in its pool is not compared, as as has another order: only where the pool begins and ends, with literals
of 1, 2, 4 and 8 bytes, which are those that as has. What stands in an address, and operands of instructions, do not count.

Usage: beside_as.py [--server PATH]
"""
import argparse
import glob
import os
import re
import shutil
import subprocess
import sys
import tempfile

HERE = os.path.dirname(os.path.realpath(__file__))
LINT = os.path.normpath(os.path.join(HERE, "../../clients/hlasm-lint"))
BUILT = os.path.normpath(os.path.join(HERE, "../../crates/hlasm_ls/out/hlasm_ls"))
sys.dont_write_bytecode = True
sys.path.insert(0, os.path.normpath(os.path.join(HERE, "../instructions")))
from beside_as import ASSEMBLER, SKIPPED, TABLE, Row  # that of tests/instructions: its instructions and its operands

PROGRAMS = 10
LONGEST = 16_777_216

# The statements that take no place and define nothing.
SILENT = "USING DROP ENTRY EXTRN WXTRN PRINT TITLE EJECT SPACE".split()

# Of each type the boundary and what as has for a value of its own length.
FIXED = {
    "F": (4, ".long"), "H": (2, ".short"), "FD": (8, ".quad"), "A": (4, ".long"), "V": (4, ".long"), "AD": (8, ".quad"),
    "Y": (2, ".short"), "S": (2, ".short"), "E": (4, ".float"), "D": (8, ".double"), "L": (8, ".octa"),
}
SIZES = {".short": 2, ".long": 4, ".float": 4, ".quad": 8, ".double": 8, ".octa": 16}

# Parentheses within parentheses within parentheses.
NESTED = r"\((?:[^()]|\((?:[^()]|\([^()]*\))*\))*\)"
CONSTANT = re.compile(rf"(\d+|{NESTED})?(AD|FD|[A-Z])(?:L(\d+|{NESTED}))?('.*'|\(.*\))?")
# A difference of 0 that as does not know before the end. It takes a symbol that is another and a number for the number alone
# while the other is not known yet, but not where this is added, and wants a product where room is a difference.
NOTHING = "(nothing.2-nothing.1)"
TERM = re.compile(r"([XB])'([0-9A-F]+)'|([A-Z@#$][A-Z0-9@#$]*)|(\d+)|([-+*/()])")


def parts(text, commas=True):
    """What commas, or blanks, part outside of apostrophes and parentheses."""
    found, depth, quoted = [""], 0, False
    for character in text:
        quoted ^= character == "'"
        depth += 0 if quoted else (character == "(") - (character == ")")
        if not quoted and depth == 0 and character == ("," if commas else " "):
            found.append("")
        else:
            found[-1] += character
    return found


class Statement:
    """A statement on a line of its own."""

    def __init__(self, line):
        assert len(line) < 72, line
        self.label, _, rest = line.partition(" ")
        self.operation, _, rest = rest.strip().partition(" ")
        field = parts(rest.strip(), commas=False)[0]
        self.operands = parts(field) if field else []


class Constant:
    """An operand of DC or DS, or a literal without its sign."""

    def __init__(self, text):
        self.factor, self.type, self.length, value = CONSTANT.fullmatch(text).groups()
        self.boundary = 1 if self.length else FIXED.get(self.type, (1,))[0]
        self.value = value[1:-1] if value else None

    def values(self):
        """Its values; one where it has none."""
        return [self.value] if self.type == "C" or self.value is None else parts(self.value)

    def code(self, value):
        """The bytes of a value whose length is its own, as numbers."""
        if self.type == "C":
            return value.replace("''", "'").replace("&&", "&").encode("cp037")
        if self.type == "B":
            return int(value, 2).to_bytes((len(value) + 7) // 8, "big")
        digits = value if self.type == "X" else re.sub(r"[-+.]", "", value) + ("C" if self.type == "P" else "")
        return digits.encode("cp037") if self.type == "Z" else bytes.fromhex("0" * (len(digits) % 2) + digits)

    def once(self, number):
        """What as is given of it without its factor; `number` writes an expression for it."""
        if self.length:
            return [f".space ({number(self.length)})*({len(self.values())}+{NOTHING})"]
        if self.type in FIXED:
            values = self.values() if self.type in "F H FD E D".split() and self.value else ["0"] * len(self.values())
            return [f"{FIXED[self.type][1]} {value}" for value in values]
        return [f".byte {','.join(map(str, self.code(value)))}" for value in self.values()] if self.value else [".space 1"]

    def size(self):
        """How many bytes a literal has whose factor and length are plain numbers."""
        sizes = [SIZES[FIXED[self.type][1]] if self.type in FIXED else len(self.code(value)) for value in self.values() if not self.length]
        return int(self.factor or 1) * (int(self.length) * len(self.values()) if self.length else sum(sizes))


class Program:
    """A program as it goes to as."""

    def __init__(self, statements, rows):
        self.rows, self.lines, self.sections, self.literals = rows, [], {}, {}
        self.section, self.pooled, self.waiting, self.counter = None, None, False, 0
        self.places, self.equates, self.deferred = {}, {}, set()
        self.add(".section scratch", "nothing.1:", ".balign 2", "nothing.2:")
        for statement in statements:
            self.take(statement)

    def add(self, *lines):
        self.lines += [f" {line}" for line in lines]

    def let(self, name, expression):
        """Defines a symbol."""
        self.add(f".set {name}, {expression}+{NOTHING}")
        return name

    def here(self):
        """A symbol for the place that is reached."""
        self.counter += 1
        return self.let(f"here.{self.counter}", f".-begin.{self.section}.{self.sections[self.section]}")

    def enter(self, name):
        """Begins a section or goes on in it."""
        self.section = name
        piece = self.sections.setdefault(name, 0)
        self.add(f".section {name}.{piece}")
        if name not in self.places:
            self.places[name] = name
            self.add(f"begin.{name}.0:")
            self.let(f"at.{name}", "0")

    def close(self):
        """A symbol for the highest place of the section so far; comparisons of as come to 0 or to all bits."""
        name, piece = self.section, self.sections[self.section]
        before, here = f"top.{name}.{piece - 1}" if piece else "0", self.here()
        return self.let(f"top.{name}.{piece}", f"{before}+(({here}>{before})&({here}-{before}))")

    def organize(self, target):
        """Goes on from a place of the section, or from its highest one."""
        top = self.close()
        self.sections[self.section] += 1
        label = f"begin.{self.section}.{self.sections[self.section]}"
        self.add(f".section {self.section}.{self.sections[self.section]}", f"{label}:", f".org {target or top}+{NOTHING}")

    def expression(self, text, symbol="at.{}".format, place=None):
        """An expression as as has it. Its symbols and `*` may be written otherwise."""
        assert re.fullmatch(f"(?:{TERM.pattern})+", text), text
        written, operand = "", True
        for base, digits, name, number, operator in TERM.findall(text):
            here = operator == "*" and operand
            if here:
                written += self.here() if place is None else place
            elif base:
                written += str(int(digits, 16 if base == "X" else 2))
            else:
                written += symbol(name) if name else number or operator
            operand = operator not in ("", ")") and not here
        return written

    def belongs(self, name):
        """The section that a symbol has its place in, None of a number: an EQU moves with one or with none."""
        if name in self.places:
            return self.places[name]
        text, here = self.equates[name]

        def moved(section):
            """What comes of it where all places of a section are one more."""
            return eval(self.expression(text, lambda term: str(2 + (self.belongs(term) == section)), str(2 + (here == section))))

        return next((section for section in self.sections if moved(section) - moved("") == 1), None)

    def mark(self, statement):
        """Gives the label the place that is reached."""
        if statement.label:
            self.places[statement.label] = self.section
            self.let(f"at.{statement.label}", self.here())

    def equate(self, statement):
        """An EQU, which as has to put off where a symbol is not known yet."""
        name, text = statement.label, statement.operands[0]
        expression = self.expression(text)
        names = {term for _, _, term, _, _ in TERM.findall(text) if term}
        waits = bool(self.deferred & names or names - self.places.keys() - self.equates.keys())
        self.equates[name] = text, self.section
        if waits:
            self.deferred.add(name)
            self.add(f".eqv at.{name}, {expression}")
        else:
            self.let(f"at.{name}", expression)

    def define(self, statement):
        """The constants of DC or DS."""
        for place, operand in enumerate(statement.operands):
            constant = Constant(operand)
            self.add(f".balign {constant.boundary}")
            if place == 0:
                self.mark(statement)
            once = constant.once(self.expression)
            if (constant.factor or "1").isdigit():
                self.add(f".rept {constant.factor or 1}", *once, ".endr")
            else:
                self.counter = size = self.counter + 1
                self.add(".pushsection scratch", f"from.{size}:", *once, f"to.{size}:", ".popsection")
                self.add(f".space ({self.expression(constant.factor)})*(to.{size}-from.{size}+{NOTHING})")

    def literal(self, operand, right):
        """An operand that is a literal: as takes equal numbers of one size for one literal, so each text has its own."""
        self.waiting = True
        number = self.literals.setdefault(operand, len(self.literals) + 1)
        return f"{number}:lit{Constant(operand[1:]).size()}{right[right.index('('):]}"

    def instruct(self, statement):
        """A machine instruction, with right operands of another program."""
        row = self.rows[statement.operation]
        self.add(".balign 2")
        self.mark(statement)
        pairs = list(zip(statement.operands, row.operands, strict=False))
        operands = [self.literal(own, right) if own.startswith("=") else right for own, right in pairs]
        self.add(f"{row.name} {','.join(operands + row.fixed)}")

    def pool(self):
        self.add(".balign 8", ".ltorg")
        self.waiting = False

    def end(self):
        """END, and what is asked of as."""
        first = next(iter(self.sections))
        self.pooled = first if self.waiting else None
        if self.waiting:
            self.enter(first)
            self.organize(None)
            self.pool()
        for name in self.sections:
            self.enter(name)
            self.let(f"length.{name}", self.close())
        for name in [*self.places, *self.equates]:
            self.let(f"value.{name}", f"at.{name}")

    def take(self, statement):
        """A statement."""
        if statement.operation in ("CSECT", "DSECT", "START"):
            self.enter(statement.label)
        elif statement.operation == "EQU":
            self.equate(statement)
        elif statement.operation == "ORG":
            self.organize(self.expression(statement.operands[0]) if any(statement.operands) else None)
        elif statement.operation in ("DC", "DS"):
            self.define(statement)
        elif statement.operation == "LTORG":
            self.add(".balign 8")
            self.mark(statement)
            self.pool()
        elif statement.operation == "END":
            self.end()
        elif statement.operation not in SILENT:
            self.instruct(statement)


def assembled(name, lines):
    """The value of each symbol of the lines that were made of a program."""
    with tempfile.TemporaryDirectory() as room:
        with open(f"{room}/program.s", "w", encoding="utf-8") as file:
            file.write("".join(line + "\n" for line in lines))
        words = [ASSEMBLER, "-m64", "-mzarch", "-as", "-o", "/dev/null", f"{room}/program.s"]
        ran = subprocess.run(words, capture_output=True, timeout=120, encoding="utf-8", errors="replace")
    if ran.returncode != 0:
        sys.exit(f"beside_as.py: {ASSEMBLER} refuses what was made of {name}: {ran.stderr}")
    # A number of 64 bits, those below 0 as its complement.
    values = re.findall(r"(?m)\*ABS\*:([0-9a-f]{16}) (\S+)$", ran.stdout)
    return {name: (int(digits, 16) ^ 1 << 63) - (1 << 63) for digits, name in values}


class Comparison:
    """A program and what as says of it, as files for hlasm-lint."""

    def __init__(self, path, rows):
        self.name = os.path.basename(path).removesuffix(".hlasm")
        with open(path, encoding="utf-8") as file:
            self.lines = file.read().splitlines()
        statements = [Statement(line) for line in self.lines if not line.startswith("*")]
        program = Program(statements, rows)
        values = assembled(self.name, program.lines)
        self.pooled = program.pooled
        self.lengths = {name: values[f"length.{name}"] for name in program.sections}
        self.kinds = {statement.label: statement.operation for statement in statements if statement.label in self.lengths}
        symbols = [name for name in [*program.places, *program.equates] if name not in self.lengths]
        self.symbols = {name: (program.belongs(name), values[f"value.{name}"]) for name in symbols}

    def resume(self, section):
        """Statements that go on at the highest place of a section."""
        return [f"{section:8} {self.kinds[section]}", "         ORG"]

    def asking(self, more):
        """The program with a constant for each value that as says, and more beside it; and by the number of its line what each wants."""
        ends = {f"@END{number}": (name, length) for number, (name, length) in enumerate(self.lengths.items()) if name != self.pooled}
        lines, wanted = self.lines[:-1], {}
        for name, (section, _) in ends.items():
            lines += [*self.resume(section), f"{name:8} EQU   *"]
        lines.append("@WANTED  DSECT")
        for name, (section, value) in (self.symbols | ends).items():
            lines.append(f"         DC    A(({name}{'-' + section if section else ''}{-value - more:+d})*2147483647*2)")
            what = f"length of {section}" if name in ends else f"{name} in {section}" if section else name
            wanted[len(lines)] = f"{what} is {value} for as"
        return [*lines, self.lines[-1]], wanted

    def filled(self, more):
        """The program with its last pool at the end of a full section, which has that many bytes more."""
        units, ones = divmod(LONGEST - self.lengths[self.pooled], 8)
        lines = [*self.lines[:-1], *self.resume(self.pooled), f"         DS    {units}XL8", "@WANTED  DSECT"]
        return [*lines, *(f"         IC    1,=AL1({number})" for number in range(ones + more)), self.lines[-1]]

    def files(self):
        """Each file by its name, with the lines of which something is to be said, and what each stands for."""
        right, wanted = self.asking(0)
        wrong, _ = self.asking(1)
        yield f"{self.name}.hlasm", right, set(), wanted
        yield f"{self.name}.wrong.hlasm", wrong, {(line, "H072") for line in wanted}, wanted
        if self.pooled:
            full, over = self.filled(0), self.filled(1)
            what = f"length of {self.pooled} with its pool is {self.lengths[self.pooled]} for as"
            yield f"{self.name}.full.hlasm", full, set(), {len(full): what}
            yield f"{self.name}.over.hlasm", over, {(len(over), "H066")}, {len(over): what}

    def compared(self):
        return len(self.symbols), len(self.lengths)


def listed(server, files):
    """Line and code of what hlasm-lint lists of each file, but for values of floating-point constants, which it does not read."""
    with tempfile.TemporaryDirectory() as room:
        for name, lines in files.items():
            with open(f"{room}/{name}", "w", encoding="utf-8") as file:
                file.write("".join(line + "\n" for line in lines))
        words = [sys.executable, LINT, "--server", server, *files]
        ran = subprocess.run(words, cwd=room, capture_output=True, timeout=120, encoding="utf-8")
    if ran.stderr:
        sys.exit(f"beside_as.py: {ran.stderr}")
    found = {name: set() for name in files}
    for name, line, code in re.findall(r"(?m)^([^:]*):(\d+):.*\[(\w+)\]$", ran.stdout):
        if code != "H061":
            found[name].add((int(line), code))
    return found


def main():
    parser = argparse.ArgumentParser(description=__doc__.partition("\n\n")[0])
    parser.add_argument("--server", default=BUILT, type=os.path.abspath)
    server = parser.parse_args().server
    if shutil.which(ASSEMBLER) is None:
        print(f"beside_as.py: {ASSEMBLER} is not there: skipped")
        return SKIPPED
    if not os.access(server, os.X_OK):
        sys.exit(f"beside_as.py: there is no program {server}: make run builds it")
    with open(TABLE, encoding="utf-8") as file:
        rows = {row.mnemonic: row for row in (Row(line) for line in file if not line.startswith("#"))}
    comparisons = [Comparison(path, rows) for path in sorted(glob.glob(f"{HERE}/*.hlasm"))]
    files = [file for comparison in comparisons for file in comparison.files()]
    found = listed(server, {name: lines for name, lines, _, _ in files})
    differences = 0
    for name, lines, wanted, meanings in files:
        # The programs have no base registers, as these are none of the layout's: that no USING covers an address is not compared.
        laid_out = {(line, code) for line, code in found[name] if code != "H083"}
        for line, code in sorted(laid_out ^ wanted):
            said = "is said" if (line, code) in laid_out else "is not said"
            print(f"{name}:{line}: {code} {said}: {meanings.get(line, lines[line - 1])}")
            differences += 1
    symbols, sections = map(sum, zip(*(comparison.compared() for comparison in comparisons)))
    print(f"layout: {len(comparisons)} programs, {symbols} symbols and {sections} sections compared, {differences} differences")
    return 1 if differences or len(comparisons) != PROGRAMS else 0


if __name__ == "__main__":
    sys.exit(main())
