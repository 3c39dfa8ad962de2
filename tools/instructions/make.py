#!/usr/bin/env python3
"""Makes what is written of the machine instructions from instructions.tsv beside it: the rows of the crate instruction_table
(src/rows.rt), the page docs/INSTRUCTIONS.md and the tables of cases tests/cases/instructions.txt, operand_counts.txt and
instruction_operands.txt. With --check it writes nothing, and fails if one of them differs from what it would write.

The rows stand in the order of a perfect hash. The mnemonic of a row, eight characters with blanks behind, is a number of 64
bits; with R rows and S shifts its row is number (n mod R + shift[n mod S]) mod R. That each row stands where this says is
proved, so a mistake here is found by the gate."""
import itertools
import os
import sys

HERE = os.path.dirname(os.path.abspath(__file__))
TOP = os.path.dirname(os.path.dirname(HERE))
WIDTH = 8

# The kinds of operands: the letters of the table, the variant of `Kind`, and what the page says of it.
KINDS = {
    "R": ("Register", "a general register, 0 to 15"),
    "F": ("FloatRegister", "a floating-point register, 0 to 15"),
    "AR": ("AccessRegister", "an access register, 0 to 15"),
    "CR": ("ControlRegister", "a control register, 0 to 15"),
    "V": ("VectorRegister", "a vector register, 0 to 31"),
    "M": ("Mask", "a mask, 0 to 15"),
    "I4": ("Immediate4", "an immediate value, 0 to 15"),
    "I8": ("Immediate8", "an immediate value, 0 to 255"),
    "I8S": ("Immediate8Signed", "an immediate value, -128 to 255"),
    "U12": ("Immediate12", "an immediate value, 0 to 4,095"),
    "I16": ("Immediate16", "an immediate value, -32,768 to 65,535"),
    "U16": ("Immediate16Unsigned", "an immediate value that the machine takes without a sign, -32,768 to 65,535 all the same"),
    "I32": ("Immediate32", "an immediate value of 32 bits, signed or not"),
    "X": ("Indexed", "an address with index: `d`, `d(x)`, `d(x,b)`, `d(,b)`"),
    "XL": ("IndexedLong", "the same with a long displacement"),
    "VX": ("VectorIndexed", "an address whose index is a vector register, 0 to 31"),
    "B": ("Based", "an address without index: `d`, `d(b)`"),
    "BL": ("BasedLong", "the same with a long displacement"),
    "L1": ("LengthTo256", "an address with a length, 0 to 256: `d`, `d(l)`, `d(l,b)`, `d(,b)`"),
    "L2": ("LengthTo16", "an address with a length, 0 to 16"),
    "L3": ("RegisterLength", "an address with a register in the length's place: `d(r)`, `d(r,b)`"),
    "T": ("Target", "a relative target"),
}
# Of each kind of operand those that are right, at both ends of what it may be, and those that are wrong, just outside, each with
# what is said of it: 72 of a place where a number is wanted, 81 of a register or a mask, 82 of an immediate value, 84 of a
# displacement, 85 of a length, 86 of an odd target.
REGISTER = (["0", "15"], [("16", "81"), ("-1", "81"), ("PLACE", "72")])
IMMEDIATE_16 = (["-32768", "65535"], [("-32769", "82"), ("65536", "82"), ("PLACE", "72")])
INDEXED = [("4096(1,2)", "84"), ("-1(1,2)", "84"), ("0(16,2)", "81"), ("0(1,16)", "81"), ("4096", "83"), ("PLACE", "83")]
LONG = [("524288(1,2)", "84"), ("-524289(1,2)", "84"), ("0(16,2)", "81"), ("0(1,-1)", "81"), ("524288", "83"), ("PLACE", "83")]
OPERANDS = {
    "R": REGISTER,
    "F": REGISTER,
    "AR": REGISTER,
    "CR": REGISTER,
    "M": REGISTER,
    "V": (["0", "31"], [("32", "81 vector"), ("-1", "81 vector"), ("PLACE", "72")]),
    "I4": (["0", "15"], [("16", "82"), ("-1", "82"), ("PLACE", "72")]),
    "I8": (["0", "255"], [("256", "82"), ("-1", "82"), ("PLACE", "72")]),
    "I8S": (["-128", "255"], [("256", "82"), ("-129", "82"), ("PLACE", "72")]),
    "U12": (["0", "4095"], [("4096", "82"), ("-1", "82"), ("PLACE", "72")]),
    "I16": IMMEDIATE_16,
    "U16": IMMEDIATE_16,
    "I32": (["-2147483647-1", "X'FFFFFFFF'"], [("PLACE", "72"), ("2147483647+1", "72")]),
    "X": (["0(0,15)", "4095(15,0)", "4095(15)", "0"], INDEXED),
    "XL": (["-524288(0,15)", "524287(15,0)", "524287(15)", "-524288"], LONG),
    "VX": (["0(31,15)", "4095(0,0)", "4095(31)", "0"], [*INDEXED[:2], ("0(32,2)", "81 vector"), *INDEXED[3:]]),
    "B": (["0(15)", "4095(0)", "4095"], [("4096(2)", "84"), ("-1(2)", "84"), ("0(16)", "81"), ("-1", "83"), ("PLACE", "83")]),
    "BL": (
        ["-524288(15)", "524287(0)", "524287"],
        [("524288(2)", "84"), ("-524289(2)", "84"), ("0(16)", "81"), ("-524289", "83"), ("PLACE", "83")],
    ),
    "L1": (
        ["0(0,15)", "4095(256,0)", "4095(256)", "0"],
        [("4096(1,2)", "84"), ("-1(1,2)", "84"), ("0(257,2)", "85"), ("0(-1,2)", "85"), ("0(1,16)", "81"), ("PLACE(1)", "83")],
    ),
    "L2": (
        ["0(0,15)", "4095(16,0)", "4095(16)", "0"],
        [("4096(1,2)", "84"), ("-1(1,2)", "84"), ("0(17,2)", "85"), ("0(-1,2)", "85"), ("0(1,16)", "81"), ("PLACE(1)", "83")],
    ),
    "L3": (
        ["0(0,15)", "4095(15,0)", "4095(15)"],
        [("4096(1,2)", "84"), ("-1(1,2)", "84"), ("0(16,2)", "81"), ("0(1,16)", "81"), ("PLACE(1)", "83")],
    ),
    "T": (["PLACE", "*+8", "0"], [("PLACE+1", "86"), ("*-7", "86")]),
}
LENGTHS = {"RR": 2, "I": 2, "E": 2, "RX": 4, "RS": 4, "RSI": 4, "SI": 4, "S": 4, "RI": 4, "RRE": 4, "RRF": 4, "RRD": 4, "IE": 4}
ENCODINGS = (
    "RR I E RX RS SI S RI RIL RRE RXY RSY SS IE MII RIE RIS RRD RRF RRS RSI RSL RXE RXF SIL SIY SMI SSE SSF "
    "VRI VRR VRS VRV VRX VSI"
).split()


def read_table():
    """Each row of the table: mnemonic, format and operands."""
    with open(f"{HERE}/instructions.tsv", encoding="utf-8") as file:
        lines = [line.rstrip("\n").split("\t") for line in file if not line.startswith("#")]
    rows = [(it[0], it[1], [] if it[3] == "-" else it[3].split(",")) for it in lines]
    for (mnemonic, encoding, operands), line in zip(rows, lines):
        assert len(mnemonic) <= WIDTH and mnemonic.isalnum() and mnemonic == mnemonic.upper(), mnemonic
        assert int(line[2]) == length(encoding), mnemonic
        written = [kind.startswith("[") for kind in operands]
        assert written == sorted(written), mnemonic
        assert all(kind.strip("[]") in KINDS for kind in operands), mnemonic
    assert len({row[0] for row in rows}) == len(rows)
    return rows


def length(encoding):
    """The bytes of an instruction."""
    return LENGTHS.get(encoding, 6)


def shape(row):
    """What a row says of its mnemonic."""
    return (row[1], ",".join(row[2]) or "-")


def list_order(operands):
    """The place of a list of operands among others: by its kinds, one after the other."""
    order = list(KINDS) + ["-"]
    return [(order.index(kind.strip("[]")), kind) for kind in operands.split(",")]


def by_shape(rows):
    """The mnemonics of each format and list of operands, in the order of the public page."""
    groups = {}
    for row in rows:
        groups.setdefault(shape(row), []).append(row[0])
    keys = sorted(groups, key=lambda it: (ENCODINGS.index(it[0]), list_order(it[1])))
    return {key: sorted(groups[key]) for key in keys}


def number(mnemonic):
    """The number that the characters of a mnemonic are, blanks behind it."""
    return int.from_bytes(mnemonic.ljust(WIDTH).encode(), "big")


def shifts_of(mnemonics, count):
    """The shifts with which each mnemonic has a row of its own, if a first fit finds them; the mnemonics by their rows."""
    buckets = {}
    for it in mnemonics:
        buckets.setdefault(number(it) % count, []).append(it)
    rows, shifts, size = [None] * len(mnemonics), [0] * count, len(mnemonics)
    for bucket, names in sorted(buckets.items(), key=lambda it: (-len(it[1]), it[0])):
        places = [number(it) % size for it in names]
        if len(set(places)) < len(places):
            return None
        fits = (s for s in range(size) if all(rows[(p + s) % size] is None for p in places))
        shift = next(fits, None)
        if shift is None:
            return None
        shifts[bucket] = shift
        for name, place in zip(names, places):
            rows[(place + shift) % size] = name
    return shifts, rows


def hashed(mnemonics):
    """As few shifts as a first fit finds."""
    for count in range(len(mnemonics) // 8 + 1, 2 * len(mnemonics)):
        found = shifts_of(mnemonics, count)
        if found:
            return found
    sys.exit("no shifts were found")


def variant(encoding):
    """The variant of an encoding."""
    return encoding[0] + encoding[1:].lower()


def in_lines(items, width):
    """Items, as many on a line as there is room for."""
    lines, line = [], ""
    for item in items:
        if len(line) + len(item) + 1 > width:
            lines.append(line)
            line = ""
        line += (" " if line else "") + item
    return lines + [line]


def plain(operands):
    """A list of operands without its brackets."""
    return operands.replace("[", "").replace("]", "")


def kinds_of(lists):
    """The lines of kinds, a line for each list of operands, and the place of its first in them."""
    lines, first, place = [], {"-": 0}, 0
    for operands in lists:
        names = [KINDS[kind][0] for kind in operands.split(",")]
        lines.append("    " + " ".join(f"Kind::{name}," for name in names))
        first[operands] = place
        place += len(names)
    return lines, first


def format_row(encoding, operands, first):
    """The line of a format."""
    count = 0 if operands == "-" else operands.count(",") + 1
    return (
        f"    Format {{ encoding: Encoding::{variant(encoding)}, first: {first[plain(operands)]}, count: {count}, "
        f"optional: {operands.count('[')} }}, // {operands}"
    )


# What the file of rows begins with.
HEAD = [
    "//! The machine instructions, as tools/instructions/make.py wrote them from the table beside it: change that, not this.",
    "use crate::{Encoding, Format, Kind};",
    "",
    "/// A mnemonic, with blanks behind it, and the place of its format in `FORMATS`.",
    "pub struct Row {",
    "    pub mnemonic: [u8; 8],",
    "    pub format: u8,",
    "}",
    "",
    "/// Rows, each a mnemonic and the place of its format.",
    "macro_rules! rows {",
    "    ($($mnemonic:literal $format:literal;)*) => {",
    "        [$(Row {",
    "            mnemonic: *$mnemonic,",
    "            format: $format,",
    "        }),*]",
    "    };",
    "}",
    "",
]


def source(rows):
    """The file of rows of the crate."""
    groups = by_shape(rows)
    numbers = {key: n for n, key in enumerate(groups)}
    shifts, placed = hashed([row[0] for row in rows])
    shapes = {row[0]: shape(row) for row in rows}
    lists = sorted({plain(operands) for _, operands in groups if operands != "-"}, key=list_order)
    kinds, first = kinds_of(lists)
    formats = [format_row(encoding, operands, first) for encoding, operands in groups]
    entries = [f'b"{name:8}" {numbers[shapes[name]]};' for name in placed]
    return "\n".join(
        [
            *HEAD,
            "/// The kinds of operands, list after list.",
            "#[rattlefmt::skip]",
            f"pub static KINDS: [Kind; {sum(line.count(',') for line in kinds)}] = [",
            *kinds,
            "];",
            "",
            "/// The formats of machine instructions, each with the place and the number of its kinds in `KINDS`.",
            "#[rattlefmt::skip]",
            f"pub static FORMATS: [Format; {len(groups)}] = [",
            *formats,
            "];",
            "",
            "/// How many machine instructions there are.",
            f"pub const PLACES: usize = {len(rows)};",
            "",
            "/// How many shifts there are.",
            f"pub const CLASSES: usize = {len(shifts)};",
            "",
            "/// By how much the rows of mnemonics with the same remainder are shifted.",
            "#[rattlefmt::skip]",
            "pub static SHIFTS: [u16; CLASSES] = [",
            *("    " + line for line in in_lines([f"{it}," for it in shifts], 128)),
            "];",
            "",
            "/// The machine instructions, each at the place that its mnemonic and the shifts give.",
            "pub static INSTRUCTIONS: [Row; PLACES] = rows! {",
            *("    " + line for line in in_lines(entries, 128)),
            "};",
            "",
        ]
    )


def page(rows):
    """The public page."""
    groups = by_shape(rows)
    kinds = [f"| {letters} | `{name}` | {text} |" for letters, (name, text) in KINDS.items()]
    formats = [
        f"| {encoding} | {length(encoding)} | {operands} | {' '.join(names)} | {len(names)} |"
        for (encoding, operands), names in groups.items()
    ]
    return "\n".join(
        [
            "# The machine instructions",
            "",
            f"The {len(rows):,} mnemonics that are known, with their formats: those of z/Architecture up to z17, those of "
            "System/370 and ESA/390, and the extended mnemonics of branches, jumps and conditional instructions. Nothing "
            "asks which machine a program is for. Names and formats are those of the z/Architecture Principles of Operation "
            "(SA22-7832) and of the HLASM Language Reference (SC26-4940), as they were gathered from the opcode list of GNU "
            "binutils 2.44; `tools/instructions/instructions.tsv` has each of them with the machine that brought it, the "
            "operands that must be pairs of registers (which is not checked), and its name in GNU as.",
            "",
            "tools/instructions/make.py made this page from that table, and the rows of the crate `instruction_table` too.",
            "",
            "## Kinds of operands",
            "",
            "| Kind | `Kind` | What the operand is |",
            "|---|---|---|",
            *kinds,
            "",
            "An operand in brackets may be left out, and then all that follow it are left out too. What is written after an "
            "instruction without operands (`-`) is a remark.",
            "",
            "## Formats",
            "",
            "| Format | Bytes | Operands | Mnemonics | Count |",
            "|---|---|---|---|---|",
            *formats,
            "",
        ]
    )


def cases(rows):
    """The table of cases."""
    lines = [
        f"{mnemonic} => {encoding} {length(encoding)} {','.join(operands) or '-'}"
        for mnemonic, encoding, operands in sorted(rows)
    ]
    head = [
        "# Each machine instruction with its format, its bytes and its operands. tools/instructions/make.py wrote this table",
        "# from tools/instructions/instructions.tsv.",
    ]
    return "\n".join(head + lines + [""])


def counts(rows):
    """The table of cases on numbers of operands."""
    head = [
        "# The numbers of operands that each machine instruction may have, of those from 0 to 7. tools/instructions/make.py wrote",
        "# this table from tools/instructions/instructions.tsv.",
    ]
    lines = []
    for mnemonic, _, operands in sorted(rows):
        least = sum(not kind.startswith("[") for kind in operands)
        lines.append(f"{mnemonic} => {' '.join(str(count) for count in range(least, len(operands) + 1))}")
    return "\n".join(head + lines + [""])


def statement(mnemonic, operands):
    """A statement of the table of cases on operands."""
    return f"PLACE=0:64 |  |  | {' '.join(filter(None, [mnemonic, ','.join(operands)]))}"


def faults(rows):
    """The table of cases on operands. In turn each operand that is right or wrong for its kind stands somewhere."""
    lines = [
        "# Each machine instruction with right operands, of which nothing is said, and then with each of its operands wrong in turn.",
        "# tools/instructions/make.py wrote this table from tools/instructions/instructions.tsv and the ends of what each kind of",
        "# operand may be; the columns are those of operand_checks.",
    ]
    right = {kind: itertools.cycle(texts) for kind, (texts, _) in OPERANDS.items()}
    wrong = {kind: itertools.cycle(texts) for kind, (_, texts) in OPERANDS.items()}
    for mnemonic, _, operands in sorted(rows):
        kinds = [kind.strip("[]") for kind in operands]
        texts = [next(right[kind]) for kind in kinds]
        lines.append(f"{statement(mnemonic, texts)} => ;")
        for place, kind in enumerate(kinds):
            text, said = next(wrong[kind])
            lines.append(f"{statement(mnemonic, [*texts[:place], text, *texts[place + 1:]])} => ; {said}")
    return "\n".join([*lines, ""])


def main():
    rows = read_table()
    wanted = {
        "crates/instruction_table/src/rows.rt": source(rows),
        "docs/INSTRUCTIONS.md": page(rows),
        "tests/cases/instructions.txt": cases(rows),
        "tests/cases/operand_counts.txt": counts(rows),
        "tests/cases/instruction_operands.txt": faults(rows),
    }
    status = 0
    for name, text in wanted.items():
        path = f"{TOP}/{name}"
        if sys.argv[1:] == ["--check"]:
            with open(path, encoding="utf-8") as file:
                if file.read() != text:
                    print(f"{name} is not what tools/instructions/make.py writes")
                    status = 1
        else:
            with open(path, "w", encoding="utf-8") as file:
                file.write(text)
    return status


if __name__ == "__main__":
    sys.exit(main())
