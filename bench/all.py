#!/usr/bin/env python3
"""Runs all measurements, one after the other, and writes their figures into README.md of this folder, each with its peer and its
goal. What each printed is kept in out/. The gate is measured by gate.sh, which takes as long as the gate itself.

Usage: all.py [--busy] [--again]
"""
import argparse
import datetime
import os
import platform
import re
import subprocess
import sys
import time

HERE = os.path.dirname(os.path.realpath(__file__))
PAGE = os.path.join(HERE, "README.md")
BEGIN, END = "<!-- figures, written by make bench -->\n", "<!-- end of the figures -->\n"
SCRIPTS = [
    "statements.sh", "expressions.sh", "effect.sh", "instructions.sh", "edits.sh", "session.sh", "definitions.sh", "open_code.sh",
    "macros.sh", "library.sh", "lookahead.sh", "layout.sh", "checks.sh", "memo.sh", "traces.sh",
    "launch.sh", "questions.sh",
]
# More than so much of the processors' time in use: the figures would be those of a busy machine.
MOST_BUSY = 0.05


class Row:
    """A figure of a measurement: where it stands in what was printed, what is beside it, and what it is to be."""

    def __init__(self, script, what, figure, unit, peer=None, beside=None, most=None, nth=0):
        self.script, self.what, self.figure, self.unit = script, what, figure, unit
        self.peer, self.beside, self.most, self.nth = peer, beside, most, nth

    def found(self, pattern, printed):
        numbers = re.findall(pattern, printed)
        return float(numbers[self.nth]) if len(numbers) > self.nth else None

    def text(self, printed):
        """The row of the table, and whether its goal is met or it has none."""
        figure = self.found(self.figure, printed)
        if figure is None:
            return f"| {self.what} | not measured | | | no |", False
        beside = self.found(self.beside, printed) if self.beside else None
        times = figure / beside if beside else figure
        peer = f"{self.peer}: {beside:g} {self.unit}" if beside else self.peer or ""
        goal = "" if self.most is None else f"at most {self.most:g} times {self.peer}" if beside else f"at most {self.most:g}"
        met = "" if self.most is None else "yes" if times <= self.most else "no"
        ratio = f", {times:.2f} times" if beside else ""
        return f"| {self.what} | {figure:g} {self.unit}{ratio} | {peer} | {goal} | {met} |", met != "no"


def expressions(what, kind, nth, least):
    """The rows of one sort of expressions, of which so many MB a second are to be read at least."""
    return [
        Row("expressions.sh", f"a million characters of {what}", rf"(?m)^{kind}: \d+ bytes in ([\d.]+) ms", "ms",
            "a pass over the characters", rf"the characters of these {kind}: \d+ bytes in ([\d.]+) ms"),
        Row("expressions.sh", f"a byte of {what}, at {least} MB/s", rf"(?m)^a byte of {kind}: ([\d.]+) ns", "ns",
            most=round(1000 / least, 1)),
        Row("expressions.sh", f"the time of twice the text of {what}", r"twice the text: ([\d.]+)", "times", most=2.2, nth=nth),
    ]


def effect(statement, most):
    """The row of what a statement of conditional assembly does."""
    return Row("effect.sh", f"`{statement}` performed", rf"(?m)^{re.escape(statement)}: (\d+) ns performed", "ns", most=most)


def nested(items, nth):
    """The rows of a million points in nodes of so many items."""
    return [
        Row("traces.sh", f"a point in nodes of {items}, beyond what a list takes", rf"nodes of {items}: .* ns, (-?\d+) more", "ns",
            most=100),
        Row("traces.sh", f"a step of a walk in nodes of {items}", r"a step of a walk through them ([\d.]+) ns", "ns", most=50, nth=nth),
    ]


ROWS = [
    Row("statements.sh", "the statements of 4 MiB", r"(?m)^statements: \d+ bytes in ([\d.]+) ms", "ms", "finding the line ends",
        r"(?m)^lines: \d+ bytes in ([\d.]+) ms", most=3),
    Row("statements.sh", "the time of twice the text", r"twice the text: ([\d.]+)", "times", most=2.2),
    *expressions("arithmetic expressions", "expressions", 0, 60),
    *expressions("character expressions", "texts", 1, 100),
    *expressions("logical expressions", "truths", 2, 40),
    Row("expressions.sh", "a condition with a million closing parentheses",
        r"closing parentheses: \d+ bytes in ([\d.]+) ms", "ms", most=100),
    Row("expressions.sh", "a condition in 900 parentheses, with 2 MB of blanks", r"MB of blanks: \d+ bytes in ([\d.]+) ms", "ms", most=100),
    effect("&I SETA &I+1", 150),
    effect("AIF (&I LE 100).L", 200),
    effect("LR 1,2", 50),
    effect("&L DC F'&N'", 300),
    Row("instructions.sh", "a machine instruction found by its mnemonic", r"found in ([\d.]+) ns", "ns", most=40),
    Row("edits.sh", "an edit of one character in 4 MiB", r"(?m)^edits: .* ([\d.]+) ms each", "ms", "a copy of the text",
        r"(?m)^copies: .* ([\d.]+) ms each", most=6),
    Row("session.sh", "500 keystrokes in 10,000 lines", r"served in (\d+) ms", "ms", "Python, which only reads their JSON",
        r"its start included, in (\d+) ms"),
    Row("session.sh", "instructions of a keystroke with its list", r"(\d+) instructions a keystroke", "instructions"),
    Row("session.sh", "memory of 1,000 edits", r"(?m)^1000 edits.* (\d+) kB", "kB", "10 edits", r"(?m)^10 edits.* (\d+) kB", most=1.1),
    Row("session.sh", "a keystroke in a program of 10,000 lines, from message to frame", r"one of 1 open programs.*: ([\d.]+) ms", "ms",
        most=10),
    Row("session.sh", "a keystroke with 20 open programs", r"one of 20 open programs.*: ([\d.]+) ms", "ms", "with one",
        r"one of 1 open programs.*: ([\d.]+) ms", most=1.1),
    Row("session.sh", "10,000 changes in one message read, and none made", r"read alone, downwards.* (\d+) copies", "copies of the text"),
    Row("session.sh", "10,000 changes made, downwards", r"made alone, downwards.* (\d+) copies", "copies of the text", most=100),
    Row("session.sh", "10,000 changes made, upwards", r"made alone, upwards.* (\d+) copies", "copies of the text", most=100),
    Row("session.sh", "10,000 changes in one message, downwards", r"in one message, downwards.* (\d+) copies", "copies of the text",
        most=100),
    Row("session.sh", "10,000 changes in one message, upwards", r"in one message, upwards.* (\d+) copies", "copies of the text",
        most=100),
    Row("definitions.sh", "a definition of 60,000 statements", r"(?m)^a definition of 60000 statements: read in ([\d.]+) ms", "ms",
        "reading its statements alone", r"its statements alone in ([\d.]+) ms", most=2),
    Row("definitions.sh", "the same, copied from a member", r"(?m)^copied from a member: read in ([\d.]+) ms", "ms",
        "reading its statements alone", r"its statements alone in ([\d.]+) ms", most=2),
    Row("definitions.sh", "the time of 32 times as many statements of members that copy the next one twice",
        r"32 times as many as \d+ take ([\d.]+) times", "times", most=48),
    Row("definitions.sh", "the time of a statement where such a definition is stopped, beside one that is read",
        r"a statement, ([\d.]+) times what one costs", "times", most=1.5),
    Row("open_code.sh", "50,000 statements assembled, without conditional assembly", r"assembled in ([\d.]+) ms", "ms",
        "reading them alone", r"read alone in ([\d.]+) ms", most=4),
    Row("open_code.sh", "a loop of 90,000 points", r"points: ([\d.]+) ms", "ms", most=150),
    Row("open_code.sh", "memory of a point", r"(?m)^memory: (\d+) bytes", "bytes", most=300),
    Row("library.sh", "5,000 members read at `initialized`", r"members read at initialized in ([\d.]+) ms", "ms",
        "listing and reading them", r"the members listed and read by a plain program, its start included, in ([\d.]+) ms", most=1.5),
    Row("library.sh", "the same where the members have various lengths", r"various lengths read at initialized in ([\d.]+) ms", "ms",
        "listing and reading them", r"various lengths listed and read by a plain program, its start included, in ([\d.]+) ms", most=1.5),
    Row("library.sh", "a keystroke in a program that calls one of 5,000 members", r"calls one of \d+ members: ([\d.]+) ms", "ms"),
    Row("lookahead.sh", "the index of 50,000 statements", r"(?m)^the index of 50000 statements: made in ([\d.]+) ms", "ms"),
    Row("lookahead.sh", "a question, of ten thousand", r"(?m)^ten thousand questions: (\d+) ns", "ns", most=1000),
    Row("lookahead.sh", "50,000 lines with one T' of the last label", r"T' of the last label: ([\d.]+) ms", "ms", "without",
        r"ms, without ([\d.]+):", most=1.3),
    Row("layout.sh", "50,000 statements with 5,000 literals laid out", r"literals: laid out in ([\d.]+) ms", "ms", most=40),
    Row("layout.sh", "10,000 EQUs, each of the next one", r"of the next one: laid out in ([\d.]+) ms", "ms", most=50),
    Row("checks.sh", "50,000 statements over four ranges checked", r"ranges: checked in ([\d.]+) ms", "ms", most=25),
    Row("macros.sh", "10,000 calls of a macro with a counter and a constant", r"(?m)^10000 calls: (\d+) ms", "ms", "GNU as: 70 ms",
        most=70),
    Row("macros.sh", "100,000 such calls", r"(?m)^100000 calls: (\d+) ms", "ms", "GNU as: 980 ms", most=980),
    Row("macros.sh", "memory of a point of such calls", r"(?m)^memory: (\d+) bytes", "bytes", most=300),
    Row("macros.sh", "20,000 calls at depth 100", r"depth 100: (\d+) ms", "ms"),
    Row("macros.sh", "the same, beside depth 1", r"depth 100: .* ([\d.]+) times", "times", most=1.1),
    Row("memo.sh", "100,000 different calls in one state, run and kept",
        r"(?m)^different calls in one state: 100,000 in ([\d.]+) s", "s", most=0.15),
    Row("memo.sh", "100,000 equal calls, reused", r"(?m)^equal calls, reused: 100,000 in ([\d.]+) s", "s", most=0.05),
    Row("memo.sh", "four times as many equal calls with different outcomes", r"four times as many ([\d.]+) times", "times", most=5),
    Row("traces.sh", "memory of an item of a trace", r"(?m)^an item takes (\d+) bytes", "bytes", most=300),
    *nested(100, 0),
    *nested(10, 1),
    Row("traces.sh", "a point found in a node of 10,000 links", r"10,000 links: ([\d.]+) us", "µs", most=5),
    Row("launch.sh", "a program with 100,000 points launched, up to the first stop", r"(?m)^launch: ([\d.]+) ms", "ms", "its list",
        r"(?m)^list: ([\d.]+) ms", most=1.2),
    Row("launch.sh", "a stop behind nearly all of its points", r"(?m)^stop: ([\d.]+) ms", "ms", most=5),
    Row("launch.sh", "500 variables there", r"(?m)^variables: ([\d.]+) ms", "ms", most=20),
    Row("questions.sh", "hover among 200,000 occurrences", r"(?m)^hover in .*: ([\d.]+) ms", "ms", most=5),
    Row("questions.sh", "definition there", r"(?m)^definition there: ([\d.]+) ms", "ms", most=5),
    Row("questions.sh", "references to 10,000 places", r"(?m)^references to \d+ places: ([\d.]+) ms", "ms", most=60),
]


def processor_times():
    """The time of all processors so far, and what of it was in use."""
    with open("/proc/stat", encoding="ascii") as file:
        times = [int(word) for word in file.readline().split()[1:9]]
    return sum(times), sum(times) - times[3] - times[4]


def busy_share():
    """Which part of the processors' time was in use within two seconds."""
    before = processor_times()
    time.sleep(2)
    after = processor_times()
    return (after[1] - before[1]) / max(1, after[0] - before[0])


def run(script):
    """Runs a measurement, keeps what it printed, and says whether it ended well."""
    print(f"bench: {script}", flush=True)
    ran = subprocess.run([os.path.join(HERE, script)], stdout=subprocess.PIPE, encoding="utf-8", errors="replace")
    os.makedirs(f"{HERE}/out", exist_ok=True)
    with open(f"{HERE}/out/{script}.txt", "w", encoding="utf-8") as file:
        file.write(ran.stdout)
    print(ran.stdout, end="", flush=True)
    return ran.returncode == 0


def printed_by(script):
    try:
        with open(f"{HERE}/out/{script}.txt", encoding="utf-8") as file:
            return file.read()
    except OSError:
        return ""


def processor():
    """How many processors this machine has, and their name."""
    with open("/proc/cpuinfo", encoding="utf-8") as file:
        names = re.findall(r"model name\s*:\s*(.*)", file.read())
    return f"{len(names)} processors, {names[0]}" if names else f"processors {platform.machine()}"


def figures(busy):
    """The part of the page that has the figures, and how many goals are not met."""
    rows = [row.text(printed_by(row.script)) for row in ROWS]
    note = ", while it was busy" if busy else ""
    day = datetime.date.today().isoformat()
    lines = [f"Measured on {day}, on a machine with {processor()}{note}.", "",
             "| What | Figure | Peer | Goal | Met |", "|---|---|---|---|---|", *(text for text, _ in rows)]
    return "\n".join(lines) + "\n", sum(not met for _, met in rows)


def write_page(found):
    """Puts the figures into the page, at its end if it has none yet."""
    with open(PAGE, encoding="utf-8") as file:
        page = file.read()
    if BEGIN not in page:
        page += f"\n# Figures\n\n{BEGIN}{END}"
    before, rest = page.split(BEGIN)
    with open(PAGE, "w", encoding="utf-8") as file:
        file.write(before + BEGIN + found + END + rest.split(END)[1])


def main():
    parser = argparse.ArgumentParser(description=__doc__.partition("\n\n")[0])
    parser.add_argument("--busy", action="store_true", help="measure although the machine is busy; the page says so")
    parser.add_argument("--again", action="store_true", help="measure nothing: write the page from what was printed last")
    words = parser.parse_args()
    busy = not words.again and busy_share() > MOST_BUSY
    if busy and not words.busy:
        sys.exit("bench: this machine is busy; end what runs, or measure all the same with bench/all.py --busy")
    failed = [] if words.again else [script for script in SCRIPTS if not run(script)]
    found, unmet = figures(busy)
    write_page(found)
    print(f"bench: {len(ROWS)} figures in {os.path.relpath(PAGE)}, {unmet} goals not met or not measured")
    if failed:
        print(f"bench: these ended badly: {', '.join(failed)}", file=sys.stderr)
    return 1 if failed else 0


if __name__ == "__main__":
    sys.exit(main())
