#!/usr/bin/env python3
"""The page of the measurements: from what the scripts print it gets each figure, its peer, and whether its goal is met; what was
not printed is not measured; and writing it again replaces the figures alone. No measurement is made here.
"""
import importlib.util
import os
import sys
import tempfile
import unittest

TOP = os.path.normpath(os.path.join(os.path.dirname(os.path.realpath(__file__)), "../.."))

# What the scripts print, in their words.
PRINTED = {
    "statements.sh": "statements: 4200000 bytes in 10.50 ms, 400 MB/s\nlines: 4200000 bytes in 3.80 ms, 1105 MB/s\n"
                     "twice the text: 2.30 times the time (at most 2.2)\n",
    "edits.sh": "edits: 400 a second, 2.500 ms each\ncopies: 2631 a second, 0.380 ms each\n"
                "an edit of 4194304 bytes takes as long as 6.58 copies\n",
    "effect.sh": "&I SETA &I+1: 140 ns performed, 900 ns read and performed\nLR 1,2: 51 ns performed, 300 ns read and performed\n",
    "instructions.sh": "a mnemonic is found in 39.9 ns, the least of 11 times 1,000 rounds over 2413 (to be at most 40)\n",
    "traces.sh": "an item takes 288 bytes (at most 300)\n"
                 "a point in nodes of 100: made, appended and linked 219 ns, 31 more than kept in a list (at most 100)\n"
                 "a step of a walk through them 1.8 ns (at most 50)\n"
                 "a point in nodes of 10: made, appended and linked 171 ns, -18 more than kept in a list (at most 100)\n"
                 "a step of a walk through them 58.9 ns (at most 50)\n",
    "session.sh": "500 keystrokes in 10000 lines, 400000 bytes:\n  served in 5000 ms, 100 messages a second; the last list after 4999 ms\n"
                  "  frames split and JSON read by Python, its start included, in 50 ms\n  123456 instructions a keystroke, with its list\n"
                  "10 edits in 1000 lines: at most 3000 kB\n1000 edits in 1000 lines: at most 3100 kB\n",
}

WANTED = [
    "| the statements of 4 MiB | 10.5 ms, 2.76 times | finding the line ends: 3.8 ms | at most 3 times finding the line ends | yes |",
    "| the time of twice the text | 2.3 times |  | at most 2.2 | no |",
    "| a million characters of arithmetic expressions | not measured | | | no |",
    "| an edit of one character in 4 MiB | 2.5 ms, 6.58 times | a copy of the text: 0.38 ms | at most 6 times a copy of the text | no |",
    "| 500 keystrokes in 10,000 lines | 5000 ms, 100.00 times | Python, which only reads their JSON: 50 ms |  |  |",
    "| instructions of a keystroke with its list | 123456 instructions |  |  |  |",
    "| memory of 1,000 edits | 3100 kB, 1.03 times | 10 edits: 3000 kB | at most 1.1 times 10 edits | yes |",
    "| a keystroke with 20 open programs | not measured | | | no |",
    "| `&I SETA &I+1` performed | 140 ns |  | at most 150 | yes |",
    "| `LR 1,2` performed | 51 ns |  | at most 50 | no |",
    "| a machine instruction found by its mnemonic | 39.9 ns |  | at most 40 | yes |",
    "| memory of an item of a trace | 288 bytes |  | at most 300 | yes |",
    "| a point in nodes of 10, beyond what a list takes | -18 ns |  | at most 100 | yes |",
    "| a step of a walk in nodes of 10 | 58.9 ns |  | at most 50 | no |",
]


def bench_module():
    sys.dont_write_bytecode = True
    spec = importlib.util.spec_from_file_location("bench_all", os.path.join(TOP, "bench/all.py"))
    module = importlib.util.module_from_spec(spec)
    spec.loader.exec_module(module)
    return module


class Page(unittest.TestCase):
    def test_the_figures_and_the_page(self):
        bench = bench_module()
        with tempfile.TemporaryDirectory(prefix="hlasm-bench-") as room:
            bench.HERE, bench.PAGE = room, f"{room}/README.md"
            os.mkdir(f"{room}/out")
            for script, printed in PRINTED.items():
                with open(f"{room}/out/{script}.txt", "w", encoding="utf-8") as file:
                    file.write(printed)
            with open(bench.PAGE, "w", encoding="utf-8") as file:
                file.write("What stands here stays.\n")
            found, unmet = bench.figures(busy=False)
            for row in WANTED:
                self.assertIn(row + "\n", found)
            self.assertEqual(found.count("| no |\n"), unmet)
            for text in ("first\n", found):
                bench.write_page(text)
            with open(bench.PAGE, encoding="utf-8") as file:
                page = file.read()
            self.assertEqual(f"What stands here stays.\n\n# Figures\n\n{bench.BEGIN}{found}{bench.END}", page)

    def test_each_script_is_there(self):
        for row in bench_module().ROWS:
            self.assertTrue(os.access(os.path.join(TOP, "bench", row.script), os.X_OK), row.script)


if __name__ == "__main__":
    unittest.main()
