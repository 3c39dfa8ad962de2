#!/usr/bin/env python3
"""hlasm-lint with the built program: what it lists, its status, and what it says when a file or the server fails.

Usage: lint.py [--server PATH]
"""
import argparse
import json
import os
import pty
import re
import subprocess
import sys
import tempfile
import unittest

TOP = os.path.normpath(os.path.join(os.path.dirname(os.path.realpath(__file__)), "../.."))
LINT = os.path.join(TOP, "clients/hlasm-lint")
BUILT = os.path.join(TOP, "crates/hlasm_ls/out/hlasm_ls")

MARGIN = "error: columns 1 to 15 of a continuation line are not blank [H001]"
SURPLUS = "error: more than nine continuation lines [H002]"
NO_END = "warning: END statement is missing [H003]"
CUT = "warning: the text ends where a continuation line is expected [H005]"
OPEN = "error: an apostrophe is not closed [H006]"
BAD_CONSTANT = "error: the constant cannot be read [H060]"

END = "         END\n"


def marked(text):
    """A line that goes on in the next one."""
    return text.ljust(71) + "X\n"


BAD_MARGIN = marked("A        LR    1,2") + "  B\n"

# Two errors in the first statement, and a warning.
FAULTY = marked("*") + marked("  *") + marked("") * 8 + "\n"

# What one file lists: its name, its text, and the reports behind FILE:
LISTED = [
    ("clean.hlasm", "A        LR    1,2\n" + END, []),
    ("empty.hlasm", "", [f"1:1: {NO_END}"]),
    ("no_end.hlasm", "A        LR    1,2\n", [f"2:1: {NO_END}"]),
    ("margin.hlasm", BAD_MARGIN + END, [f"1:1: {MARGIN}"]),
    ("at_column_16.hlasm", marked("A        LR    1,2") + " " * 15 + "B\n" + END, []),
    ("nine.hlasm", marked("*") + marked("") * 8 + "\n" + END, []),
    ("ten.hlasm", marked("*") + marked("") * 9 + "\n" + END, [f"1:1: {SURPLUS}"]),
    ("ten_of_a_constant.hlasm", marked("A        DC    X'") + marked("") * 9 + " " * 15 + "00'\n" + END,
     [f"1:1: {SURPLUS}", f"1:1: {OPEN}", f"1:1: {BAD_CONSTANT}"]),
    ("ten_of_a_condition.hlasm",
     marked("         AIF   (0).A,") + marked(" " * 15 + "(0).A,") * 9 + " " * 15 + "(1).B\n.A       LR    1\n.B" + END[2:], []),
    ("cut.hlasm", END + marked("*")[:-1], [f"2:1: {CUT}"]),
    ("order.hlasm", "\n" + marked("*") + "*\n" + BAD_MARGIN, [f"2:1: {MARGIN}", f"4:1: {MARGIN}", f"6:1: {NO_END}"]),
    ("crlf.hlasm", ("\n" + BAD_MARGIN + END).replace("\n", "\r\n"), [f"2:1: {MARGIN}"]),
    ("cr.hlasm", ("\n" + BAD_MARGIN + END).replace("\n", "\r"), [f"2:1: {MARGIN}"]),
    ("other_line_ends.hlasm", "* \x0b \x0c \x85 \u2028\n" + BAD_MARGIN + END, [f"2:1: {MARGIN}"]),
    ("byte_order_mark.hlasm", "\ufeff" + BAD_MARGIN + END, [f"1:1: {MARGIN}"]),
    ("wide.hlasm", "*" + "\U0001d538" * 70 + "X\n  B\n" + END, [f"1:1: {MARGIN}"]),
    ("blank % # ? ü \U0001d538.hlasm", BAD_MARGIN + END, [f"1:1: {MARGIN}"]),
    ("many.hlasm", BAD_MARGIN * 1001 + END, [f"{2 * i + 1}:1: {MARGIN}" for i in range(1000)]),
]

# Servers that fail: a script, and a word of what is said.
FAILING = [
    ("read line; exit 1", "ended with status 1"),
    ("exec '{server}' serv", "ended with status 7"),
    ("'{server}' serve < /dev/null", "ended with status 2"),
    ("dd bs=1 count=400 2> /dev/null | '{server}' serve", "ended with status 2"),
    ("read line; echo Hello", "not a message"),
    ("read line; printf 'Content-Type: x\\r\\n\\r\\n{{}}'", "without a length"),
    ("read line; printf 'Content-Length: 99999999999999999999\\r\\n\\r\\n{{}}'", "hopeless"),
    ("read line; printf 'Content-Length: 2\\r\\n\\r\\n[]'", "not an object"),
    ("read line; printf 'Content-Length: 1\\r\\n\\r\\n{{'", "not JSON"),
    ("read line; printf 'Content-Length: 38\\r\\n\\r\\n{{\"id\":1,\"jsonrpc\":\"2.0\",\"error\":null }}'", "unknown form"),
    ("sleep 1000", "did not answer within 5 seconds"),
    ("'{server}' serve; sleep 1000", "did not end within 5 seconds"),
]

server = BUILT


def lint(*words, folder, program=None):
    """Status, lines and standard error of hlasm-lint."""
    command = [sys.executable, LINT, "--server", program or server, *words]
    ran = subprocess.run(command, cwd=folder, stdin=subprocess.DEVNULL, capture_output=True, encoding="utf-8", timeout=300)
    return ran.returncode, ran.stdout.splitlines(), ran.stderr


class Lint(unittest.TestCase):
    def setUp(self):
        self.room = tempfile.TemporaryDirectory(prefix="hlasm-lint-")
        self.folder = self.room.name
        self.addCleanup(self.room.cleanup)

    def file(self, name, content):
        path = os.path.join(self.folder, name)
        with open(path, "wb") as file:
            file.write(content if isinstance(content, bytes) else content.encode("utf-8"))
        return name

    def folder_of(self, top, *names):
        """A folder with files of these names, each with faults of three codes."""
        for name in names:
            path = os.path.join(self.folder, top, name)
            os.makedirs(os.path.dirname(path), exist_ok=True)
            with open(path, "w", encoding="utf-8") as file:
                file.write(FAULTY)
        return top

    def script(self, name, line):
        self.file(name, f"#!/bin/sh\n{line}\n")
        os.chmod(os.path.join(self.folder, name), 0o755)
        return os.path.join(self.folder, name)

    def test_the_example(self):
        for words, stored in ([], "first.txt"), (["--json"], "first.json"):
            with open(os.path.join(TOP, "tests/clients", stored), encoding="utf-8") as file:
                wanted = file.read().splitlines()
            self.assertEqual((1, wanted, ""), lint(*words, "examples/first.hlasm", folder=TOP))

    def test_the_pages_show_the_example_as_it_is(self):
        with open(os.path.join(TOP, "tests/clients/first.txt"), encoding="utf-8") as file:
            listed = "".join(f"    {line}" for line in file)
        for page in ("README.md", "docs/PIPELINE.md"):
            with open(os.path.join(TOP, page), encoding="utf-8") as file:
                self.assertIn(listed, file.read(), page)

    def test_the_example_with_a_library(self):
        """What is listed of it stands in the page for users, and so do its settings."""
        words = ["--related", "--root", "examples/library", "examples/library"]
        with open(os.path.join(TOP, "tests/clients/library.txt"), encoding="utf-8") as file:
            wanted = file.read().splitlines()
        with open(os.path.join(TOP, "docs/USER.md"), encoding="utf-8") as file:
            page = file.read()
        self.assertIn("".join(f"    {line}\n" for line in [f"$ hlasm-lint {' '.join(words)}", *wanted]), page)
        for name in ("proc_grps.json", "pgm_conf.json"):
            with open(os.path.join(TOP, "examples/library/.hlasmplugin", name), encoding="utf-8") as file:
                self.assertIn(f"```json\n{file.read()}```\n", page)
        self.assertEqual((1, wanted, ""), lint(*words, folder=TOP))

    def test_the_example_with_an_address_that_is_not_covered(self):
        """What is listed of it stands in the page for users."""
        with open(os.path.join(TOP, "tests/clients/bases.txt"), encoding="utf-8") as file:
            wanted = file.read().splitlines()
        with open(os.path.join(TOP, "docs/USER.md"), encoding="utf-8") as file:
            self.assertIn("".join(f"    {line}\n" for line in wanted), file.read())
        self.assertEqual((1, wanted, ""), lint("examples/bases.hlasm", folder=TOP))

    def test_where_a_report_arose(self):
        """In the forms for programs, as in lines: the file from the current folder, the line, and what stands there."""
        words = ["--root", "examples/library", "examples/library/totals.hlasm"]
        reports = [json.loads(line) for line in lint("--json", *words, folder=TOP)[1]]
        place = {"file": "examples/library/macros/FIELD.mac", "line": 5, "message": "macro FIELD"}
        self.assertEqual([None, [place]], [it.get("related") for it in reports])
        results = json.loads("\n".join(lint("--sarif", *words, folder=TOP)[1]))["runs"][0]["results"]
        self.assertNotIn("relatedLocations", results[0])
        self.assertEqual([{
            "physicalLocation": {"artifactLocation": {"uri": place["file"]}, "region": {"startLine": 5}},
            "message": {"text": place["message"]},
        }], results[1]["relatedLocations"])

    def test_libraries_that_cannot_be_read(self):
        """Each is a fault, since a program is reported to lack what it has."""
        name, top = self.file("a.hlasm", END), os.path.realpath(self.folder)
        none = {"pgms": []}
        for groups, programs, logs in (
            ({"pgroups": [{"name": "G", "libs": ["none"]}]}, none, [f"{top}/none: Absent"]),
            ({"pgroups": [{"name": "G", "libs": [{"path": "none", "optional": True}]}]}, none, []),
            ({"pgroups": [{"name": "G", "libs": ["a.hlasm/"]}]}, none, [f"{top}/a.hlasm: Unlisted"]),
            ({"pgroups": [{"name": "G"}]}, none, [f"{top}/.hlasmplugin/proc_grps.json: BadConfig(libs)"]),
            ("{", {"pgms": 1},
             [f"{top}/.hlasmplugin/proc_grps.json: BadConfig(json)", f"{top}/.hlasmplugin/pgm_conf.json: BadConfig(pgms)"]),
        ):
            with self.subTest(logs):
                self.settings(groups, programs)
                said = "".join(f"hlasm-lint: {log}\n" for log in logs)
                self.assertEqual((2 if logs else 0, [], said), lint(name, folder=self.folder))

    def test_the_examples_of_the_user_page(self):
        """Each code has examples: a ruler above, no line end behind, and below it what is listed, which the code is in; and before it
        the members of a library that it needs."""
        with open(os.path.join(TOP, "docs/USER.md"), encoding="utf-8") as file:
            sections = re.split(r"\n(?=##)", file.read())
        heads = [re.match(r"### (\w+) \(([\w ]+)\): (.*)\n", section) for section in sections]
        for head, section in [it for it in zip(heads, sections) if it[0]]:
            code, severity, says = head.groups()
            examples = re.findall(r"```hlasm\n.*\n([^`]*)\n```\n```text\n([^`]*)\n```\n", section)
            self.assertTrue(examples, code)
            self.members_of(section)
            for text, listed in examples:
                with self.subTest(listed):
                    self.assertRegex(listed, rf"(?m)^example.hlasm:\d+:\d+: {self.any_of(severity)}: {self.any_of(says)} \[{code}\]$")
                    self.assertEqual(listed.split("\n"),
                                     lint(self.file("example.hlasm", text), folder=self.folder, program=self.server_of(section))[1])
        with open(os.path.join(TOP, "README.md"), encoding="utf-8") as file:
            table = re.findall(r"^\| `(H\d+|MNOTE)` \| ([\w ]+) \| ", file.read(), re.MULTILINE)
        self.assertEqual(table, [head.groups()[:2] for head in heads if head])

    def members_of(self, section):
        """The members that a section shows or describes, in the library of all programs."""
        os.makedirs(os.path.join(self.folder, "lib"), exist_ok=True)
        self.settings({"pgroups": [{"name": "G", "libs": ["lib"]}]}, {"pgms": [{"program": "*", "pgroup": "G"}]})
        for name, text in re.findall(r"he member `(\w+)` of \w+ library:\n\n```hlasm\n.*\n([^`]*)\n```\n", section):
            self.file(f"lib/{name}", text)
        for name, byte in re.findall(r"he member `(\w+)` of a library is the one byte X'(\w\w)'", section):
            self.file(f"lib/{name}", bytes.fromhex(byte))
        for name, count, operation in re.findall(r"he member `(\w+)` of a library is ([\d,]+) lines `(\w+)`", section):
            self.file(f"lib/{name}", "\n".join([f"         {operation}"] * int(count.replace(",", ""))))

    @staticmethod
    def any_of(says):
        """A pattern of a title, in which words in capitals stand for names, texts and numbers."""
        return re.sub(r"\bby its operand\b", r"\\w+", re.sub(r"\bTEXT\b", ".+", re.sub(r"\b(NAME|N)\b", r"\\w+", says)))

    def server_of(self, section):
        """The program, under the budget that a section names."""
        budget = re.search(r"With `--budget (\d+)`", section)
        return self.script("budgeted", f"exec '{server}' serve --budget {budget[1]}") if budget else None

    def test_what_is_listed(self):
        for name, text, reports in LISTED:
            with self.subTest(name):
                status, lines, said = lint(self.file(name, text), folder=self.folder)
                self.assertEqual([f"{name}:{report}" for report in reports], lines)
                self.assertEqual(1 if any(": error: " in line for line in lines) else 0, status)
                most = f"hlasm-lint: {name}: no more than 1000 reports of a file are listed\n"
                self.assertEqual(most if len(lines) == 1000 else "", said)

    def test_columns_are_characters(self):
        name = self.file("wide.hlasm", "*" + "\U0001d538" * 70 + "X\n  B\n" + END)
        status, lines, said = lint("--json", name, folder=self.folder)
        self.assertEqual((1, ""), (status, said))
        self.assertIn('"line": 1, "column": 1, "endLine": 1, "endColumn": 72,', lines[0])

    def test_many_files_go_through_one_server(self):
        program = self.script("counted", f"echo started >> '{self.folder}/starts'; exec '{server}' serve")
        names = [self.file(f"{number}.hlasm", BAD_MARGIN if number % 2 else END) for number in range(70)]
        names.append(names[1])
        wanted = [line for name in names[1::2] + names[-1:] for line in (f"{name}:1:1: {MARGIN}", f"{name}:3:1: {NO_END}")]
        self.assertEqual((1, wanted, ""), lint(*names, folder=self.folder, program=program))
        with open(os.path.join(self.folder, "starts"), encoding="utf-8") as file:
            self.assertEqual("started\n", file.read())

    def test_files_that_cannot_be_checked(self):
        good = self.file("good.hlasm", END)
        largest = self.file("largest.hlasm", (END + ("*" * 70 + "\n") * 59_100)[: 4 * 1024 * 1024])
        cases = [
            ("absent.hlasm", "absent.hlasm: cannot be read: No such file or directory"),
            (self.folder_of("nothing", ".hidden/a.hlasm", "notes.txt"), "nothing: has no file .hlasm, .asm, .mac, .cpy"),
            (self.file("ebcdic.hlasm", "* AÜ".encode("cp500")),
             "ebcdic.hlasm: is not UTF-8 (byte 3); if it is EBCDIC, name its code page, as in --encoding IBM-1047"),
            (self.file("large.hlasm", " " * (4 * 1024 * 1024 + 1)), "large.hlasm: is above 4 MiB"),
            (self.file("escapes.hlasm", "\x01" * 3_000_000),
             "escapes.hlasm: too many characters that JSON escapes: the message would be above 16 MiB"),
        ]
        for name, why in cases:
            with self.subTest(name):
                self.assertEqual((2, [], f"hlasm-lint: {why}\n"), lint(name, good, folder=self.folder))
        after = self.file("after.hlasm", BAD_MARGIN + END)
        self.assertEqual((2, [f"{after}:1:1: {MARGIN}"]), lint("absent.hlasm", after, folder=self.folder)[:2])
        self.assertEqual((0, [], ""), lint(largest, folder=self.folder))

    def test_a_server_that_fails(self):
        name = self.file("good.hlasm", END)
        for line, why in FAILING:
            with self.subTest(line):
                program = self.script("failing", line.format(server=server))
                seconds = "5" if "sleep" in line else "60"
                status, lines, said = lint("--timeout", seconds, name, folder=self.folder, program=program)
                self.assertEqual((2, []), (status, lines))
                self.assertIn(why, said)
                self.assertEqual(1, said.count("\n"))
        self.assertEqual(2, lint(name, folder=self.folder, program="./absent")[0])

    def test_the_words(self):
        name = self.file("good.hlasm", END)
        wrong = ([], ["--root", "absent", name], ["--root", name, name], ["--unknown", name], ["--timeout", "0", name],
                 ["--only", "H1", name], ["--ignore", "", name], ["--encoding", "EBCDIC", name], ["--encoding", "base64", name],
                 ["--json", "--sarif", name])
        for words in wrong:
            with self.subTest(words):
                status, lines, said = lint(*words, folder=self.folder)
                self.assertEqual((2, []), (status, lines))
                self.assertIn("usage: hlasm-lint", said)
        program = self.script("heard", f"tee '{self.folder}/heard.txt' | '{server}' serve")
        for words, root in ([], self.folder), (["--root", "/"], "/"):
            self.assertEqual((0, [], ""), lint(*words, name, folder=self.folder, program=program))
            with open(os.path.join(self.folder, "heard.txt"), encoding="utf-8") as file:
                self.assertIn(f'"rootUri":"file://{os.path.realpath(root)}"', file.read())
        said = lint("--verbose", name, folder=self.folder)[2]
        self.assertEqual(f"hlasm-lint: 1 of 1 files checked by {server}: errors 0, others 0\n", said)
        with open(os.path.join(TOP, "VERSION"), encoding="utf-8") as file:
            self.assertEqual((0, [f"hlasm-lint {file.read().strip()}"], ""), lint("--version", folder=self.folder))

    def test_a_folder_stands_for_the_files_below_it(self):
        self.folder_of("src", "z.hlasm", "B.ASM", "lib/a.mac", "lib/deep/a.cpy", ".git/a.hlasm", "lib/notes.txt", "lib/MEMBER")
        wanted = [f"src/{name}" for name in ("B.ASM", "z.hlasm", "lib/a.mac", "lib/deep/a.cpy")]
        self.assertEqual(wanted, self.files_listed("src"))
        self.assertEqual(wanted, self.files_listed("./src/"))
        self.assertEqual([f"{self.folder}/{name}" for name in wanted], self.files_listed(f"{self.folder}/src"))
        self.assertEqual([*wanted, "src/lib/MEMBER"], self.files_listed("src", "src/lib/MEMBER"))

    def files_listed(self, *words):
        lines = lint(*words, "--only", "H001", folder=self.folder)[1]
        return [line.partition(":")[0] for line in lines]

    def settings(self, groups, programs=None):
        """Writes the settings of the workspace: the groups, and if given the programs, as texts or as what is to be written."""
        os.makedirs(os.path.join(self.folder, ".hlasmplugin"), exist_ok=True)
        for name, value in ("proc_grps.json", groups), ("pgm_conf.json", programs):
            if value is not None:
                self.file(f".hlasmplugin/{name}", value if isinstance(value, str) else json.dumps(value))

    def test_a_workspace_below_a_folder(self):
        """Its settings do not count, and it is said how they would."""
        self.file("a.hlasm", END)
        os.makedirs(os.path.join(self.folder, "inner/.hlasmplugin"))
        self.file("inner/b.hlasm", END)
        said = "hlasm-lint: {0}: has settings of its own, which count with --root {0}\n"
        self.assertEqual((0, [], said.format("./inner")), lint(".", folder=self.folder))
        self.assertEqual((0, [], said.format("inner")), lint("inner", folder=self.folder))
        self.assertEqual((0, [], ""), lint("--root", "inner", "inner", folder=self.folder))
        self.assertEqual((0, [], ""), lint("inner/b.hlasm", folder=self.folder))

    def test_a_member_of_a_library_is_no_program(self):
        self.folder_of(".", "a.hlasm", "lib/b.hlasm", "lib/below/c.hlasm", "copy/d.hlasm")
        groups = {"pgroups": [{"name": "G", "libs": ["lib/", {"path": "./copy", "optional": True}]}]}
        for settings, has_members in (groups, True), ("{", False), ("[]", False), ({"pgroups": 1}, False):
            self.settings(settings)
            files = ("a.hlasm", False), ("lib/b.hlasm", has_members), ("lib/below/c.hlasm", False), ("copy/d.hlasm", has_members)
            for name, is_member in files:
                with self.subTest((settings, name)):
                    self.assertEqual([] if is_member else ["H001", "H002", "H003"], self.codes_listed(name))
                    said = f"hlasm-lint: {name}: is a member of a library, so it is not checked as a program\n"
                    self.assertEqual(is_member, said in lint(name, folder=self.folder)[2])
        self.settings(groups)
        self.assertEqual(["a.hlasm", "lib/below/c.hlasm"], self.files_listed("."))
        self.assertEqual((0, [], ""), lint("lib", "--ignore", "H001", "--ignore", "H002", "--ignore", "H003", folder=self.folder))

    def codes_listed(self, *words):
        return [line[-5:-1] for line in lint(*words, folder=self.folder)[1]]

    def test_codes_that_are_chosen(self):
        name = self.file("faulty.hlasm", FAULTY)
        for words, codes, status in (
            ([], ["H001", "H002", "H003"], 1),
            (["--ignore", "H001"], ["H002", "H003"], 1),
            (["--ignore", "h001", "--ignore", "H002"], ["H003"], 0),
            (["--only", "H001", "--only", "H003"], ["H001", "H003"], 1),
            (["--only", "H003", "--warnings-as-errors"], ["H003"], 1),
            (["--only", "H001", "--only", "H003", "--ignore", "H001"], ["H003"], 0),
            (["--only", "MNOTE", "--warnings-as-errors"], [], 0),
        ):
            with self.subTest(words):
                self.assertEqual(codes, self.codes_listed(*words, name))
                self.assertEqual(status, lint(*words, name, folder=self.folder)[0])

    def test_a_log_in_the_form_sarif(self):
        self.folder_of("src", "größe a.hlasm")
        status, lines, said = lint("--sarif", "src", "absent.hlasm", folder=self.folder)
        self.assertEqual(2, status)
        log = json.loads("\n".join(lines))
        run = log["runs"][0]
        self.assertEqual(("2.1.0", "unicodeCodePoints"), (log["version"], run["columnKind"]))
        self.assertEqual(["H001", "H002", "H003"], [rule["id"] for rule in run["tool"]["driver"]["rules"]])
        self.assertEqual(["H001", "H002", "H003"], [it["ruleId"] for it in run["results"]])
        self.assertEqual(["error", "error", "warning"], [it["level"] for it in run["results"]])
        self.assertEqual({
            "artifactLocation": {"uri": "src/gr%C3%B6%C3%9Fe%20a.hlasm"},
            "region": {"startLine": 1, "startColumn": 1, "endLine": 1, "endColumn": 72},
        }, run["results"][0]["locations"][0]["physicalLocation"])
        self.assertEqual({"text": "columns 1 to 15 of a continuation line are not blank"}, run["results"][0]["message"])
        done = run["invocations"][0]
        self.assertEqual((False, ["absent.hlasm: cannot be read: No such file or directory"]),
                         (done["executionSuccessful"], [it["message"]["text"] for it in done["toolExecutionNotifications"]]))
        clean = json.loads("".join(lint("--sarif", self.file("clean.hlasm", END), folder=self.folder)[1]))["runs"][0]
        self.assertEqual(([], True), (clean["results"], clean["invocations"][0]["executionSuccessful"]))

    def test_files_of_the_host(self):
        """Code pages, line ends and records, in which a blank is X'40' and a character in column 72 continues."""
        lines = [BAD_MARGIN.split("\n")[0], "  B", END[:-1]]
        ended = "".join(line + "\n" for line in lines).encode("cp037")
        for name, encoding, data in (
            ("lf", "IBM-037", ended),
            ("nel", "cp1047", ended.replace(b"\x25", b"\x15")),
            ("crnel", "1047", ended.replace(b"\x25", b"\x0d\x15")),
            ("records", "IBM1047", "".join(line.ljust(80) for line in lines).encode("cp037")),
            ("german", "ibm-273", ended),
            ("latin", "latin-1", "".join(line + "\n" for line in lines).encode("latin-1") + b"* \xe4 \x85\n"),
        ):
            with self.subTest(name):
                found = lint("--encoding", encoding, self.file(name, data), folder=self.folder)
                self.assertEqual((1, [f"{name}:1:1: {MARGIN}"], ""), found)
        bad = self.file("bad", b"\xe4\n")
        self.assertEqual((2, [], "hlasm-lint: bad: is not ascii (byte 1)\n"), lint("--encoding", "ascii", bad, folder=self.folder))
        large = self.file("large", b"\x51" * 3_000_000)
        self.assertEqual((2, [], "hlasm-lint: large: is above 4 MiB in UTF-8\n"), lint("--encoding", "IBM-037", large, folder=self.folder))

    def test_code_page_1047(self):
        """The characters in which it differs from page 037, as IBM's table of 1047 has them."""
        name = self.file("page", b"\x5c" * 71 + b"\x15\x4a\x5a\x4f\xad\xbd\x5f\xb0\xba\xbb\xc0\xd0\xe0\x15")
        program = self.script("heard", f"tee '{self.folder}/heard.txt' | '{server}' serve")
        lint("--encoding", "IBM-1047", name, folder=self.folder, program=program)
        with open(os.path.join(self.folder, "heard.txt"), encoding="utf-8") as file:
            self.assertIn("*" * 71 + r"\n¢!|[]^¬Ý¨{}\\\n", file.read())

    def test_a_terminal_is_told_how_far_the_work_is(self):
        names = [self.file(f"{number}.hlasm", END) for number in range(21)]
        self.assertEqual(b"", self.shown_on_a_terminal(*names[:20]))
        shown = self.shown_on_a_terminal(*names)
        self.assertIn(b"\r\x1b[Khlasm-lint: 0 of 21 files", shown)
        self.assertIn(b"20 of 21 files", shown)
        self.assertTrue(shown.endswith(b"\r\x1b[K"), "the line is not wiped away")
        self.assertEqual("", lint(*names, folder=self.folder)[2])

    def shown_on_a_terminal(self, *words):
        """Standard error, as a terminal gets it."""
        here, there = pty.openpty()
        with open(here, "rb", buffering=0) as terminal:
            subprocess.run([sys.executable, LINT, "--server", server, *words], cwd=self.folder, stdin=subprocess.DEVNULL,
                           stdout=subprocess.DEVNULL, stderr=there, timeout=300, check=True)
            os.write(there, b"!")
            os.close(there)
            shown = b""
            while not shown.endswith(b"!"):
                shown += terminal.read(4096)
        return shown[:-1]


if __name__ == "__main__":
    parser = argparse.ArgumentParser(description=__doc__.partition("\n")[0])
    parser.add_argument("--server", default=BUILT, type=os.path.abspath, help="the program hlasm_ls (default: the built one)")
    words, rest = parser.parse_known_args()
    server = words.server
    if not os.access(server, os.X_OK):
        sys.exit(f"lint.py: there is no program {server}: make run builds it")
    unittest.main(argv=[sys.argv[0], *rest])
