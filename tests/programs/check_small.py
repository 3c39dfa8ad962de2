#!/usr/bin/env python3
"""Small programs and of each the list that is right, many in one file (the tables beside this script whose names are below):
hlasm-lint with the built program has to print these lists.

Usage: check_small.py [--server PATH] [TABLE..]

A program may stand in a workspace, with members and settings: behind its lines each file of the workspace stands below a line
'-- PATH', its list behind the line '--'. Behind ' | ' the line of a file may have 'hex' (its bytes are written so) and 'open' (its
last line has no end). Where no file is among the settings, one group has the folder lib, and each program is of it. Such a
program's list is what the server logs ('log: '), then what it publishes of it, below each report its related places.
"""
import argparse
import importlib.machinery
import importlib.util
import itertools
import os
import re
import subprocess
import sys
import tempfile
import urllib.parse

HERE = os.path.dirname(os.path.realpath(__file__))
LINT = os.path.normpath(os.path.join(HERE, "../../clients/hlasm-lint"))
BUILT = os.path.normpath(os.path.join(HERE, "../../crates/hlasm_ls/out/hlasm_ls"))
TABLES = ["open_code", "macros", "members", "attributes", "layout", "operands"]


SETTINGS = {
    ".hlasmplugin/proc_grps.json": b'{"pgroups":[{"name":"G","libs":["lib"]}]}',
    ".hlasmplugin/pgm_conf.json": b'{"pgms":[{"program":"*","pgroup":"G"}]}',
}


class File:
    """A file of the workspace in which a program stands."""

    def __init__(self, head):
        self.path, *self.words = head.split(" | ")
        self.lines = []
        if not set(self.words) <= {"hex", "open"}:
            sys.exit(f"check_small.py: what is {head}?")

    def bytes(self):
        if "hex" in self.words:
            return bytes.fromhex("".join(self.lines))
        return ("\n".join(self.lines) + ("" if "open" in self.words or not self.lines else "\n")).encode()


class Case:
    """A program with its list; a budget where it is not that of `serve`; and the files of its workspace, if it has one."""

    def __init__(self, head):
        self.title, _, rest = head.partition(" | ")
        found = re.fullmatch(r"budget (\d+)", rest)
        self.budget = found[1] if found else None
        if rest and not found:
            sys.exit(f"check_small.py: what is {rest}?")
        self.lines, self.files, self.wanted, self.is_listed = [], [], [], False

    def add(self, line):
        if self.is_listed:
            self.wanted += [line] * bool(line)
        elif line == "--":
            self.is_listed = True
        elif line.startswith("-- "):
            self.files.append(File(line[3:]))
        elif self.files:
            self.files[-1].lines.append(line)
        else:
            self.lines.append(line + "\n")

    def workspace(self):
        """The files of its workspace by their paths."""
        found = {file.path: file.bytes() for file in self.files}
        return found if any(path.startswith(".hlasmplugin/") for path in found) else SETTINGS | found


def cases_of(path):
    """The cases of a table."""
    found = []
    with open(path, encoding="utf-8", newline="\n") as file:
        for line in file.read().split("\n"):
            if line.startswith("== "):
                found.append(Case(line[3:]))
            elif found:
                found[-1].add(line)
    return found


def server_of(case, server, room):
    """The program, or one that gives it another budget."""
    if not case.budget:
        return server
    path = os.path.join(room, f"server-{case.budget}")
    with open(path, "w", encoding="utf-8") as file:
        file.write(f'#!/bin/sh\nexec "{server}" serve --budget {case.budget}\n')
    os.chmod(path, 0o755)
    return path


def list_of(case, server, room):
    """What hlasm-lint lists of a program, without the file's name."""
    path = os.path.join(room, "program.hlasm")
    with open(path, "w", encoding="utf-8", newline="") as file:
        file.write("".join(case.lines))
    words = [sys.executable, LINT, "--server", server_of(case, server, room), path]
    ran = subprocess.run(words, capture_output=True, timeout=120, encoding="utf-8")
    listed = [line.removeprefix(f"{path}:") for line in ran.stdout.splitlines()]
    return listed + [f"standard error: {ran.stderr}"] * bool(ran.stderr)


def hlasm_lint():
    """hlasm-lint as a module: it speaks with the server."""
    sys.dont_write_bytecode = True
    loader = importlib.machinery.SourceFileLoader("hlasm_lint", LINT)
    module = importlib.util.module_from_spec(importlib.util.spec_from_loader("hlasm_lint", loader))
    loader.exec_module(module)
    return module


def published_of(case, server, room):
    """What the server logs and publishes of a program in its workspace, each report with its related places."""
    lint = hlasm_lint()
    root = os.path.realpath(tempfile.mkdtemp(dir=room))
    for path, body in case.workspace().items():
        os.makedirs(os.path.dirname(os.path.join(root, path)), exist_ok=True)
        with open(os.path.join(root, path), "wb") as file:
            file.write(body)
    listed = []

    class Asked(lint.Server):
        def hear(self, message):
            if message.get("method") == "window/logMessage":
                listed.append("log: " + message["params"]["message"].replace(f"{root}/", ""))

    asked, text = Asked(server_of(case, server, room), 100), "".join(case.lines)
    asked.initialize(root)
    for found in asked.diagnostics(os.path.join(root, "program.hlasm"), text):
        listed.append(lint.Report("", lint.Lines(text), found).text()[1:])
        related = [place_of(it, root) for it in found.get("relatedInformation", [])]
        for line, lines in itertools.groupby(related):
            count = len(list(lines))
            listed.append(f"    {line}" + (f" ({count} times)" if count > 1 else ""))
    asked.end()
    return listed


def place_of(related, root):
    """A related place: where it begins, and what stands there."""
    path = urllib.parse.unquote(related["location"]["uri"]).removeprefix(f"file://{root}/")
    start = related["location"]["range"]["start"]
    return f"{path}:{start['line'] + 1}:{start['character'] + 1}: {related['message']}"


def main():
    parser = argparse.ArgumentParser(description=__doc__.partition("\n\n")[0])
    parser.add_argument("--server", default=BUILT, type=os.path.abspath)
    parser.add_argument("tables", nargs="*", default=TABLES)
    words = parser.parse_args()
    if not os.access(words.server, os.X_OK):
        sys.exit(f"check_small.py: {words.server} is not there: rt ci or make run builds it")
    passed = failed = 0
    with tempfile.TemporaryDirectory() as room:
        for table in words.tables:
            for case in cases_of(os.path.join(HERE, f"{table}.txt")):
                found = (published_of if case.files else list_of)(case, words.server, room)
                if case.is_listed and found == case.wanted:
                    passed += 1
                    continue
                failed += 1
                print(f"{table}: {case.title}\n  found  {found}\n  wanted {case.wanted}")
    print(f"{passed} passed, {failed} failed")
    return 1 if failed or not passed else 0


if __name__ == "__main__":
    sys.exit(main())
