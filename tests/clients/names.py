#!/usr/bin/env python3
"""Requests on symbols to the built program, as an editor makes them: the example of docs/USER.md, "Asking about names", is answered as
the page says, right after a change too; so are names in examples/library, in a macro and a copied member; and the questions of
tests/cases/occurrences.txt on definitions and references have the answers of the table, each program in a session of its own.

Usage: names.py [--server PATH]
"""
import argparse
import importlib.machinery
import importlib.util
import os
import re
import sys
import tempfile

TOP = os.path.normpath(os.path.join(os.path.dirname(os.path.realpath(__file__)), "../.."))
BUILT = os.path.join(TOP, "crates/hlasm_ls/out/hlasm_ls")
LIBRARY = os.path.join(TOP, "examples/library")
TABLE = os.path.join(TOP, "tests/cases/occurrences.txt")
VARIABLE, CONSTANT = 13, 14
GROUPS = '{"pgroups":[{"name":"G","libs":["l"]}]}'
PROGRAMS = '{"pgms":[{"program":"*","pgroup":"G"}]}'


def lint_module():
    """hlasm-lint, for its session with a server."""
    sys.dont_write_bytecode = True
    loader = importlib.machinery.SourceFileLoader("hlasm_lint", os.path.join(TOP, "clients/hlasm-lint"))
    module = importlib.util.module_from_spec(importlib.util.spec_from_loader("hlasm_lint", loader))
    loader.exec_module(module)
    return module


LINT = lint_module()


def read(path):
    with open(path, encoding="utf-8", newline="") as file:
        return file.read()


def write(path, text):
    os.makedirs(os.path.dirname(path), exist_ok=True)
    with open(path, "w", encoding="utf-8", newline="") as file:
        file.write(text)


class Session(LINT.Server):
    """A session in which documents stay open. Lines and columns count from 0, columns in UTF-16 units."""

    def __init__(self, program, root):
        super().__init__(program, 120, log=lambda line: None)
        self.initialize(root)

    def open(self, path, text=None):
        document = {"uri": LINT.uri_of(path), "languageId": "hlasm", "version": 1, "text": read(path) if text is None else text}
        self.notify("textDocument/didOpen", textDocument=document)

    def replace(self, path, version, line, columns, text):
        """Puts a text in place of some columns of a line."""
        places = [{"line": line, "character": column} for column in columns]
        self.notify("textDocument/didChange", textDocument={"uri": LINT.uri_of(path), "version": version},
                    contentChanges=[{"range": {"start": places[0], "end": places[1]}, "text": text}])

    def ask(self, what, path, line, column, **more):
        return self.request(f"textDocument/{what}", textDocument={"uri": LINT.uri_of(path)},
                            position={"line": line, "character": column}, **more)

    def hover(self, path, line, column):
        said = self.ask("hover", path, line, column)
        return said and said["contents"]["value"]

    def definition(self, path, line, column):
        place = self.ask("definition", path, line, column)
        return place and spot(place)

    def references(self, path, line, column, declarations=True):
        return [spot(it) for it in self.ask("references", path, line, column, context={"includeDeclaration": declarations})]

    def symbols(self, path):
        found = self.request("textDocument/documentSymbol", textDocument={"uri": LINT.uri_of(path)})
        return [(it["name"], it["kind"], it["range"]["start"]["line"]) for it in found]


def spot(place):
    """The URI of a place, its line and its columns."""
    start, end = place["range"]["start"], place["range"]["end"]
    return place["uri"], start["line"], start["character"], end["character"]


def differences(*pairs):
    """What is wrong of what was found, each beside what is wanted."""
    return [f"{what}: found {found!r}\n  and not {wanted!r}" for what, found, wanted in pairs if found != wanted]


# ---- the page


def page():
    """The example of the page, and its rows: a name, its lines, what hover says, and the line of its definition; lines from 0."""
    section = re.search(r"(?ms)^## Asking about names\n(.*?)^## ", read(f"{TOP}/docs/USER.md"))[1]
    text = re.search(r"```hlasm\n----\+.*\n((?:.*\n)*?)```", section)[1]
    rows = []
    for name, lines, says, place in re.findall(r"(?m)^\| `([^`]*)`, lines? ([^|]*) \| `([^`]*)` \| ([^|]*) \|$", section):
        lines = [int(it) - 1 for it in re.findall(r"\d+", lines)]
        told = re.search(r"line (\d+)$", place)
        rows.append((name, lines, says, int(told[1]) - 1 if told else lines[0]))
    return text, rows


def faults_of_page(program, room):
    text, rows = page()
    path, lines = f"{room}/page.hlasm", text.split("\n")
    if len(rows) != 7:
        return [f"the page has {len(rows)} rows of names"]
    session = Session(program, room)
    session.open(path, text)
    faults = []
    for name, places, says, defined in rows:
        for line in places:
            column = lines[line].index(name)
            found = session.definition(path, line, column)
            faults += differences((f"hover on {name}", session.hover(path, line, column), says),
                                  (f"definition of {name}", found and found[:2], (LINT.uri_of(path), defined)))
    total = [line for _, line, _, _ in session.references(path, 2, lines[2].index("&TOT"))]
    calls = [line for _, line, _, _ in session.references(path, 7, lines[7].index("ADD2"))]
    faults += differences(("references of &TOT", total, [2, 3, 3, 6]), ("references of ADD2", calls, [1, 7]),
                          ("symbols", session.symbols(path), [("A", VARIABLE, 5), ("B", VARIABLE, 8), ("C", CONSTANT, 9)]))
    # Each question comes right after a change, so the list of the program is still to be made.
    session.replace(path, 2, 9, [15, 16], "7")
    changed = session.hover(path, 9, 0)
    session.replace(path, 3, 0, [0, 0], "* a line more\n")
    faults += differences(("hover on C after a change", changed, "C: absolute 7, length 1, type U"),
                          ("hover on B a line further down", session.hover(path, 9, 0), rows[0][2]),
                          ("hover where B was", session.hover(path, 8, 0), None))
    session.end()
    return faults


# ---- the example with a library


def faults_of_library(program):
    path, macro, member = f"{LIBRARY}/totals.hlasm", f"{LIBRARY}/macros/FIELD.mac", f"{LIBRARY}/copybooks/HEADER.cpy"
    session = Session(program, LIBRARY)
    session.open(path)
    session.open(macro)
    faults = differences(
        ("hover on FIELD", session.hover(path, 9, 9), "macro FIELD"),
        ("definition of FIELD", session.definition(path, 9, 9), (LINT.uri_of(macro), 1, 9, 14)),
        ("hover on HEADER", session.hover(path, 8, 15), "member HEADER"),
        ("definition of HEADER", session.definition(path, 8, 15), (LINT.uri_of(member), 0, 0, 0)),
        ("hover on AMOUNT", session.hover(path, 9, 0), "AMOUNT: offset 5 in RECORD, length 8, type P"),
        ("definition of AMOUNT", session.definition(path, 9, 0), (LINT.uri_of(path), 9, 0, 6)),
        ("hover on NAME, which is not defined", session.hover(path, 11, 0), None),
        ("hover on a parameter in the macro", session.hover(macro, 7, 15), "&TYPE: parameter"),
        ("definition of a parameter in the macro", session.definition(macro, 7, 15), (LINT.uri_of(macro), 1, 15, 20)),
        ("calls of FIELD in the program", [it[1] for it in session.references(macro, 1, 9, False) if it[0] == LINT.uri_of(path)],
         [9, 10, 11]),
        ("symbols", session.symbols(path), [("TOTALS", VARIABLE, 2), ("RECORD", VARIABLE, 7), ("NUMBER", VARIABLE, 8),
                                            ("KIND", VARIABLE, 8), ("AMOUNT", VARIABLE, 9), ("DAY", VARIABLE, 10)]),
        ("symbols of a member", session.symbols(macro), []))
    session.end()
    return faults


# ---- the table


def rows():
    """Each case of the table: its texts by path, and its questions with their answers."""
    for line in read(TABLE).split("\n"):
        if line and not line.startswith("#"):
            asked, _, answers = line.partition(" => ")
            texts, _, _, *questions = asked.split(" | ")
            found = {}
            for part in texts.split("; "):
                kind, name, text = part.split(" ", 2)
                found[name.replace("file://", "") if kind == "open" else name] = text.replace("\\n", "\n")
            yield found, list(zip(questions, answers.split(" || ")))


def answer(session, room, question):
    """What is answered to a question of the table, in its words."""
    kind, path, place, *others = question.split(" ")
    line, column = map(int, place.split("."))
    if kind == "definition":
        places = [session.definition(room + path, line, column)]
    else:
        places = session.references(room + path, line, column, not others)
    top = LINT.uri_of(room)
    words = [f"file://{uri[len(top):]} {line}.{start}-{line}.{end}" for uri, line, start, end in filter(None, places)]
    return ", ".join(words) or ("nothing" if kind == "definition" else "no place")


def faults_of_row(program, room, texts, questions):
    write(f"{room}/.hlasmplugin/proc_grps.json", GROUPS)
    write(f"{room}/.hlasmplugin/pgm_conf.json", PROGRAMS)
    os.makedirs(f"{room}/l")
    for path, text in texts.items():
        write(room + path, text)
    session = Session(program, room)
    for path in texts:
        session.open(room + path)
    asked = [(question, wanted) for question, wanted in questions if question.split(" ")[0] in ("definition", "references")]
    faults = differences(*((question, answer(session, room, question), wanted) for question, wanted in asked))
    session.end()
    return faults, len(asked)


def main():
    parser = argparse.ArgumentParser(description=__doc__.partition(":")[0])
    parser.add_argument("--server", default=BUILT, type=os.path.abspath, help="the program hlasm_ls (default: the built one)")
    program = parser.parse_args().server
    if not os.access(program, os.X_OK):
        sys.exit(f"names.py: there is no program {program}: make run builds it")
    count = 0
    with tempfile.TemporaryDirectory(prefix="hlasm-names-") as room:
        room = os.path.realpath(room)
        faults = faults_of_page(program, room) + faults_of_library(program)
        for number, (texts, questions) in enumerate(rows()):
            found, asked = faults_of_row(program, f"{room}/{number}", texts, questions)
            faults += found
            count += asked
    if count == 0:
        faults.append("the table has no question")
    for fault in faults:
        print(f"FAIL {fault}")
    print(f"names.py: the page, the example with a library and {count} questions of the table, {len(faults)} faults")
    return 1 if faults else 0


if __name__ == "__main__":
    sys.exit(main())
