#!/usr/bin/env python3
"""Neovim with the plugin and the built program: after each edit of a file, the diagnostics that Neovim has are those of a
server that was started afresh with the same text; and what is edited, written or deleted in a library shows in the list of the
program that calls it; and a question right after a change is answered of the changed text. If there is no Neovim it says so and
ends with 77: skipped.

Usage: neovim.py [--server PATH] [--nvim PATH]
"""
import argparse
import importlib.machinery
import importlib.util
import json
import os
import shutil
import subprocess
import sys
import tempfile

TOP = os.path.normpath(os.path.join(os.path.dirname(os.path.realpath(__file__)), "../.."))
BUILT = os.path.join(TOP, "crates/hlasm_ls/out/hlasm_ls")
SECONDS = 600
SKIPPED = 77

MARK = "X\n"


def marked(text):
    return text.ljust(71) + MARK


# Faults in lines 3 and 6, counted from 1, and no END.
FIRST = (
    "*  A file with faults\n"
    "A        CSECT\n"
    + marked("         LR    1,2")
    + "         3,4\n"
    "*  𝔸 😀 é\n"
    + marked("*  goes on by mistake 😀")
    + "         LR    3,4\n"
    "         LR    5,6\n"
)

# The codes that must be there after these steps: the comparison alone could not tell a server that is silent.
CODES = {
    "opened": ["H001", "H001", "H003"],
    "a continuation moved to column 16": ["H001", "H003"],
    "that undone": ["H001", "H001", "H003"],
    "that done again": ["H001", "H003"],
    "END typed below the last line": ["H001"],
    "a mark deleted": ["H001", "H040"],
    "a mark replaced by a blank": ["H040"],
    "that undone too": ["H001", "H040"],
    "many lines pasted": ["H002", "H001", "H040"],
    "all undone": ["H001", "H001", "H003"],
    "the file read again": ["H001", "H001", "H003"],
    "END typed once more": ["H001", "H001"],
    "lines made comments": ["H001", "H040"],
    "lines that are no comments any more": ["H001", "H001"],
}

GROUPS = {"pgroups": [{"name": "G", "libs": ["lib/", {"path": "../shared"}]}, {"name": "H", "libs": [{"path": "{room}/far"}]}]}

PROGRAM, MEMBER, OTHER = "a program", "a member of a library", "no HLASM"

# Files, and what they are. The server resolves no "..", so for it a file in such a library is a program when it is opened.
FILES = {
    "work/b.HLASM": PROGRAM,
    "work/c.asm": PROGRAM,
    "work/d.mac": PROGRAM,
    "work/e.cpy": PROGRAM,
    "work/lib/MEMBER": MEMBER,
    "work/lib/below/MEMBER": OTHER,
    "work/notes.txt": OTHER,
    "shared/MEMBER.txt": PROGRAM,
    "far/MEMBER": MEMBER,
    "elsewhere/f.hlasm": PROGRAM,
    "elsewhere/MEMBER": OTHER,
}

# A workspace of its own, with a macro in its library.
LIBRARY = {
    ".hlasmplugin/proc_grps.json": '{"pgroups":[{"name":"G","libs":["lib"]}]}\n',
    ".hlasmplugin/pgm_conf.json": '{"pgms":[{"program":"*.hlasm","pgroup":"G"}]}\n',
    "lib/SHR.mac": "         MACRO\n         SHR\n         MEND\n",
    "p.hlasm": "         SHR\n         END\n",
}

# The list of its program, as code, message, and the line of the library's macro that it arose by.
NONE, UNKNOWN = [], [("H040", "operation SHR is not defined", [])]
LISTED = {
    "the program is opened": NONE,
    "the macro is edited": [("MNOTE", "x", [("lib/SHR.mac", 2, "macro SHR")])],
    "the macro is closed without being saved": NONE,
    "the file of the macro is written": [("MNOTE", "y", [("lib/SHR.mac", 2, "macro SHR")])],
    "the file of the macro is deleted": UNKNOWN,
    "the file of the macro is there again": NONE,
    "the settings have no library": UNKNOWN,
    "the settings have the library again": NONE,
    "the file of the macro is deleted again": UNKNOWN,
}


def lint_module():
    """hlasm-lint, for its session with a server."""
    sys.dont_write_bytecode = True
    loader = importlib.machinery.SourceFileLoader("hlasm_lint", os.path.join(TOP, "clients/hlasm-lint"))
    module = importlib.util.module_from_spec(importlib.util.spec_from_loader("hlasm_lint", loader))
    loader.exec_module(module)
    return module


def write(path, text):
    os.makedirs(os.path.dirname(path), exist_ok=True)
    with open(path, "w", encoding="utf-8", newline="") as file:
        file.write(text)


def fresh(lint, program, room, text):
    """The diagnostics of a text from a server of its own."""
    server = lint.Server(program, 60)
    try:
        server.initialize(room)
        found = server.diagnostics(os.path.join(room, "fresh.hlasm"), text)
        server.end()
    finally:
        server.kill()
    return found


def prepare(room, program):
    """The workspace, and a server that notes its status."""
    write(f"{room}/work/.hlasmplugin/proc_grps.json", json.dumps(GROUPS).replace("{room}", room))
    write(f"{room}/work/a.hlasm", FIRST)
    for name in FILES:
        write(f"{room}/{name}", FIRST)
    for name, text in LIBRARY.items():
        write(f"{room}/library/{name}", text)
    write(f"{room}/server", f"#!/bin/sh\n'{program}' serve\necho $? >> '{room}/statuses'\n")
    os.chmod(f"{room}/server", 0o755)


def run_neovim(nvim, room):
    """Runs the edits; what Neovim wrote down."""
    environment = dict(os.environ, HOME=room, HLASM_TEST_FILE=f"{room}/work/a.hlasm", HLASM_TEST_RECORD=f"{room}/record",
                       HLASM_TEST_FILES="\n".join(f"{room}/{name}" for name in FILES),
                       HLASM_TEST_MEMBERS="\n".join(f"{room}/{name}" for name in FILES if FILES[name] == MEMBER),
                       HLASM_TEST_LIBRARY=f"{room}/library")
    for name in ("CONFIG", "DATA", "STATE", "CACHE"):
        environment[f"XDG_{name}_HOME"] = f"{room}/{name.lower()}"
    words = [nvim, "--clean", "--headless", "-n", "-i", "NONE", "--cmd", f"set runtimepath^={TOP}/clients/neovim",
             "--cmd", f"let g:hlasm_ls_command = ['{room}/server', 'serve']", "-S", f"{TOP}/tests/clients/neovim.lua"]
    try:
        ran = subprocess.run(words, cwd=f"{room}/work", env=environment, stdin=subprocess.DEVNULL, stdout=subprocess.PIPE,
                             stderr=subprocess.STDOUT, encoding="utf-8", errors="replace", timeout=SECONDS)
    except subprocess.TimeoutExpired as late:
        sys.exit(f"neovim.py: Neovim did not end within {SECONDS} seconds: {late.stdout or ''}")
    if not os.path.exists(f"{room}/record"):
        sys.exit(f"neovim.py: Neovim wrote nothing down, status {ran.returncode}: {ran.stdout}")
    with open(f"{room}/record", encoding="utf-8") as file:
        record = json.load(file)
    if "fault" in record:
        sys.exit(f"neovim.py: {record['fault']}\n{record['messages']}\n{ran.stdout}")
    return record


def shown(diagnostics):
    """What Neovim is to show of diagnostics."""
    return sorted((it["range"]["start"]["line"], it["severity"], it["message"]) for it in diagnostics)


def faults_of_steps(lint, program, room, steps):
    for step in steps:
        name, found = step["name"], step["diagnostics"]
        wanted = fresh(lint, program, room, step["text"])
        if found != wanted:
            yield f"{name}: Neovim has {found}\n  and a fresh server says {wanted}\n  of {step['text']!r}"
        if sorted((it["line"], it["severity"], it["message"]) for it in step["shown"]) != shown(found):
            yield f"{name}: Neovim shows {step['shown']}\n  of {found}"
    codes = {step["name"]: [it["code"] for it in step["diagnostics"]] for step in steps}
    for name, wanted in CODES.items():
        if codes.get(name) != wanted:
            yield f"{name}: the codes are {codes.get(name)}, not {wanted}"


def faults_of_files(lint, program, room, files, roots):
    wanted = fresh(lint, program, room, FIRST)
    if len(files) != len(FILES):
        yield f"only {len(files)} files were opened"
    for entry, (name, kind) in zip(files, FILES.items()):
        if (entry["filetype"] == "hlasm") != (kind != OTHER):
            yield f"{name}: the filetype is {entry['filetype']!r}"
        elif kind == PROGRAM and entry["diagnostics"] != wanted:
            yield f"{name}: Neovim has {entry['diagnostics']}\n  and a fresh server says {wanted}"
    if sorted(roots) != ["", f"{room}/library", f"{room}/work"]:
        yield f"the workspaces are {roots}"


def arose_in(room, diagnostic):
    """The places in the library that a diagnostic arose by."""
    top = f"file://{room}/library/"
    for it in diagnostic.get("relatedInformation", []):
        place = it["location"]
        yield place["uri"].replace(top, ""), place["range"]["start"]["line"], it["message"]


def faults_of_library(room, library):
    found = {step["name"]: [(it["code"], it["message"], list(arose_in(room, it))) for it in step["diagnostics"]] for step in library}
    for name, wanted in LISTED.items():
        if found.get(name) != wanted:
            yield f"{name}: the list of the program is {found.get(name)}, not {wanted}"


def faults_of_names(room, names):
    """What is answered about the call of the macro, right after a change."""
    said, place = names["hover"]["contents"]["value"], names["definition"]
    found = [said, place["uri"].replace(f"file://{room}/library/", ""), place["range"]["start"]["line"]]
    if found != ["macro SHR", "lib/SHR.mac", 1]:
        yield f"of the call of the macro it is said: {found}"


def faults_of_end(room):
    with open(f"{room}/statuses", encoding="utf-8") as file:
        statuses = file.read().split()
    if statuses != ["0", "0", "0"]:
        yield f"the servers ended with {statuses}"


def check(nvim, program, room):
    prepare(room, program)
    record = run_neovim(nvim, room)
    lint = lint_module()
    try:
        faults = [*faults_of_steps(lint, program, room, record["steps"]), *faults_of_end(room),
                  *faults_of_files(lint, program, room, record["files"], record["roots"]),
                  *faults_of_library(room, record["library"]), *faults_of_names(room, record["names"])]
    except lint.ServerFault as fault:
        faults = [f"a fresh server: {fault}"]
    if "rror" in record["messages"] or "quit with" in record["messages"]:
        faults.append(f"Neovim says: {record['messages']}")
    for fault in faults:
        print(f"FAIL {fault}")
    print(f"neovim.py: {len(record['steps'])} steps and {len(FILES)} files, {len(faults)} faults")
    return 1 if faults else 0


def main():
    parser = argparse.ArgumentParser(description=__doc__.partition("\n\n")[0])
    parser.add_argument("--server", default=BUILT, type=os.path.abspath, help="the program hlasm_ls (default: the built one)")
    parser.add_argument("--nvim", default="nvim", help="Neovim (default: the one on the PATH)")
    words = parser.parse_args()
    nvim = shutil.which(words.nvim)
    if not nvim:
        print("neovim.py: skipped, there is no Neovim (apt-get install neovim)")
        return SKIPPED
    if not os.access(words.server, os.X_OK):
        sys.exit(f"neovim.py: there is no program {words.server}: make run builds it")
    with tempfile.TemporaryDirectory(prefix="hlasm-neovim-") as room:
        return check(nvim, words.server, os.path.realpath(room))


if __name__ == "__main__":
    sys.exit(main())
