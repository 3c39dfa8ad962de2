#!/usr/bin/env python3
"""Emacs with the mode, eglot and the built program: it opens a file and shows the list of the server, and shows what is left when
the fault that the last report names is mended; what changes in a library shows in the list of the program that calls it; it can
ask of names and symbols; and the mode types HLASM as its columns want. If there is no Emacs with eglot it says so and ends
with 77: skipped.

Usage: emacs.py [--server PATH]
"""
import argparse
import json
import os
import shutil
import subprocess
import sys
import tempfile

TOP = os.path.normpath(os.path.join(os.path.dirname(os.path.realpath(__file__)), "../.."))
BUILT = os.path.join(TOP, "crates/hlasm_ls/out/hlasm_ls")
SKIPPED = 77
EMACS = ["emacs", "--batch", "--no-init-file", "--eval", "(package-initialize)"]

MARGIN = "hlasm_ls [H001]: columns 1 to 15 of a continuation line are not blank"
NO_END = "hlasm_ls [H003]: END statement is missing"

# What is seen of examples/first.hlasm. The text ends in line 22, which has no character, so Emacs shows that report in line 21.
WANTED = {
    "mode": "hlasm-mode",
    "first": [[12, "error", MARGIN], [19, "error", MARGIN], [21, "warning", NO_END]],
    "second": [[12, "error", MARGIN], [19, "error", MARGIN]],
    "commented": "*         USING *,12",
    "uncommented": "         USING *,12",
    "typed": " " * 9 + "LR" + " " * 4,
    "asked": [":hoverProvider", ":definitionProvider", ":referencesProvider", ":documentSymbolProvider"],
    "wrapped": False,
    "tabs": False,
    "ruler": 71,
    "seen": ["no macro", "a macro", "an edited macro", "a macro that was not saved", "settings without a library",
             "settings with the library", "no macro again"],
}

# A workspace whose library has no macro yet.
GROUPS = '{"pgroups":[{"name":"G","libs":["lib"]}]}'
WORKSPACE = {
    ".hlasmplugin/proc_grps.json": GROUPS,
    ".hlasmplugin/pgm_conf.json": '{"pgms":[{"program":"*.hlasm","pgroup":"G"}]}',
    "lib/OTHER": "",
    "p.hlasm": "         SHR\n         END\n",
}


def run(words, room, server):
    environment = dict(os.environ, HOME=room, HLASM_TEST_FILE=f"{room}/first.hlasm", HLASM_TEST_SERVER=server,
                       HLASM_TEST_RECORD=f"{room}/record", HLASM_TEST_WORKSPACE=f"{room}/work", HLASM_TEST_GROUPS=GROUPS)
    return subprocess.run(words, cwd=room, env=environment, stdin=subprocess.DEVNULL, stdout=subprocess.PIPE,
                          stderr=subprocess.STDOUT, timeout=300, encoding="utf-8", errors="replace")


def check(server, room):
    shutil.copy(f"{TOP}/examples/first.hlasm", f"{room}/first.hlasm")
    for name, text in WORKSPACE.items():
        os.makedirs(os.path.dirname(f"{room}/work/{name}"), exist_ok=True)
        with open(f"{room}/work/{name}", "w", encoding="utf-8") as file:
            file.write(text)
    if run([*EMACS, "--eval", "(require 'eglot)"], room, server).returncode != 0:
        print("emacs.py: skipped, this Emacs has no eglot (apt-get install elpa-eglot)")
        return SKIPPED
    ran = run([*EMACS, "-L", f"{TOP}/clients/emacs", "-l", f"{TOP}/tests/clients/emacs.el"], room, server)
    if ran.returncode != 0:
        sys.exit(f"emacs.py: Emacs ended with {ran.returncode}: {ran.stdout}")
    with open(f"{room}/record", encoding="utf-8") as file:
        found = json.load(file)
    faults = [f"{name} is {found.get(name)!r}, not {wanted!r}" for name, wanted in WANTED.items() if found.get(name) != wanted]
    for fault in faults:
        print(f"FAIL {fault}")
    print(f"emacs.py: {len(WANTED)} things seen, {len(faults)} faults")
    return 1 if faults else 0


def main():
    parser = argparse.ArgumentParser(description=__doc__.partition(":")[0])
    parser.add_argument("--server", default=BUILT, type=os.path.abspath, help="the program hlasm_ls (default: the built one)")
    words = parser.parse_args()
    if not shutil.which("emacs"):
        print("emacs.py: skipped, there is no Emacs (apt-get install emacs-nox elpa-eglot)")
        return SKIPPED
    if not os.access(words.server, os.X_OK):
        sys.exit(f"emacs.py: there is no program {words.server}: make run builds it")
    with tempfile.TemporaryDirectory(prefix="hlasm-emacs-") as room:
        return check(words.server, os.path.realpath(room))


if __name__ == "__main__":
    sys.exit(main())
