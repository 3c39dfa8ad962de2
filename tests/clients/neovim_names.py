#!/usr/bin/env python3
"""Names in Neovim with the plugin and the built program, by the keys that docs/EDITORS.md sets: from a call to the macro's prototype
in a library and back, from a COPY to its member, all places of a symbol in the program and in a member, what hover says of each
name of the example in docs/USER.md and of fields with their offsets, and the outline; then the same while typing: each question in
the keys of a change that is not saved, of the program and of the members. If there is no Neovim it says so and ends with 77: skipped.

Usage: neovim_names.py [--server PATH] [--nvim PATH]
"""
import argparse
import json
import os
import re
import shutil
import subprocess
import sys
import tempfile

sys.dont_write_bytecode = True
import names
from names import BUILT, GROUPS, TOP, read, write

SECONDS = 600
SKIPPED = 77

PROGRAM, MACRO, MEMBER, PAGE = "tally.hlasm", "l/FIELD.mac", "l/ADDING.cpy", "page.hlasm"

# The instructions have 4, 4, 4 and 2 bytes, so the fields begin at 14, 16 and 20.
FILES = {
    ".hlasmplugin/proc_grps.json": GROUPS,
    ".hlasmplugin/pgm_conf.json": names.PROGRAMS,
    PROGRAM: (
        "TALLY    CSECT\n"
        "         USING TALLY,12\n"
        "         COPY  ADDING\n"
        "         BR    14\n"
        "COUNT    FIELD 2\n"
        "TOTAL    FIELD 4\n"
        "B        DC    F'1'\n"
        "LIMIT    EQU   100\n"
        "         END\n"
    ),
    MACRO: (
        "         MACRO\n"
        "&LABEL   FIELD &BYTES\n"
        "&LABEL   DS    XL&BYTES\n"
        "         MEND\n"
    ),
    MEMBER: (
        "*  adds to the total\n"
        "         LA    3,COUNT\n"
        "         A     3,B\n"
        "         ST    3,TOTAL\n"
    ),
}

OUTLINE = ["1.1 [Variable] TALLY", "5.1 [Variable] COUNT", "6.1 [Variable] TOTAL", "7.1 [Variable] B", "8.1 [Constant] LIMIT"]

# A step: its name, the file that is opened before it, or none, the keys, what Neovim then shows, and that. Lines and columns count
# from 1, as in Neovim. No buffer is written, so from the first change on the answers are of texts that no file has.
STEPS = [
    ("to the macro that is called", PROGRAM, "5G11|gd", "jump", f"{MACRO} 2.10"),
    ("back by the tag stack", None, "<C-t>", "back", f"{PROGRAM} 5.11"),
    ("to it from the other call", None, "6G10|gd", "jump", f"{MACRO} 2.10"),
    ("back by the jump list", None, "<C-o>", "back", f"{PROGRAM} 6.10"),
    ("to the member that is copied", None, "3G16|gd", "jump", f"{MEMBER} 1.1"),
    ("from it to a label in the program", None, "3G18|gd", "jump", f"{PROGRAM} 7.1"),
    ("back into the member", None, "<C-t>", "back", f"{MEMBER} 3.18"),
    ("places of a label, asked in the member", None, "2G18|grr", "places", [f"{MEMBER} 2.18", f"{PROGRAM} 5.1"]),
    ("places of a label, asked in the program", PROGRAM, "7G1|grr", "places", [f"{MEMBER} 3.18", f"{PROGRAM} 7.1"]),
    ("places of the macro", None, "5G10|grr", "places", [f"{MACRO} 2.10", f"{PROGRAM} 5.10", f"{PROGRAM} 6.10"]),
    ("places of a parameter, asked in the macro", MACRO, "2G16|grr", "places", [f"{MACRO} 2.16", f"{MACRO} 3.18"]),
    ("hover of a parameter", None, "3G18|K", "hover", "&BYTES: parameter"),
    ("hover of a field", PROGRAM, "6G1|K", "hover", "TOTAL: offset 16 in TALLY, length 4, type X"),
    ("hover of a field below", None, "7G1|K", "hover", "B: offset 20 in TALLY, length 4, type F"),
    ("hover of a field in the member", MEMBER, "2G18|K", "hover", "COUNT: offset 14 in TALLY, length 2, type X"),
    ("the outline", PROGRAM, "gggO", "outline", OUTLINE),
    ("a field typed above, and hover", None, "5GOPAD      DC    C'ABC'<Esc>8G1|K", "hover", "B: offset 24 in TALLY, length 4, type F"),
    ("hover of the typed field", None, "5G1|K", "hover", "PAD: offset 14 in TALLY, length 3, type C"),
    ("hover while a line is typed", None, "4GoLA    4,TOTAL<C-o>h<C-o>K", "hover", "TOTAL: offset 23 in TALLY, length 4, type X"),
    ("places of a label in that line too", None, "8G1|grr", "places", [f"{MEMBER} 4.18", f"{PROGRAM} 5.18", f"{PROGRAM} 8.1"]),
    ("the outline after that", None, "gggO", "outline",
     ["1.1 [Variable] TALLY", "6.1 [Variable] PAD", "7.1 [Variable] COUNT", "8.1 [Variable] TOTAL", "9.1 [Variable] B",
      "10.1 [Constant] LIMIT"]),
    ("a name typed over another, and the outline", None, "6GRXYZ<Esc>gO", "outline",
     ["1.1 [Variable] TALLY", "6.1 [Variable] XYZ", "7.1 [Variable] COUNT", "8.1 [Variable] TOTAL", "9.1 [Variable] B",
      "10.1 [Constant] LIMIT"]),
    ("a call typed, and to the macro", None, "8GoMORE     FIELD 1<Esc>10|gd", "jump", f"{MACRO} 2.10"),
    ("a line typed in the macro, and its places", None, "ggO<C-u>*  a field<Esc>3G10|grr", "places",
     [f"{MACRO} 3.10", f"{PROGRAM} 7.10", f"{PROGRAM} 8.10", f"{PROGRAM} 9.10"]),
    ("back to the typed call", None, "<C-t>", "back", f"{PROGRAM} 9.10"),
    ("to the macro a line further down", None, "gd", "jump", f"{MACRO} 3.10"),
    ("a length typed in the macro", None, "4G$xxxxxxa8<Esc>3G10|K", "hover", "macro FIELD"),
    ("hover of a field of that length", PROGRAM, "8G1|K", "hover", "TOTAL: offset 29 in TALLY, length 8, type X"),
    ("a use deleted in the member", MEMBER, "4Gddk18|grr", "places", [f"{MEMBER} 2.18", f"{PROGRAM} 7.1"]),
    ("places of the label that it used", PROGRAM, "8G1|grr", "places", [f"{PROGRAM} 5.18", f"{PROGRAM} 8.1"]),
    ("hover of a field after that", None, "8G1|K", "hover", "TOTAL: offset 25 in TALLY, length 8, type X"),
    ("all undone, and hover", None, ":silent undo 0<CR>6G1|K", "hover", "TOTAL: offset 18 in TALLY, length 8, type X"),
]


def steps_of_page():
    """The example of docs/USER.md, and what its rows say: hover on each name, and where its definition is."""
    text, rows = names.page()
    lines, opened = text.split("\n"), PAGE
    steps = []
    for name, places, says, defined in rows:
        for line in places:
            at = f"{line + 1}G{lines[line].index(name) + 1}|"
            column = lines[defined].index(name) + 1
            steps += [(f"page: hover on {name} in line {line + 1}", opened, f"{at}K", "hover", says),
                      (f"page: definition of {name} in line {line + 1}", None, f"{at}gd", "jump", f"{PAGE} {defined + 1}.{column}")]
            opened = None
    return text, steps


def keys_of_page():
    """The keys, as docs/EDITORS.md sets them for an older Neovim."""
    section = re.search(r"(?ms)^## Names\n(.*?)^## ", read(f"{TOP}/docs/EDITORS.md"))[1]
    lines = re.search(r"(?m)`init\.lua`:\n\n((?:(?: {4}.*)?\n)+)", section)[1]
    return re.sub(r"(?m)^ {4}", "", lines)


def run_neovim(nvim, program, room, steps):
    """Runs the steps; what Neovim wrote down."""
    root = f"{room}/work"
    write(f"{room}/server", f"#!/bin/sh\n'{program}' serve\necho $? >> '{room}/statuses'\n")
    os.chmod(f"{room}/server", 0o755)
    write(f"{room}/keys.lua", keys_of_page())
    asked = [dict(zip(("name", "open", "keys", "kind"), step)) for step in steps]
    asked = json.dumps([{name: value for name, value in step.items() if value is not None} for step in asked])
    environment = dict(os.environ, HOME=room, HLASM_TEST_ROOT=root, HLASM_TEST_RECORD=f"{room}/record", HLASM_TEST_STEPS=asked)
    for name in ("CONFIG", "DATA", "STATE", "CACHE"):
        environment[f"XDG_{name}_HOME"] = f"{room}/{name.lower()}"
    words = [nvim, "--clean", "--headless", "-n", "-i", "NONE", "--cmd", f"set runtimepath^={TOP}/clients/neovim",
             "--cmd", f"let g:hlasm_ls_command = ['{room}/server', 'serve']", "--cmd", f"luafile {room}/keys.lua",
             "-S", f"{TOP}/tests/clients/neovim_names.lua"]
    try:
        ran = subprocess.run(words, cwd=root, env=environment, stdin=subprocess.DEVNULL, stdout=subprocess.PIPE,
                             stderr=subprocess.STDOUT, encoding="utf-8", errors="replace", timeout=SECONDS)
    except subprocess.TimeoutExpired as late:
        sys.exit(f"neovim_names.py: Neovim did not end within {SECONDS} seconds: {late.stdout or ''}")
    if not os.path.exists(f"{room}/record"):
        sys.exit(f"neovim_names.py: Neovim wrote nothing down, status {ran.returncode}: {ran.stdout}")
    return json.loads(read(f"{room}/record"))


def plain(kind, found):
    """What was found, lists in an order of their own; an outline is in the order of the program, and names its file in each line."""
    if kind == "places":
        return sorted(found)
    if kind == "outline":
        return [line.removeprefix(f"{PROGRAM} ") for line in found]
    return found


def check(nvim, program, room):
    text, steps = steps_of_page()
    steps = STEPS + steps
    files = {**FILES, PAGE: text}
    for name, content in files.items():
        write(f"{room}/work/{name}", content)
    record = run_neovim(nvim, program, room, steps)
    faults = []
    for name, _, _, kind, wanted in steps:
        found = record["seen"].get(name)
        if found is not None and plain(kind, found) != wanted or found is None and "fault" not in record:
            faults.append(f"{name}: found {found!r}\n  and not {wanted!r}")
    if "fault" in record:
        faults.append(record["fault"])
    faults += [f"{name} was written" for name, content in files.items() if read(f"{room}/work/{name}") != content]
    if "fault" not in record and read(f"{room}/statuses").split() != ["0"]:
        faults.append(f"the servers ended with {read(f'{room}/statuses').split()}")
    if "rror" in record["messages"] or "quit with" in record["messages"]:
        faults.append(f"Neovim says: {record['messages']}")
    return steps, faults


def main():
    parser = argparse.ArgumentParser(description=__doc__.partition("\n\n")[0])
    parser.add_argument("--server", default=BUILT, type=os.path.abspath, help="the program hlasm_ls (default: the built one)")
    parser.add_argument("--nvim", default="nvim", help="Neovim (default: the one on the PATH)")
    words = parser.parse_args()
    nvim = shutil.which(words.nvim)
    if not nvim:
        print("neovim_names.py: skipped, there is no Neovim (apt-get install neovim)")
        return SKIPPED
    if not os.access(words.server, os.X_OK):
        sys.exit(f"neovim_names.py: there is no program {words.server}: make run builds it")
    with tempfile.TemporaryDirectory(prefix="hlasm-neovim-") as room:
        steps, faults = check(nvim, words.server, os.path.realpath(room))
    for fault in faults:
        print(f"FAIL {fault}")
    print(f"neovim_names.py: {len(steps)} questions, {len(faults)} faults")
    return 1 if faults else 0


if __name__ == "__main__":
    sys.exit(main())
