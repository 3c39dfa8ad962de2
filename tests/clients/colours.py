#!/usr/bin/env python3
"""The colours of HLASM in each editor that is there: Vim, Neovim, Emacs, VS Code (its grammar, by node) and Kate (by the program
kate-syntax-highlighter). colours/example.hlasm has each sort of statement, and colours/example.txt a letter for each of its
characters, worked out from the rules: N name, O operation, P operand, Q quoted text, V variable symbol, R remarks, C comment,
M a mark in column 72, S what stands behind, E text before column 16 of a continuation line. Also, each editor knows the
operations that are built in, each machine instruction among them, and no other one. If no editor is there it ends with 77: skipped.
"""
import html
import json
import os
import re
import shutil
import subprocess
import sys
import tempfile

HERE = os.path.join(os.path.dirname(os.path.realpath(__file__)), "colours")
CLIENTS = os.path.normpath(os.path.join(HERE, "../../../clients"))
TABLES = os.path.normpath(os.path.join(HERE, "../../../crates/instruction_table/specs"))
INSTRUCTIONS = os.path.normpath(os.path.join(HERE, "../../../tools/instructions/instructions.tsv"))
SKIPPED = 77


def read(path):
    with open(path, encoding="utf-8") as file:
        return file.read()


def run(words, room, **more):
    """Runs a program in the folder of the example, with a home of its own. What it printed."""
    environment = dict(os.environ, HOME=room, HLASM_TEST_RECORD=f"{room}/record", XDG_DATA_HOME=f"{room}/data",
                       XDG_CONFIG_HOME=f"{room}/config", QT_QPA_PLATFORM="offscreen")
    more.setdefault("stdin", subprocess.DEVNULL)
    ran = subprocess.run(words, cwd=HERE, env=environment, capture_output=True, timeout=120, encoding="utf-8", errors="replace", **more)
    if ran.returncode != 0:
        sys.exit(f"colours.py: {words[0]} ended with {ran.returncode}: {ran.stdout}{ran.stderr}")
    return ran.stdout


def of_vim(name, room):
    quiet = ["--clean", "--headless"] if name == "nvim" else ["-u", "NONE", "-N", "-es"]
    run([name, *quiet, "-n", "-i", "NONE", "--cmd", "let g:loaded_hlasm_ls = 1", "--cmd", f"set runtimepath^={CLIENTS}/neovim",
         "-c", "filetype plugin on | syntax on", "-c", "edit example.hlasm", "-S", "vim.vim", "-c", "qall!"], room)
    return read(f"{room}/record")


def of_emacs(name, room):
    run([name, "-Q", "--batch", "-L", f"{CLIENTS}/emacs", "-l", "emacs.el"], room)
    return read(f"{room}/record")


def of_node(name, room):
    with open(os.path.join(HERE, "example.hlasm"), encoding="utf-8") as example:
        return run([name, "vscode.js", f"{CLIENTS}/vscode/syntaxes/hlasm.tmLanguage.json"], room, stdin=example)


# Kate's styles, and their letters. Each gets a colour of its own, #0000NN, NN being the letter.
STYLES = {"Normal": "P", "Function": "N", "Keyword": "O", "Preprocessor": "O", "Extension": "O", "Variable": "V", "String": "Q",
          "Comment": "C", "Warning": "M", "Error": "E", "Information": "S"}


def of_kate(name, room):
    for path, made in (("syntax/hlasm.xml", read(f"{CLIENTS}/kate/hlasm.xml")), ("themes/letters.theme", json.dumps(theme()))):
        path = f"{room}/data/org.kde.syntax-highlighting/{path}"
        os.makedirs(os.path.dirname(path), exist_ok=True)
        with open(path, "w", encoding="utf-8") as file:
            file.write(made)
    page = run([name, "-s", "HLASM", "-t", "Letters", "example.hlasm"], room)
    rows = re.search("<pre>\n?(.*)</pre>", page, re.DOTALL)[1]
    return "".join(letters_of_page(rows))


def theme():
    styles = {name: {"text-color": f"#0000{ord(letter):02x}"} for name, letter in STYLES.items()}
    return {"metadata": {"name": "Letters", "revision": 1}, "text-styles": styles, "editor-colors": {"BackgroundColor": "#ffffff"}}


def letters_of_page(rows):
    """The letters by the colours of a page."""
    letter = "P"
    for tag, text in re.findall("(<[^>]*>)|([^<]+)", rows):
        if tag:
            colour = re.search("[^-]color:#0000([0-9a-f]{2})", tag)
            letter = chr(int(colour[1], 16)) if colour else "P"
        else:
            yield "".join(it if it.isspace() else letter for it in html.unescape(text))


# Each editor: the program, what it says of the example, and letters that are one there, since two things have one face.
EDITORS = [("vim", of_vim, ""), ("nvim", of_vim, ""), ("emacs", of_emacs, "RC"), ("node", of_node, ""),
           ("kate-syntax-highlighter", of_kate, "RC")]


# What some of them have to say of themselves; a small Vim has no colours, and an old node cannot read the grammar.
NEEDED = {"vim": (["vim", "--version"], r"\+syntax"), "node": (["node", "--version"], r"v(?:1[6-9]|[2-9]\d)")}


def is_there(name):
    """Whether an editor is there, and can do what is wanted of it."""
    if not shutil.which(name) or name not in NEEDED:
        return bool(shutil.which(name))
    words, needed = NEEDED[name]
    return re.search(needed, subprocess.run(words, capture_output=True, encoding="utf-8").stdout) is not None


def faults_of_colours(name, letters, same):
    """Where an editor colours the example in another way."""
    wanted = read(os.path.join(HERE, "example.txt"))
    if same:
        wanted = wanted.replace(*same)
    lines = read(os.path.join(HERE, "example.hlasm")).splitlines()
    found = [row.rstrip() for row in letters.splitlines()]
    if len(found) != len(lines):
        yield f"{name}: {len(found)} lines, not {len(lines)}"
    for line, row, right in zip(lines, found, wanted.splitlines()):
        if row != right:
            yield f"{name}:\n  {line}\n  {row}\n  {right}, by the rules"


def machine_instructions():
    """The mnemonics of machine instructions."""
    return {line.split("\t")[0] for line in read(INSTRUCTIONS).splitlines() if line and not line.startswith("#")}


def other_operations():
    """The other operations that are built in and decide how operands go on, by the definitions of the crate that has them."""
    rest = dict(re.findall(r'^(conditional|ordinary|both|silent) = words \(codes "([A-Z ]+)"\)', read_all(TABLES), re.MULTILINE))
    return {name for names in rest.values() for name in names.split()}


def read_all(folder):
    return "\n".join(read(os.path.join(folder, name)) for name in sorted(os.listdir(folder)))


def words_of_list(path, form):
    """The words of a list of a file of colours."""
    found = re.search(form, read(os.path.join(CLIENTS, path)), re.DOTALL)[1]
    return set(re.findall(r"\b[A-Z][A-Z0-9]*\b", re.sub("<[^>]*>", " ", found)))


def words_of_expression(path, form, words):
    """Which of these words an expression of a file of colours takes; Vim's continuation lines and its groups are written plainly."""
    found = re.search(form, read(os.path.join(CLIENTS, path)), re.DOTALL)[1]
    if path.endswith(".vim"):
        for old, new in (("\n      \\", ""), (r"\%(", "(?:"), (r"\|", "|"), (r"\)", ")"), (r"\=", "?")):
            found = found.replace(old, new)
    return {word for word in words if re.fullmatch(found, word)}


def faults_of_lists():
    """Which files of colours do not know an operation of the assembler or a machine instruction, or know one that is none."""
    other, machine = other_operations(), machine_instructions()
    near = {word[:-1] for word in machine} | {word + last for word in machine for last in "AEHRZ"} | {word[1:] for word in machine}
    tried = (near - {""}) | machine
    vim, vscode = "neovim/syntax/hlasm.vim", "vscode/syntaxes/hlasm.tmLanguage.json"
    machines = {
        vim: words_of_expression(vim, r"hlasmMachine contained [^\n]*\n +\\(.*?)\n +\\\\\)\\S", tried),
        vscode: words_of_expression(vscode, r'"machine": .*?\(\?i:(.*?)\)\)\(\?=', tried),
        "emacs/hlasm-mode.el": words_of_list("emacs/hlasm-mode.el", r'hlasm--machine-operations\s+\(split-string "(.*?)"\)'),
        "kate/hlasm.xml": words_of_list("kate/hlasm.xml", r'<list name="machine">(.*?)</list>'),
    }
    for path, found in machines.items():
        if found != machine:
            lacking, wrong = sorted(machine - found)[:9], sorted(found - machine)[:9]
            yield f"{path}: {len(found & machine)} instructions, not {lacking}, and {wrong}, which are none"
        lacking = {word for word in other if not re.search(rf"\b{word}\b", read(os.path.join(CLIENTS, path)))}
        if lacking:
            yield f"{path}: operations missing {sorted(lacking)}"


def main():
    faults, seen = list(faults_of_lists()), []
    if len(other_operations()) < 39 or len(machine_instructions()) < 2413:
        faults.append(f"there are {len(other_operations())} operations and {len(machine_instructions())} instructions only")
    for name, letters_of, same in EDITORS:
        if is_there(name):
            seen.append(name)
            with tempfile.TemporaryDirectory(prefix="hlasm-colours-") as room:
                faults += faults_of_colours(name, letters_of(name, room), same)
    for fault in faults:
        print(f"FAIL {fault}")
    print(f"colours.py: {', '.join(seen) or 'skipped, no editor is there'}: {len(faults)} faults")
    return 1 if faults else 0 if seen else SKIPPED


if __name__ == "__main__":
    sys.exit(main())
