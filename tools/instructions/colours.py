#!/usr/bin/env python3
"""Puts the machine instructions of instructions.tsv, beside this script, into what colours HLASM in each editor. With --check it
writes nothing, and fails if one of these files has others.

Where an editor takes an expression and no list, words with a common beginning share it, so that few are tried at each place."""
import itertools
import os
import re
import sys

HERE = os.path.dirname(os.path.abspath(__file__))
TOP = os.path.dirname(os.path.dirname(HERE))
sys.dont_write_bytecode = True
sys.path[:0] = [HERE]
from make import in_lines, read_table  # the script beside this one

# How a group, its end, a choice and what may be left out are written in expressions of VS Code and of Vim.
PLAIN = ("(?:", ")", "|", "?")
VIM = (r"\%(", r"\)", r"\|", r"\=")


def expression(words, form):
    """An expression that takes exactly these words, which are sorted."""
    start, end, choice, maybe = form
    ends = [first + expression([word[1:] for word in group], form)
            for first, group in itertools.groupby(filter(None, words), key=lambda word: word[0])]
    if not ends:
        return ""
    if len(ends) > 1 and all(len(it) == 1 for it in ends):
        found = f"[{''.join(ends)}]"
    elif len(ends) > 1 or "" in words and len(ends[0]) > 1:
        found = f"{start}{choice.join(ends)}{end}"
    else:
        found = ends[0]
    return found + (maybe if "" in words else "")


def cut(text, width):
    """A long text in pieces."""
    return [text[at:at + width] for at in range(0, len(text), width)]


def parts(words):
    """Of each file: what stands before the instructions, what stands after them, and the instructions as they are written there."""
    lines = in_lines(words, 116)
    items = [f"<item>{word}</item>" for word in words]
    return {
        "clients/neovim/syntax/hlasm.vim": (
            "syntax match hlasmMachine contained nextgroup=hlasmOperands /\\%<72v\\%(\n", "      \\\\)\\S\\@!/\n",
            "".join(f"      \\{piece}\n" for piece in cut(expression(words, VIM), 116))),
        "clients/emacs/hlasm-mode.el": (
            '(defconst hlasm--machine-operations\n  (split-string "\n', '")\n  "Machine instructions', "\n".join(lines)),
        "clients/kate/hlasm.xml": (
            '<list name="machine">\n', "    </list>\n",
            "".join(f"      {''.join(items[at:at + 8])}\n" for at in range(0, len(items), 8))),
        "clients/vscode/syntaxes/hlasm.tmLanguage.json": (
            '"machine": {\n      "begin": "^((?!\\\\.?\\\\*)[^ \\\\t\\\\n]+)?(?![ \\\\t]{71})[ \\\\t]+((?i:', '))(?=[ \\\\t]|$)",\n',
            expression(words, PLAIN)),
    }


def main():
    status = 0
    for name, (before, after, text) in parts(sorted(row[0] for row in read_table())).items():
        with open(f"{TOP}/{name}", encoding="utf-8") as file:
            old = file.read()
        head, middle, rest = old.partition(before)
        tail = rest[rest.index(after):]
        new = head + middle + text + tail
        if sys.argv[1:] != ["--check"]:
            with open(f"{TOP}/{name}", "w", encoding="utf-8") as file:
                file.write(new)
        elif new != old:
            print(f"{name} does not have the instructions that tools/instructions/colours.py writes")
            status = 1
    return status


if __name__ == "__main__":
    sys.exit(main())
