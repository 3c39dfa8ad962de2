#!/usr/bin/env python3
"""What the built program does with the words after its name: its status, all that it writes on standard output and on standard
error, and whether it reads anything, for each line of words.txt.

The session of an editor is given one program of 400,001 statements, of which its list shows how many were processed. What a
session of its own writes is counted here from its program: N calls with the operands 0 to 96 over and over, each of which leaves
five points and a symbol and adds its operand to the total, and ten edits, each of which makes an operand 5.

Usage: check.py [--server PATH]
"""
import argparse
import os
import re
import subprocess
import sys
import tempfile

HERE = os.path.dirname(os.path.realpath(__file__))
BUILT = os.path.normpath(os.path.join(HERE, "../../crates/hlasm_ls/out/hlasm_ls"))

INITIALIZE = '{"id":1,"jsonrpc":"2.0","method":"initialize","params":{}}'
OFFER = ('{"id":1,"jsonrpc":"2.0","result":{"capabilities":{"definitionProvider":true,"documentSymbolProvider":true,'
         '"hoverProvider":true,"positionEncoding":"utf-16","referencesProvider":true,"textDocumentSync":{"change":2,"openClose":true}},'
         '"serverInfo":{"name":"hlasm_ls","version":"1"}}}')
# More statements than any budget.
OPENING = ('{"jsonrpc":"2.0","method":"textDocument/didOpen","params":{"textDocument":{"languageId":"hlasm","text":"'
           + " ANOP\\n" * 400001 + ' END","uri":"file:///w/a.hlasm","version":1}}}')
USAGE = """\
An editor starts it as: hlasm_ls serve, or hlasm_ls serve --budget N with N from 1 to 400000 (docs/EDITORS.md).
To list what it reports of files, run: hlasm-lint FILE or FOLDER (docs/PIPELINE.md).
"""


def read(path):
    with open(os.path.join(HERE, path), encoding="utf-8") as file:
        return file.read()


# What is told beside BadWords.
TOLD = {"usage": USAGE, "help": read("help.txt"), "version": f"hlasm_ls {read('../../VERSION').strip()}\n"}


def framed(*bodies):
    """The bodies, each in a frame."""
    return b"".join(b"Content-Length: %d\r\n\r\n" % len(body) + body for body in map(str.encode, bodies))


def listed(budget):
    """The list of the program: the first statement that is not processed."""
    at = f'"end":{{"character":5,"line":{budget}}},"start":{{"character":0,"line":{budget}}}'
    return ('{"jsonrpc":"2.0","method":"textDocument/publishDiagnostics","params":{"diagnostics":[{"code":"H090",'
            f'"message":"the statement budget is used up","range":{{{at}}},"severity":1,"source":"hlasm_ls"}}],'
            '"uri":"file:///w/a.hlasm","version":1}}')


def counted(count):
    """The six lines of a session of its own."""
    operands = [number % 97 for number in range(count)]
    before = sum(operands)
    for edit in range(10):
        operands[edit * count // 10] = 5
    return (f"points {5 * count + 3}\nsymbols {count + 1}\ndiagnostics 0\ntotal {before}\nedits 10\n"
            f"total after edits {sum(operands)}\n").encode()


def word_of(text):
    """A word as the table writes it."""
    escaped = {"\\e": b"", "\\s": b" ", "\\xff": b"\xff"}
    parts = re.split(r"(\\e|\\s|\\xff)", text)
    return b"".join(escaped[part] if part in escaped else part.encode() for part in parts)


def rows():
    """The lines of the table: its text, the words, and what comes of them."""
    for line in read("words.txt").splitlines():
        if line and not line.startswith("#"):
            before, outcome = line.split("=>")
            words = [word_of(text) for text in before.strip().split(" | ")] if before.strip() else []
            yield line, words, outcome.strip()


def wanted(outcome, size):
    """The status, standard output, standard error, and how many bytes of the input are read."""
    if outcome in TOLD:
        return 7, b"", f"BadWords\n{TOLD[outcome]}".encode(), 0
    command, number = outcome.split()
    if command == "bulk":
        return 0, counted(int(number)), b"", 0
    return 2, framed(OFFER, listed(number)), b"InputEnded\n", size


def run(server, words, source):
    """The same of a run, over a file from its beginning."""
    source.seek(0)
    done = subprocess.run([server, *words], stdin=source, capture_output=True, timeout=60)
    return done.returncode, done.stdout, done.stderr, os.lseek(source.fileno(), 0, os.SEEK_CUR)


def difference(found, expected):
    """What differs, if anything."""
    names = ("status", "standard output", "standard error", "bytes read")
    for name, one, other in zip(names, found, expected):
        if one != other:
            return f"{name}: {one!r}, not {other!r}"
    return None


def main():
    parser = argparse.ArgumentParser(description=__doc__.splitlines()[0])
    parser.add_argument("--server", default=BUILT)
    server = parser.parse_args().server
    right, wrong = 0, 0
    with tempfile.TemporaryFile(buffering=0) as source:
        size = source.write(framed(INITIALIZE, OPENING))
        for line, words, outcome in rows():
            fault = difference(run(server, words, source), wanted(outcome, size))
            if fault:
                wrong += 1
                print(f"{line}: {fault[:2000]}")
            else:
                right += 1
    print(f"words: {right} lines as they should be, {wrong} not")
    return 1 if wrong else 0


if __name__ == "__main__":
    sys.exit(main())
