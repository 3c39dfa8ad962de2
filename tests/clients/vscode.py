#!/usr/bin/env python3
"""The extension for VS Code, started by node with a stand-in for the calls of VS Code and of its generic client: it starts the
program, an opened file gets the list that hlasm-lint prints, what changes in a library shows in the list of the program that calls
it, names and symbols can be asked of, and it ends in good order; the tab key goes to the columns where fields begin; and what
the manifest names is there. If there is no node it says so and
ends with 77: skipped.

Usage: vscode.py [--server PATH]
"""
import argparse
import json
import os
import shutil
import subprocess
import sys
import tempfile
import unittest

TOP = os.path.normpath(os.path.join(os.path.dirname(os.path.realpath(__file__)), "../.."))
EXTENSION = os.path.join(TOP, "clients/vscode")
EXAMPLE = os.path.join(TOP, "examples/first.hlasm")
BUILT = os.path.join(TOP, "crates/hlasm_ls/out/hlasm_ls")
SKIPPED = 77

server = BUILT


def read(path):
    with open(path, encoding="utf-8") as file:
        return file.read()


def started(file=EXAMPLE, workspace=None):
    """What the stand-in found."""
    words = ["node", os.path.join(TOP, "tests/clients/vscode.js"), EXTENSION, server, file, *([workspace] if workspace else [])]
    return json.loads(subprocess.run(words, capture_output=True, check=True, timeout=60, encoding="utf-8").stdout)


def listed():
    """What hlasm-lint prints: line, severity, code and text."""
    words = [sys.executable, os.path.join(TOP, "clients/hlasm-lint"), "--json", "--server", server, EXAMPLE]
    lines = subprocess.run(words, capture_output=True, timeout=60, encoding="utf-8").stdout.splitlines()
    return [(it["line"], it["severity"], it["code"], it["message"]) for it in map(json.loads, lines)]


class Extension(unittest.TestCase):
    def test_it_starts_the_server_and_shows_the_list_of_a_file(self):
        found = started()
        shown = [(it["range"]["start"]["line"] + 1, {1: "error", 2: "warning"}[it["severity"]], it["code"], it["message"])
                 for it in found["lists"]["first.hlasm"]]
        self.assertEqual(listed(), shown)
        self.assertEqual(["H001", "H001", "H003"], [code for _, _, code, _ in shown])
        self.assertIsNone(found["lists"]["first.hlasm.txt"], "a file of another language is opened")
        offers = ["hoverProvider", "definitionProvider", "referencesProvider", "documentSymbolProvider"]
        self.assertEqual(offers, found["asked"])
        self.assertEqual((0, 2), (found["status"], found["disposables"]))
        adapters = [(it["command"], it["args"]) for it in found["adapters"]]
        self.assertEqual([("hlasm-debug", []), ("hlasm-debug", ["--root", "/w"])], adapters)

    def test_changes_in_a_library_and_in_settings(self):
        with tempfile.TemporaryDirectory(prefix="hlasm-vscode-") as room:
            room = os.path.realpath(room)
            for folder in (".hlasmplugin", "lib", "other"):
                os.mkdir(os.path.join(room, folder))
            for name, text in (
                (".hlasmplugin/proc_grps.json", '{"pgroups":[{"name":"G","libs":["lib"]}]}'),
                (".hlasmplugin/pgm_conf.json", '{"pgms":[{"program":"*.hlasm","pgroup":"G"}]}'),
                ("p.hlasm", "         SHR\n         END\n"),
            ):
                with open(os.path.join(room, name), "w", encoding="utf-8") as file:
                    file.write(text)
            found = started(os.path.join(room, "p.hlasm"), room)
        self.assertEqual(["H040"], [it["code"] for it in found["lists"]["p.hlasm"]])
        self.assertEqual([["lib/SHR.mac", []], ["lib/SHR.mac", ["MNOTE"]], ["lib/SHR.mac", ["H040"]], ["other/SHR", []]], found["changes"])
        self.assertEqual((0, 3), (found["status"], found["disposables"]))

    def test_the_tab_key_goes_to_the_next_field(self):
        stops = [(at, at + count) for at, count in started()["typed"]]
        self.assertEqual([(0, 9), (3, 9), (8, 9), (9, 15), (14, 15), (15, 16), (16, 24), (23, 24)], stops)

    def test_the_manifest(self):
        manifest = json.loads(read(os.path.join(EXTENSION, "package.json")))
        self.assertEqual(read(os.path.join(TOP, "VERSION")).strip(), manifest["version"])
        self.assertIn("vscode-languageclient", manifest["dependencies"])
        given = manifest["contributes"]
        for path in (manifest["main"], given["languages"][0]["configuration"], given["grammars"][0]["path"]):
            self.assertTrue(os.path.isfile(os.path.join(EXTENSION, path)), path)
        typing = given["configurationDefaults"]["[hlasm]"]
        self.assertEqual((True, "off", [71, 72]), (typing["editor.insertSpaces"], typing["editor.wordWrap"], typing["editor.rulers"]))
        settings = json.loads(read(os.path.join(EXTENSION, given["languages"][0]["configuration"])))
        self.assertEqual({"comment": "*", "noIndent": True}, settings["comments"]["lineComment"])


if __name__ == "__main__":
    parser = argparse.ArgumentParser(description=__doc__.partition(":")[0])
    parser.add_argument("--server", default=BUILT, type=os.path.abspath, help="the program hlasm_ls (default: the built one)")
    words, rest = parser.parse_known_args()
    server = words.server
    if not shutil.which("node"):
        print("vscode.py: skipped, there is no node (apt-get install nodejs)")
        sys.exit(SKIPPED)
    if not os.access(server, os.X_OK):
        sys.exit(f"vscode.py: there is no program {server}: make run builds it")
    unittest.main(argv=[sys.argv[0], *rest])
