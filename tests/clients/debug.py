#!/usr/bin/env python3
"""hlasm-debug with the built program: an editor speaks the Debug Adapter Protocol to it.

Usage: debug.py [--server PATH]
"""
import argparse
import json
import os
import shutil
import subprocess
import sys
import tempfile
import unittest

TOP = os.path.normpath(os.path.join(os.path.dirname(os.path.realpath(__file__)), "../.."))
ADAPTER = os.path.join(TOP, "clients/hlasm-debug")
BUILT = os.path.join(TOP, "crates/hlasm_ls/out/hlasm_ls")

# A macro of a library that adds its operand to a global symbol, and a program that calls it twice.
MEMBER = """         MACRO
         ADD   &N
         GBLA  &SUM
&SUM     SETA  &SUM+&N
         MEND
"""
PROGRAM = """         GBLA  &SUM
         ADD   3
         ADD   4
         END
"""
GROUPS = {"pgroups": [{"name": "G", "libs": ["macros"]}]}
PROGRAMS = {"pgms": [{"program": "*.hlasm", "pgroup": "G"}]}


class Editor:
    """An editor in a workspace: it counts its requests, and keeps the events that come."""

    def __init__(self, server, folder, *words):
        self.process = subprocess.Popen([ADAPTER, "--server", server, *words], cwd=folder, stdin=subprocess.PIPE, stdout=subprocess.PIPE,
                                        stderr=subprocess.PIPE)
        self.seq, self.events = 0, []

    def receive(self):
        length = 0
        while line := self.process.stdout.readline().strip():
            length = int(line.partition(b":")[2])
        return json.loads(self.process.stdout.read(length))

    def ask(self, command, **arguments):
        """The response to a request."""
        self.seq += 1
        body = json.dumps({"seq": self.seq, "type": "request", "command": command, "arguments": arguments}).encode()
        self.process.stdin.write(b"Content-Length: %d\r\n\r\n" % len(body) + body)
        self.process.stdin.flush()
        while True:
            message = self.receive()
            if message["type"] == "response" and message["request_seq"] == self.seq:
                return message
            self.events.append(message)

    def event(self):
        """The next event, as its name with its reason."""
        message = self.events.pop(0) if self.events else self.receive()
        return (message["event"], message.get("body", {}).get("reason"))

    def end(self):
        """The status, where the editor closes its pipe."""
        self.process.stdin.close()
        return self.process.wait(60)

    def leave(self):
        self.process.kill()
        self.process.wait()
        for pipe in (self.process.stdin, self.process.stdout, self.process.stderr):
            try:
                pipe.close()
            except OSError:
                pass


class Debugging(unittest.TestCase):
    server = BUILT

    def setUp(self):
        room = tempfile.TemporaryDirectory()
        self.addCleanup(room.cleanup)
        self.folder = os.path.realpath(room.name)
        self.write("macros/ADD.mac", MEMBER)
        self.write("sum.hlasm", PROGRAM)
        self.write(".hlasmplugin/proc_grps.json", json.dumps(GROUPS))
        self.write(".hlasmplugin/pgm_conf.json", json.dumps(PROGRAMS))

    def write(self, name, text):
        path = os.path.join(self.folder, name)
        os.makedirs(os.path.dirname(path), exist_ok=True)
        with open(path, "w", encoding="utf-8") as file:
            file.write(text)

    def editor(self, *words, folder="."):
        editor = Editor(self.server, os.path.join(self.folder, folder), *words)
        self.addCleanup(editor.leave)
        return editor

    def launched(self, **arguments):
        """An editor that has launched the program, as editors do."""
        editor = self.editor()
        self.assertTrue(editor.ask("initialize", linesStartAt1=True, columnsStartAt1=True, adapterID="hlasm")["success"])
        self.assertEqual(("initialized", None), editor.event())
        self.assertTrue(editor.ask("launch", program="sum.hlasm", **arguments)["success"])
        return editor

    def stop(self, editor):
        """The innermost frame of a stop, its line and how many frames there are."""
        frames = editor.ask("stackTrace", threadId=1)["body"]["stackFrames"]
        return (frames[0]["name"], os.path.relpath(frames[0]["source"]["path"], self.folder), frames[0]["line"], len(frames))

    def variables(self, editor, frame, name):
        scopes = editor.ask("scopes", frameId=frame)["body"]["scopes"]
        reference = next(it["variablesReference"] for it in scopes if it["name"] == name)
        return {it["name"]: it["value"] for it in editor.ask("variables", variablesReference=reference)["body"]["variables"]}

    def test_a_program_is_stepped_through(self):
        editor = self.launched(stopOnEntry=True)
        self.assertTrue(editor.ask("configurationDone")["success"])
        self.assertEqual(("stopped", "entry"), editor.event())
        self.assertEqual(("OPEN CODE", "sum.hlasm", 1, 1), self.stop(editor))
        editor.ask("next", threadId=1)
        self.assertEqual(("stopped", "step"), editor.event())
        self.assertEqual(("OPEN CODE", "sum.hlasm", 2, 1), self.stop(editor))
        editor.ask("stepIn", threadId=1)
        self.assertEqual(("stopped", "step"), editor.event())
        self.assertEqual(("ADD", "macros/ADD.mac", 3, 2), self.stop(editor))
        self.assertEqual("3", self.variables(editor, 1, "Locals")["&N"])
        editor.ask("stepOut", threadId=1)
        self.assertEqual(("stopped", "step"), editor.event())
        self.assertEqual(("OPEN CODE", "sum.hlasm", 3, 1), self.stop(editor))
        self.assertEqual({"&SUM": "3"}, self.variables(editor, 1, "Globals"))
        editor.ask("continue", threadId=1)
        self.assertEqual(("terminated", None), editor.event())
        self.assertTrue(editor.ask("disconnect")["success"])
        self.assertEqual(0, editor.end())

    def test_the_session_of_the_manual(self):
        """docs/USER.md, "Stepping through macros"."""
        editor = self.launched(stopOnEntry=True)
        member = os.path.join(self.folder, "macros/ADD.mac")
        steps = (
            ("configurationDone", "entry", ("OPEN CODE", "sum.hlasm", 1, 1), {}, {}),
            ("next", "step", ("OPEN CODE", "sum.hlasm", 2, 1), {}, {"&SUM": "0"}),
            ("stepIn", "step", ("ADD", "macros/ADD.mac", 3, 2), {"&N": "3"}, {}),
            ("stepOut", "step", ("OPEN CODE", "sum.hlasm", 3, 1), {}, {"&SUM": "3"}),
            ("continue", "breakpoint", ("ADD", "macros/ADD.mac", 4, 2), {"&N": "4"}, {"&SUM": "3"}),
            ("stepOut", "step", ("OPEN CODE", "sum.hlasm", 4, 1), {}, {"&SUM": "7"}),
        )
        for command, reason, stop, local, shared in steps:
            if command == "continue":
                editor.ask("setBreakpoints", source={"path": member}, breakpoints=[{"line": 4}])
            self.assertTrue(editor.ask(command)["success"])
            self.assertEqual(("stopped", reason), editor.event())
            self.assertEqual(stop, self.stop(editor))
            self.assertEqual((local, shared), (self.variables(editor, 1, "Locals"), self.variables(editor, 1, "Globals")))
        editor.ask("continue", threadId=1)
        self.assertEqual(("terminated", None), editor.event())

    def test_the_session_of_the_page_on_editors(self):
        """docs/EDITORS.md, "Stepping through macros": a fault of examples/library is found by a breakpoint in its macro."""
        self.folder = os.path.join(TOP, "examples/library")
        editor = self.editor()
        editor.ask("initialize")
        editor.ask("launch", program="totals.hlasm", stopOnEntry=True)
        member = os.path.join(self.folder, "macros/FIELD.mac")
        editor.ask("setBreakpoints", source={"path": member}, breakpoints=[{"line": 5}])
        editor.ask("configurationDone")
        editor.ask("continue")
        frames = editor.ask("stackTrace")["body"]["stackFrames"]
        found = [f"{it['name']:<13}{os.path.relpath(it['source']['path'], self.folder)}:{it['line']}" for it in frames]
        found += [f"{name:<8}{value}".rstrip() for name, value in self.variables(editor, 1, "Locals").items()]
        heads = ["Stack".ljust(17), " " * 17, "Locals   ", " " * 9, " " * 9]
        with open(os.path.join(TOP, "docs/EDITORS.md"), encoding="utf-8") as file:
            self.assertIn("".join(f"    {head}{line}\n" for head, line in zip(heads, found)), file.read())
        self.assertEqual({}, self.variables(editor, 1, "Globals"))

    def test_a_breakpoint_in_a_macro(self):
        editor = self.launched()
        member = os.path.join(self.folder, "macros/ADD.mac")
        set_there = editor.ask("setBreakpoints", source={"path": member}, breakpoints=[{"line": 4}])
        self.assertEqual([{"line": 4, "verified": True}], set_there["body"]["breakpoints"])
        editor.ask("configurationDone")
        for sum_before in ("0", "3"):
            self.assertEqual(("stopped", "breakpoint"), editor.event())
            self.assertEqual(("ADD", "macros/ADD.mac", 4, 2), self.stop(editor))
            self.assertEqual({"&SUM": sum_before}, self.variables(editor, 1, "Globals"))
            editor.ask("continue", threadId=1)
        self.assertEqual(("terminated", None), editor.event())

    def test_the_file_may_change_while_it_is_stepped_through(self):
        editor = self.launched(stopOnEntry=True)
        editor.ask("configurationDone")
        self.assertEqual(("stopped", "entry"), editor.event())
        self.write("sum.hlasm", "         END\n")
        self.write("macros/ADD.mac", "")
        editor.ask("next", threadId=1)
        self.assertEqual(("stopped", "step"), editor.event())
        editor.ask("stepIn", threadId=1)
        self.assertEqual(("stopped", "step"), editor.event())
        self.assertEqual(("ADD", "macros/ADD.mac", 3, 2), self.stop(editor))

    def test_refusals_say_what_they_mean(self):
        editor = self.editor()
        refused = editor.ask("threads")
        self.assertEqual((False, "NoSession"), (refused["success"], refused["message"]))
        editor.ask("initialize")
        refused = editor.ask("launch", program="none.hlasm")
        wanted = (False, f"{self.folder}/none.hlasm cannot be read: No such file or directory")
        self.assertEqual(wanted, (refused["success"], refused["message"]))
        refused = editor.ask("launch", program="macros/ADD.mac")
        self.assertEqual((False, "NoProgram"), (refused["success"], refused["message"]))
        self.assertIn("not an HLASM program", refused["body"]["error"]["format"])
        refused = editor.ask("launch", program=5)
        self.assertEqual((False, "BadArguments"), (refused["success"], refused["message"]))
        refused = editor.ask("evaluate", expression="&SUM")
        self.assertEqual((False, "UnknownCommand"), (refused["success"], refused["message"]))
        self.assertEqual(0, editor.end())

    def test_the_workspace_is_the_nearest_or_the_one_that_is_named(self):
        self.write("inner/deep/sum.hlasm", PROGRAM)
        for folder, words in (("inner/deep", ()), ("inner", ("--root", self.folder))):
            editor = self.editor(*words, folder=folder)
            editor.ask("initialize")
            editor.ask("launch", program=os.path.join(self.folder, "sum.hlasm"), stopOnEntry=True)
            editor.ask("configurationDone")
            editor.ask("next")
            editor.ask("stepIn")
            self.assertEqual("ADD", self.stop(editor)[0])
            self.assertEqual(0, editor.end())

    def answered_by(self, path):
        """What the adapter says at once, or the name of the server that it starts, where none is named to it."""
        adapter = os.path.join(self.folder, "bin/hlasm-debug")
        ran = subprocess.run([sys.executable, adapter], cwd=self.folder, env={"PATH": path}, stdin=subprocess.DEVNULL,
                             capture_output=True, encoding="utf-8", timeout=60)
        return ran.stderr

    def server_at(self, name):
        """A program that tells its name and ends."""
        self.write(name, f"#!/bin/sh\necho {name} >&2\n")
        os.chmod(os.path.join(self.folder, name), 0o755)

    def test_the_server_is_the_one_beside_the_adapter_or_on_the_path(self):
        os.mkdir(os.path.join(self.folder, "bin"))
        shutil.copy(ADAPTER, os.path.join(self.folder, "bin/hlasm-debug"))
        path = f"{self.folder}/else:/usr/bin:/bin"
        self.assertEqual("hlasm-debug: no program hlasm_ls was found; name it with --server PROGRAM\n", self.answered_by(path))
        self.server_at("else/hlasm_ls")
        self.assertIn("else/hlasm_ls\n", self.answered_by(path))
        self.server_at("bin/hlasm_ls")
        self.assertIn("bin/hlasm_ls\n", self.answered_by(path))

    def test_a_server_that_ends_ends_the_program(self):
        editor = self.editor("--server", "/bin/false")
        self.assertEqual(1, editor.process.wait(60))
        self.assertIn("/bin/false does not answer", editor.process.stderr.read().decode())


def main():
    parser = argparse.ArgumentParser(description=__doc__.splitlines()[0])
    parser.add_argument("--server", default=BUILT)
    words, rest = parser.parse_known_args()
    Debugging.server = os.path.abspath(words.server)
    unittest.main(argv=[sys.argv[0], *rest])


if __name__ == "__main__":
    main()
