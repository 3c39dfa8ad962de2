#!/usr/bin/env python3
"""The debug sessions of tests/cases/debug_sessions.txt with the built program: each is a session of its own with the server, in which
the texts are opened, the members are files, and the messages are carried by `hlasm/dap`. What comes back is written as the table has it.

Usage: debug_sessions.py [--server PATH]
"""
import argparse
import json
import os
import re
import subprocess
import sys
import tempfile

TOP = os.path.normpath(os.path.join(os.path.dirname(os.path.realpath(__file__)), "../.."))
BUILT = os.path.join(TOP, "crates/hlasm_ls/out/hlasm_ls")
TABLE = os.path.join(TOP, "tests/cases/debug_sessions.txt")
TEXTS = os.path.join(TOP, "crates/session_cases/src/texts.rt")
ESCAPES = {"n": "\n", "r": "\r"}
CONFIGURATION = {
    "proc_grps.json": {"pgroups": [{"name": "G", "libs": ["lib"]}]},
    "pgm_conf.json": {"pgms": [{"program": "*", "pgroup": "G"}]},
}


def unescaped(text):
    """The text that is written with backslashes, in the table and in its program."""
    return re.sub(r"\\(.)", lambda found: ESCAPES.get(found[1], found[1]), text)


def texts():
    """The texts that the table names, which stand in its program."""
    with open(TEXTS, encoding="utf-8") as file:
        source = file.read()
    constants = dict(re.findall(r'const (\w+): &str = "((?:[^"\\]|\\.)*)";', source, re.DOTALL))
    return {name: unescaped(constants[constant]) for name, constant in re.findall(r'"(\w+)" => (\w+),', source)}


def compact(value):
    return json.dumps(value, separators=(",", ":"), sort_keys=True, ensure_ascii=False)


def request(number, words):
    """The JSON of the message of a number: the words as they are, or a command with its arguments."""
    if words.startswith("{"):
        return words
    command, _, words = words.partition(" ")
    first, _, others = words.partition(" ")
    lines = ",".join('{"line":%s}' % line for line in others.split())
    arguments = {
        "launch": '{"program":"%s","stopOnEntry":%s}' % (first, "true" if others == "entry" else "false"),
        "setBreakpoints": '{"source":{"path":"%s"},"breakpoints":[%s]}' % (first, lines),
        "scopes": '{"frameId":%s}' % first,
        "variables": '{"variablesReference":%s}' % first,
    }.get(command)
    behind = ',"arguments":' + arguments if arguments else ""
    return '{"seq":%d,"type":"request","command":"%s"%s}' % (number, command, behind)


def worded(message):
    """A debug message as the table writes it."""
    body = " " + compact(message["body"]) if "body" in message else ""
    if message["type"] == "event":
        return "%d %s%s" % (message["seq"], message["event"], body)
    head = "%d/%d %s" % (message["seq"], message["request_seq"], message["command"])
    return head + body if message["success"] else f"{head} refused: {message['message']}"


class Session:
    """A session with the server in a workspace of its own, for which /w stands in the table. It waits for the answer to each debug
    message, since files change between messages."""

    def __init__(self, server, folder, named):
        self.folder, self.named, self.open, self.messages, self.said = folder, named, set(), 0, []
        os.makedirs(f"{folder}/lib")
        for name, value in CONFIGURATION.items():
            self.write(f"{folder}/.hlasmplugin/{name}", json.dumps(value))
        self.process = subprocess.Popen([server, "serve"], stdin=subprocess.PIPE, stdout=subprocess.PIPE)
        self.send({"id": 1, "method": "initialize", "params": {"rootUri": f"file://{folder}"}})
        self.send({"method": "initialized", "params": {}})

    def write(self, path, text):
        """Writes a file, and says whether it is new."""
        new = not os.path.exists(path)
        os.makedirs(os.path.dirname(path), exist_ok=True)
        with open(path, "w", encoding="utf-8", newline="") as out:
            out.write(text)
        return new

    def send(self, message):
        self.say(json.dumps({"jsonrpc": "2.0", **message}))

    def say(self, body):
        data = body.encode()
        self.process.stdin.write(b"Content-Length: %d\r\n\r\n" % len(data) + data)
        self.process.stdin.flush()

    def hear(self):
        """The next body that the server writes; none at the end."""
        head = self.process.stdout.readline()
        if not head:
            return None
        self.process.stdout.readline()
        return json.loads(self.process.stdout.read(int(head.partition(b":")[2])))

    def note(self, body):
        """Keeps what a body says of debug sessions. Whether it is a response, or a line of the log."""
        if body.get("method") == "window/logMessage":
            self.said.append("log " + body["params"]["message"])
            return True
        if body.get("method") != "hlasm/dap":
            return False
        message = body["params"]["message"]
        if message["type"] == "event":
            self.said[-1] += "; " + worded(message)
            return False
        self.said.append(worded(message))
        return True

    def close(self, path):
        self.open.discard(path)
        self.send({"method": "textDocument/didClose", "params": {"textDocument": {"uri": f"file://{path}"}}})

    def open_text(self, path, name):
        if path in self.open:
            self.close(path)
        self.open.add(path)
        document = {"uri": f"file://{path}", "languageId": "hlasm", "version": 1, "text": self.named.get(name, "")}
        self.send({"method": "textDocument/didOpen", "params": {"textDocument": document}})

    def member(self, path, name):
        change = {"uri": f"file://{path}", "type": 1 if self.write(path, self.named[name]) else 2}
        self.send({"method": "workspace/didChangeWatchedFiles", "params": {"changes": [change]}})

    def debug(self, number, words):
        self.messages += 1
        message = request(self.messages, words)
        self.say('{"jsonrpc":"2.0","method":"hlasm/dap","params":{"session":%s,"message":%s}}' % (number, message))
        while (body := self.hear()) and not self.note(body):
            pass

    def step(self, words):
        first, _, others = words.partition(" ")
        path, _, name = others.partition(" ")
        if first == "open":
            self.open_text(path, name)
        elif first == "close":
            self.close(path)
        elif first == "member":
            self.member(path, name)
        else:
            self.debug(first, others)

    def end(self):
        """Ends the session: what was written for each debug message."""
        self.send({"id": 2, "method": "shutdown"})
        self.send({"method": "exit"})
        self.process.stdin.close()
        while body := self.hear():
            self.note(body)
        self.process.wait()
        return " | ".join(self.said)


def difference(server, named, script, wanted):
    """What is wrong with a session, if anything."""
    with tempfile.TemporaryDirectory() as folder:
        session = Session(server, folder, named)
        for step in script.replace("/w/", f"{folder}/").split(" | "):
            session.step(step)
        found = session.end().replace(f"{folder}/", "/w/")
        return None if found == unescaped(wanted) else f"{script} => {wanted}, but it is {found}"


def main():
    parser = argparse.ArgumentParser(description=__doc__.splitlines()[0])
    parser.add_argument("--server", default=BUILT)
    server, named = parser.parse_args().server, texts()
    with open(TABLE, encoding="utf-8") as file:
        rows = [line.rstrip("\n").split(" => ") for line in file if " => " in line and not line.startswith("#")]
    wrong = [found for script, wanted in rows if (found := difference(server, named, script, wanted))]
    for found in wrong:
        print(found)
    print(f"debug sessions: {len(rows) - len(wrong)} as they should be, {len(wrong)} not")
    return 1 if wrong else 0


if __name__ == "__main__":
    sys.exit(main())
