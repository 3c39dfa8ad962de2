"""Sessions of an editor as a file of frames, and a program run over one."""
import json
import os
import subprocess
import sys
import time


def frame(message):
    """A message in its frame."""
    body = json.dumps({"jsonrpc": "2.0", **message}).encode()
    return b"Content-Length: %d\r\n\r\n" % len(body) + body


def opened(uri, text, language="hlasm"):
    """The opening of a document."""
    return frame({"method": "textDocument/didOpen", "params": {"textDocument": {
        "uri": uri, "languageId": language, "version": 1, "text": text}}})


def write_session(path, messages):
    """Writes a session with these messages between its beginning and its end; its path."""
    with open(path, "wb") as out:
        out.write(frame({"id": 1, "method": "initialize", "params": {}}))
        for message in messages:
            out.write(message)
        out.write(frame({"id": 2, "method": "shutdown"}))
        out.write(frame({"method": "exit"}))
    return path


def run(command, path):
    """Runs a command over a session: its output, the seconds up to each byte count of it, those of all, and the peak in kB."""
    with open(path, "rb") as source:
        start = time.perf_counter()
        child = subprocess.Popen(command, stdin=source, stdout=subprocess.PIPE)
        # Bytes in place: to copy all that came before with each piece would take longer than the session.
        output, seen = bytearray(), []
        while piece := os.read(child.stdout.fileno(), 1 << 20):
            output += piece
            seen.append((len(output), time.perf_counter() - start))
        _, status, usage = os.wait4(child.pid, 0)
        whole = time.perf_counter() - start
    child.returncode = os.waitstatus_to_exitcode(status)
    if child.returncode:
        sys.exit(f"{command[0]} ended with {child.returncode}: {output[-200:]}")
    return bytes(output), seen, whole, usage.ru_maxrss


def run_in_turn(command, opening, lists, messages):
    """Runs a command over a session whose client sends its next message once the list of the one before has come; `opening` is sent
    first, and comes to so many lists. The seconds of each message."""
    child = subprocess.Popen(command, stdin=subprocess.PIPE, stdout=subprocess.PIPE)
    output, spent = bytearray(), []
    for message in [frame({"id": 1, "method": "initialize", "params": {}}) + opening, *messages]:
        start = time.perf_counter()
        child.stdin.write(message)
        child.stdin.flush()
        while output.count(b"publishDiagnostics") < lists + len(spent):
            output += os.read(child.stdout.fileno(), 1 << 20) or sys.exit(f"{command[0]} ended")
        spent.append(time.perf_counter() - start)
    child.stdin.write(frame({"id": 2, "method": "shutdown"}) + frame({"method": "exit"}))
    child.stdin.close()
    child.stdout.read()
    if child.wait():
        sys.exit(f"{command[0]} ended with {child.returncode}")
    return spent[1:]
