#!/usr/bin/env python3
"""Whole conversations with the built program: what a client sends, the exact bytes that are written, and how it ends.

conversations.json has a list; each element says what it shows, the words after the program's name (`words`; `serve` where
it has none), the bodies that are sent (`says`), the bodies that are written (`hears`) and the name of the status (`ends`). The body
`initialize` stands for a whole such request, and `offer` for its answer. Standard error has the name of the status, unless it is Done.
Each was worked out by hand from LSP 3.17 and JSON-RPC 2.0. The words have a table of their own, in tests/words.

Each body is sent when the program has read the one before, so that nothing waits behind a message, and no Turn is held back. With
`at_once` all are in a file, of 8 KiB at most, which the program reads ahead as a whole: so something waits behind each message but
the last.

Usage: check.py [--server PATH]
"""
import argparse
import array
import fcntl
import json
import os
import subprocess
import sys
import tempfile
import termios
import threading
import time

HERE = os.path.dirname(os.path.realpath(__file__))
BUILT = os.path.normpath(os.path.join(HERE, "../../crates/hlasm_ls/out/hlasm_ls"))

INITIALIZE = '{"id":1,"jsonrpc":"2.0","method":"initialize","params":{}}'
OFFER = ('{"id":1,"jsonrpc":"2.0","result":{"capabilities":{"definitionProvider":true,"documentSymbolProvider":true,'
         '"hoverProvider":true,"positionEncoding":"utf-16","referencesProvider":true,"textDocumentSync":{"change":2,"openClose":true}},'
         '"serverInfo":{"name":"hlasm_ls","version":"1"}}}')
STATUSES = {"Done": 0, "NoShutdown": 1, "InputEnded": 2}


def framed(bodies):
    """The bodies, each in a frame."""
    parts = []
    for body in bodies:
        data = body.encode()
        parts.append(b"Content-Length: %d\r\n\r\n" % len(data) + data)
    return b"".join(parts)


def wait_until_read(process):
    """Waits until the program has read all that was sent, or has ended."""
    left = array.array("i", [0])
    while process.poll() is None:
        fcntl.ioctl(process.stdin.fileno(), termios.FIONREAD, left)
        if left[0] == 0:
            return
        time.sleep(0.0002)


def run_in_turn(command, bodies):
    """The output, the status and what is printed on standard error, where each body is sent when the one before was read."""
    with subprocess.Popen(command, stdin=subprocess.PIPE, stdout=subprocess.PIPE, stderr=subprocess.PIPE, bufsize=0) as process:
        pieces, printed = [], []
        readers = [threading.Thread(target=lambda pipe=pipe, to=to: to.append(pipe.read()), daemon=True)
                   for pipe, to in ((process.stdout, pieces), (process.stderr, printed))]
        watchdog = threading.Timer(60, process.kill)
        for reader in readers:
            reader.start()
        watchdog.start()
        try:
            for body in bodies:
                data = framed([body])
                while data:
                    data = data[process.stdin.write(data):]
                wait_until_read(process)
        except BrokenPipeError:
            pass
        finally:
            process.stdin.close()
            status = process.wait()
            watchdog.cancel()
            for reader in readers:
                reader.join()
    return b"".join(pieces), status, b"".join(printed).decode("utf-8", "replace")


def run_at_once(command, bodies):
    """The same where all bodies can be read ahead."""
    with tempfile.TemporaryFile() as file:
        file.write(framed(bodies))
        assert file.tell() <= 8192
        file.seek(0)
        run = subprocess.run(command, stdin=file, capture_output=True, timeout=60)
    return run.stdout, run.returncode, run.stderr.decode("utf-8", "replace")


def difference(server, row):
    """What is wrong with a conversation, if anything."""
    says = [INITIALIZE if body == "initialize" else body for body in row["says"]]
    hears = framed(OFFER if body == "offer" else body for body in row["hears"])
    run = run_at_once if row.get("at_once") else run_in_turn
    output, status, printed = run([server, *row.get("words", ["serve"])], says)
    if output != hears:
        return f"wrote {output!r}, not {hears!r}"
    if status != STATUSES[row["ends"]]:
        return f"ended with status {status}, not {row['ends']}"
    if printed.splitlines() != [row["ends"]] * (row["ends"] != "Done"):
        return f"printed {printed!r} on standard error"
    return None


def main():
    parser = argparse.ArgumentParser(description=__doc__.splitlines()[0])
    parser.add_argument("--server", default=BUILT)
    server = parser.parse_args().server
    with open(os.path.join(HERE, "conversations.json"), encoding="utf-8") as file:
        rows = json.load(file)
    wrong = 0
    for row in rows:
        found = difference(server, row)
        if found:
            wrong += 1
            print(f"{row['shows']}: {found}")
    print(f"conversations: {len(rows) - wrong} as they should be, {wrong} not")
    return 1 if wrong else 0


if __name__ == "__main__":
    sys.exit(main())
