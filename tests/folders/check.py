#!/usr/bin/env python3
"""The library over the file system, on a folder with links, names that are no text and things that are no files: what
crates/folder_cases answers, as rt ci built it.

Usage: check.py [--program PATH]
"""
import argparse
import os
import subprocess
import sys
import tempfile

TOP = os.path.normpath(os.path.join(os.path.dirname(os.path.realpath(__file__)), "../.."))
BUILT = os.path.join(TOP, "crates/folder_cases/out/folder_cases")

LONGEST = 64 * 1024 * 1024
MANY = 700

# A call, and what it answers.
WANTED = [
    ("list=lib", " SPACED A EDGE LINK OVER é"),
    ("list=link", " SPACED A EDGE LINK OVER é"),
    ("list=empty", ""),
    ("list=absent", "none"),
    ("list=", "none"),
    ("list=lib/A", "refused"),
    ("list=lib/LINK", "refused"),
    ("list=lib/NOWHERE", "none"),
    ("read=lib/A", "a"),
    ("read=link/A", "a"),
    ("read=lib/LINK", "a"),
    ("read=lib/é", "e"),
    ("read=lib/ SPACED", "s"),
    ("read=lib/NOWHERE", "none"),
    ("read=lib/ITSELF", "refused"),
    ("read=lib/FOLDER", "refused"),
    ("read=lib/FOLDERLINK", "refused"),
    ("read=lib/OVER", "refused"),
    ("read=lib/A/B", "refused"),
    ("read=", "none"),
    ("all=empty", "0 files, 0 bytes"),
    ("all=many", f"{MANY} files, {sum(range(MANY))} bytes"),
    ("all=long", f"1 files, {LONGEST} bytes"),
]

# Where no folder is closed to the user, as to root, these are left out.
CLOSED = [("list=closed", "refused"), ("read=closed/A", "refused"), ("read=unreadable", "refused")]


def write(path, data=b"", length=None):
    with open(path, "wb") as file:
        file.write(data)
        if length is not None:
            file.truncate(length)


def prepare(room):
    """The folders that the calls are about."""
    for folder in ("lib", "lib/FOLDER", "empty", "many", "long", "closed"):
        os.mkdir(f"{room}/{folder}")
    for name, data in ("A", b"a"), ("é", b"e"), (" SPACED", b"s"):
        write(f"{room}/lib/{name}", data)
    write(os.fsencode(f"{room}/lib/") + b"\xff\xfe", b"no text")
    write(f"{room}/lib/EDGE", length=LONGEST)
    write(f"{room}/lib/OVER", length=LONGEST + 1)
    write(f"{room}/long/EDGE", length=LONGEST)
    write(f"{room}/closed/A")
    write(f"{room}/unreadable")
    for link, to in ("LINK", "A"), ("FOLDERLINK", "FOLDER"), ("NOWHERE", "absent"), ("ITSELF", "ITSELF"):
        os.symlink(to, f"{room}/lib/{link}")
    os.symlink("lib", f"{room}/link")
    os.mkfifo(f"{room}/lib/FIFO")
    for number in range(MANY):
        write(f"{room}/many/MEMBER{number:05}.mac", b"*" * number)
    os.chmod(f"{room}/closed", 0)
    os.chmod(f"{room}/unreadable", 0)


def check(program, room):
    prepare(room)
    try:
        wanted = WANTED if os.access(f"{room}/closed", os.R_OK) else WANTED + CLOSED
        ran = subprocess.run([program, *(call for call, _ in wanted)], cwd=room, capture_output=True, timeout=60)
    finally:
        os.chmod(f"{room}/closed", 0o700)
    refused = sum(answer == "refused" for _, answer in wanted)
    lines = [*(f"{call}: {answer}" for call, answer in wanted), f"{refused} refused", ""]
    found = ran.stdout.decode("utf-8").split("\n")
    faults = [f"FAIL {line!r}, not {right!r}" for line, right in zip(found, lines) if line != right]
    if len(found) != len(lines) or ran.returncode != 0:
        faults.append(f"FAIL status {ran.returncode}, {len(found)} lines: {ran.stderr.decode('utf-8', 'replace')}")
    print("\n".join([*faults, f"folders: {len(wanted)} calls, {len(faults)} faults"]))
    return 1 if faults else 0


def main():
    parser = argparse.ArgumentParser(description=__doc__.partition(":")[0])
    parser.add_argument("--program", default=BUILT, type=os.path.abspath, help="the program folder_cases (default: the built one)")
    words = parser.parse_args()
    if not os.access(words.program, os.X_OK):
        sys.exit(f"check.py: there is no program {words.program}: run rt run in crates/folder_cases, or rt ci")
    with tempfile.TemporaryDirectory(prefix="hlasm-folders-") as room:
        return check(words.program, os.path.realpath(room))


if __name__ == "__main__":
    sys.exit(main())
