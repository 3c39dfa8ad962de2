#!/bin/sh
# A library of 5,000 members, read at `initialized`, beside a plain program that lists the folder and reads each file, in turns:
# members that all have the same length, which makes them hardest to tell apart, and members of some two thousand lengths; and a
# keystroke in a program that calls one of its macros.
set -eu
. "$(dirname "$0")/served.sh"
cat > "$work/plain.c" <<'PLAIN'
/* Lists a folder, reads each file of it, and prints how many bytes there are. */
#include <dirent.h>
#include <stdio.h>
int main(int count, char **words) {
    DIR *folder = opendir(words[1]);
    char path[4096], piece[65536];
    long all = 0;
    for (struct dirent *entry; (entry = readdir(folder)) != NULL;) {
        snprintf(path, sizeof path, "%s/%s", words[1], entry->d_name);
        FILE *file = fopen(path, "rb");
        if (file == NULL)
            continue;
        for (size_t got; (got = fread(piece, 1, sizeof piece, file)) > 0;)
            all += (long)got;
        fclose(file);
    }
    printf("%ld\n", all);
    return 0;
}
PLAIN
cc -O2 -o "$work/plain" "$work/plain.c"
python3 - "$server" "$work" "$bench" <<'RUNS'
import os, subprocess, sys, time
server, work, bench = sys.argv[1:]
sys.path.insert(0, bench)
sys.dont_write_bytecode = True
from replay import frame, opened, run
MEMBERS = 5000

def write(path, text):
    with open(path, "w") as out:
        out.write(text)

def library(name, body):
    """A root with a library folder of as many members, of which each has these lines."""
    root = f"{work}/{name}"
    os.makedirs(f"{root}/.hlasmplugin")
    os.makedirs(f"{root}/lib")
    write(f"{root}/.hlasmplugin/proc_grps.json", '{"pgroups":[{"name":"G","libs":["lib"]}]}')
    write(f"{root}/.hlasmplugin/pgm_conf.json", '{"pgms":[{"program":"*","pgroup":"G"}]}')
    for n in range(MEMBERS):
        write(f"{root}/lib/MAC{n:05}.mac", f"         MACRO\n&L       MAC{n:05} &P\n{body(n)}         MEND\n")
    return root

lines = [f"         MVC   F{n},G{n}  one field and then the next\n" for n in range(61)]
text = "* a program\n         MAC04999 1\n" + "         LR    1,2\n" * 1000 + "         END\n"

def session(root, name, reads, keystrokes):
    """A session that opens a program, after it read the library or without; keystrokes follow."""
    messages = [frame({"id": 1, "method": "initialize", "params": {"rootUri": f"file://{root}"}})]
    if reads:
        messages.append(frame({"method": "initialized", "params": {}}))
    uri = f"file://{root}/a.hlasm"
    messages.append(opened(uri, text))
    for number in range(keystrokes):
        at = {"line": 0, "character": 11}
        change = {"range": {"start": at, "end": {"line": 0, "character": 11 + number % 2}}, "text": "" if number % 2 else "x"}
        document = {"uri": uri, "version": number + 2}
        messages.append(frame({"method": "textDocument/didChange", "params": {"textDocument": document, "contentChanges": [change]}}))
    messages += [frame({"id": 2, "method": "shutdown"}), frame({"method": "exit"})]
    path = f"{work}/{name}"
    with open(path, "wb") as out:
        out.write(b"".join(messages))
    return path

served = [server, "serve"]

def measure(root, name):
    """Reads a library and lets the plain program read it, in turns; prints the least time of each."""
    reading, without = session(root, "reading", True, 0), session(root, "without", False, 0)
    with_library, none, plain = [], [], []
    for _ in range(11):
        with_library.append(run(served, reading)[2])
        none.append(run(served, without)[2])
        start = time.perf_counter()
        subprocess.run([f"{work}/plain", f"{root}/lib"], stdout=subprocess.DEVNULL, check=True)
        plain.append(time.perf_counter() - start)
    print(f"{MEMBERS} {name} read at initialized in {(min(with_library) - min(none)) * 1000:.1f} ms")
    print(f"  the {name} listed and read by a plain program, its start included, in {min(plain) * 1000:.1f} ms")

equal = library("equal", lambda n: "".join(lines[:40]))
measure(equal, "members")
various = library("various", lambda n: "".join(lines[:20 + n * 7919 % 41]) + "*" + "." * (n * 31 % 53) + "\n")
measure(various, "members of various lengths")
few, many = (min(run(served, session(equal, "keys", True, count))[2] for _ in range(5)) for count in (10, 110))
print(f"a keystroke in a program that calls one of {MEMBERS} members: {(many - few) * 10:.2f} ms")
RUNS
