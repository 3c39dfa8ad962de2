#!/bin/sh
# A session of an editor, replayed at once: 500 keystrokes in a text of 10,000 lines, beside a program that only splits the
# frames and reads their JSON; how many instructions a message takes; and the most memory that 1,000 edits need.
set -eu
. "$(dirname "$0")/served.sh"
cat > "$work/plain.py" <<'PLAIN'
# Splits the frames of standard input and reads the JSON of each.
import json, sys
data, at, count = sys.stdin.buffer.read(), 0, 0
while at < len(data):
    head = data.index(b"\r\n\r\n", at)
    length = int(data[at:head].split(b":")[1])
    json.loads(data[head + 4:head + 4 + length])
    at, count = head + 4 + length, count + 1
print(count)
PLAIN
python3 - "$server" "$work" "$bench" <<'RUNS'
import os, re, subprocess, sys, time
server, work, bench = sys.argv[1:]
sys.path.insert(0, bench)
sys.dont_write_bytecode = True
from replay import frame, opened, run, run_in_turn, write_session
uri = "file:///w/a.hlasm"

# A program of which nothing is to be said, and which is laid out and checked whole.
def text(lines):
    begin = ["BENCH    CSECT", "         USING MAP,11", "* an instruction in two has addresses"]
    shapes = ["L{n:05}   MVC   TARGET,SOURCE  moves it", "         LR    R1,R2", "* a comment line with some words in it"]
    end = ["R1       EQU   1", "R2       EQU   2", "MAP      DSECT", "TARGET   DS    CL8", "SOURCE   DS    CL8", "         END"]
    middle = [shapes[n % 3].format(n=n) for n in range(len(begin), lines - len(end))]
    return "".join(line + "\n" for line in begin + middle + end)

# A keystroke: a character comes into the middle of the text, or is taken out again.
def keystroke(number, line):
    start, end = {"line": line, "character": 30}, {"line": line, "character": 30 + number % 2}
    change = {"range": {"start": start, "end": end}, "text": "" if number % 2 else "x"}
    return frame({"method": "textDocument/didChange", "params": {
        "textDocument": {"uri": uri, "version": number + 2}, "contentChanges": [change]}})

# So many changes in one message: a character comes into each of the first lines, downwards or upwards. Those of a document
# that is not open are read, and none is made.
def changes(count, downwards, document=uri):
    places = ({"line": line, "character": 30} for line in (range(count) if downwards else reversed(range(count))))
    return frame({"method": "textDocument/didChange", "params": {"textDocument": {"uri": document, "version": 2},
        "contentChanges": [{"range": {"start": at, "end": at}, "text": "x"} for at in places]}})

# A session with one message behind the opening of a text of 10,000 lines of 80 characters.
def one_message(name, message):
    words = "".join(f"L{n:05}   MVC   TARGET,SOURCE".ljust(71) + f"{n % 10**8:>8}\n" for n in range(10000))
    return write_session(f"{work}/{name}", [opened(uri, words), message])

def begun(lines, others):
    return [opened(f"file:///w/other{number}.hlasm", text(lines)) for number in range(others)] + [opened(uri, text(lines))]

def keystrokes(lines, count):
    return [keystroke(number, lines // 2 // 3 * 3) for number in range(count)]

# All at once: a message that is there already holds a Turn back, so most of the keystrokes have no list of their own.
def session(name, lines, count):
    return write_session(f"{work}/{name}", begun(lines, 0) + keystrokes(lines, count))

# One after the other, each behind the list of the one before. What is open otherwise is opened at once, and has one list each.
def in_turn(command, lines, count, others=0):
    return run_in_turn(command, b"".join(begun(lines, others)), others + 1, keystrokes(lines, count))

def last_list(output, seen):
    end = [found.end() for found in re.finditer(rb'publishDiagnostics.*?"version":\d+\}\}', output)][-1]
    return min(at for count, at in seen if count >= end)

served = [server, "serve"]
keys = 500
path = session("keys", 10000, keys)
best, lists, plain = 1e9, 1e9, 1e9
for _ in range(5):
    output, seen, whole, _ = run(served, path)
    best, lists = min(best, whole), min(lists, last_list(output, seen))
    if b'"version":%d}}' % (keys + 1) not in output:
        sys.exit("not the list of the last keystroke")
    plain = min(plain, run([sys.executable, f"{work}/plain.py"], path)[2])
print(f"{keys} keystrokes in 10000 lines, {os.path.getsize(path)} bytes:")
print(f"  served in {best * 1000:.0f} ms, {(keys + 4) / best:.0f} messages a second; the last list after {lists * 1000:.0f} ms")
print(f"  frames split and JSON read by Python, its start included, in {plain * 1000:.0f} ms")
counts = []
for few in (5, 15):
    tool = ["valgrind", "--tool=callgrind", "--callgrind-out-file=/dev/null", f"--log-file={work}/told", *served]
    in_turn(tool, 10000, few)
    with open(f"{work}/told", encoding="utf-8") as told:
        counts.append(int(re.findall(r"Collected : (\d+)", told.read())[0]))
print(f"  {(counts[1] - counts[0]) // 10} instructions a keystroke, with its list")
for edits in (10, 1000):
    _, _, _, peak = run(served, session("edits", 1000, edits))
    print(f"{edits} edits in 1000 lines: at most {peak} kB")
for others in (0, 19):
    middle = sorted(in_turn(served, 10000, 100, others))[50]
    print(f"a keystroke in one of {others + 1} open programs of 10000 lines: {middle * 1000:.1f} ms")
words = b"x" * 800_000
start = time.perf_counter()
for _ in range(1000):
    bytearray(words)
copy = time.perf_counter() - start
few = min(run(served, one_message("few", changes(1, True)))[2] for _ in range(3))
unopened = "file:///w/unopened.hlasm"
least = min(run(served, one_message("least", changes(1, True, unopened)))[2] for _ in range(3))
# Those of the document that is not open are read, and none is made; what the others take beyond that is their making.
for name, downwards in (("downwards", True), ("upwards", False)):
    read = min(run(served, one_message("read", changes(10000, downwards, unopened)))[2] for _ in range(3)) - least
    many = min(run(served, one_message("many", changes(10000, downwards)))[2] for _ in range(3)) - few
    for what, seconds in (("in one message", many), ("read alone", read), ("made alone", many - read)):
        print(f"10000 changes {what}, {name}, in 800 KB: {seconds * 1000:.1f} ms, {seconds / (copy / 1000):.0f} copies of the text")
RUNS
