#!/bin/sh
# Questions about names in a program of 50,000 lines with 200,000 occurrences, the assembly being there: hover, definition, and
# references of a symbol that stands in 10,000 places. A session with so many questions more is beside one with few; what a question
# takes is what a question more adds.
set -eu
. "$(dirname "$0")/served.sh"
python3 - "$server" "$work" "$bench" <<'RUNS'
import sys
server, work, bench = sys.argv[1:]
sys.path.insert(0, bench)
sys.dont_write_bytecode = True
from replay import frame, opened, run, write_session
uri = "file:///w/a.hlasm"
LINES, OFTEN, FEW, MANY = 50_000, 10_000, 2, 1_002

# Each line has its label and three symbols: one of them is the same in every fifth line.
def text():
    begin = ["BENCH    CSECT", "OFTEN    EQU   4", "SOME     EQU   8", "OTHER    EQU   1"]
    middle = [f"L{n:05}   EQU   SOME+OTHER+{'OFTEN' if n % 5 == 0 else 'SOME'}" for n in range(LINES - len(begin) - 1)]
    return "".join(line + "\n" for line in begin + middle + ["         END"])

def asked(method, number, line, character, more):
    return frame({"id": number + 10, "method": f"textDocument/{method}", "params": {
        "textDocument": {"uri": uri}, "position": {"line": line, "character": character}, **more}})

def seconds(method, count, at, more):
    path = write_session(f"{work}/session", [opened(uri, words)] + [asked(method, number, *at, more) for number in range(count)])
    runs = [run([server, "serve"], path) for _ in range(3)]
    return min(whole for _, _, whole, _ in runs), runs[0][0]

def question(method, at, more, wanted, many=MANY):
    few, _ = seconds(method, FEW, at, more)
    most, output = seconds(method, many, at, more)
    if output.count(wanted) < many:
        sys.exit(f"{method}: not answered as it should be: {output[-300:]}")
    return (most - few) / (many - FEW) * 1000, output

words = text()
hover, _ = question("hover", (LINES - 3, 20), {}, b'"contents"')
found, _ = question("definition", (LINES - 3, 20), {}, b'"range"')
print(f"hover in {LINES} lines with {LINES * 4} occurrences: {hover:.2f} ms (at most 5)")
print(f"definition there: {found:.2f} ms (at most 5)")
places, output = question("references", (1, 1), {"context": {"includeDeclaration": True}}, b'"id"', many=52)
print(f"references to {output.count(b'range') // 52} places: {places:.1f} ms (at most 60)")
RUNS
