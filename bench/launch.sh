#!/bin/sh
# What a debugger costs in a session of the built program: a launch of a program with 100,000 points up to its first stop, beside
# the assembly of the same program up to its list; a step to a breakpoint at its last point; and the 500 variables of a call there.
set -eu
. "$(dirname "$0")/served.sh"
python3 - "$server" "$bench" <<'RUNS'
import json, subprocess, sys, time
server, bench = sys.argv[1:]
sys.path.insert(0, bench)
sys.dont_write_bytecode = True
from replay import frame, opened

# A macro of nine statements, and one that sets 500 elements of an array and stops behind them.
NINE = "         MACRO\n         NINE  &P\n         LCLA  &I\n" + "&I       SETA  &I+&P\n" * 8 + "         MEND\n"
MANY = ("         MACRO\n         MANY\n         ACTR  2000\n         LCLA  &I,&V(500)\n.NEXT    ANOP\n&I       SETA  &I+1\n"
        "&V(&I)   SETA  &I\n         AIF   (&I LT 500).NEXT\n         ANOP\n         MEND\n")
TEXT = NINE + MANY + "         NINE  1\n" * 9_800 + "         MANY\n         END\n"
LINES = TEXT.split("\n")
SHOWN = LINES.index("         ANOP") + 1


class Session:
    """A session with the server, and debug session 1 in it."""

    def __init__(self):
        self.process = subprocess.Popen([server, "serve", "--budget", "400000"], stdin=subprocess.PIPE, stdout=subprocess.PIPE)
        self.send(frame({"id": 1, "method": "initialize", "params": {}}))
        self.until(lambda message: "result" in message)

    def send(self, data):
        self.process.stdin.write(data)
        self.process.stdin.flush()

    def until(self, wanted):
        while True:
            length = int(self.process.stdout.readline().split(b":")[1])
            self.process.stdout.readline()
            message = json.loads(self.process.stdout.read(length))
            if wanted(message):
                return message

    def ask(self, wanted, *requests):
        """The milliseconds from these requests to a message of the debug session, and that message."""
        start = time.perf_counter()
        for command, arguments in requests:
            message = {"seq": 1, "type": "request", "command": command, "arguments": arguments}
            self.send(frame({"method": "hlasm/dap", "params": {"session": 1, "message": message}}))
        found = self.until(lambda message: message["method"] == "hlasm/dap" and wanted(message["params"]["message"]))
        return (time.perf_counter() - start) * 1000, found["params"]["message"]

    def list_of(self, text):
        """The milliseconds from the opening of a text to its list, which is to be empty."""
        start = time.perf_counter()
        self.send(opened("file:///w/a.hlasm", text))
        found = self.until(lambda message: message.get("method") == "textDocument/publishDiagnostics")
        if found["params"]["diagnostics"]:
            sys.exit(f"the program has notes: {found['params']['diagnostics'][:3]}")
        return (time.perf_counter() - start) * 1000


def stops(reason):
    return lambda message: message.get("event") == "stopped" and message["body"]["reason"] == reason


def answers(command):
    return lambda message: message.get("command") == command


best = {}
for _ in range(5):
    session = Session()
    times = {"list": session.list_of(TEXT)}
    session.ask(answers("initialize"), ("initialize", {}))
    times["launch"], _ = session.ask(stops("entry"), ("launch", {"program": "/w/a.hlasm", "stopOnEntry": True}), ("configurationDone", {}))
    place = {"source": {"path": "/w/a.hlasm"}, "breakpoints": [{"line": SHOWN}]}
    session.ask(answers("setBreakpoints"), ("setBreakpoints", place))
    times["stop"], _ = session.ask(stops("breakpoint"), ("continue", {}))
    times["variables"], shown = session.ask(answers("variables"), ("variables", {"variablesReference": 1}))
    count = len(shown["body"]["variables"])
    session.process.kill()
    session.process.wait()
    best = {name: min(best.get(name, 1e9), value) for name, value in times.items()}
print(f"list: {best['list']:.1f} ms from the opening of a program with about 100,000 points")
print(f"launch: {best['launch']:.1f} ms up to the first stop, {best['launch'] / best['list']:.2f} times as long (at most 1.2)")
print(f"stop: {best['stop']:.2f} ms to a breakpoint behind nearly all points (at most 5)")
print(f"variables: {best['variables']:.2f} ms for {count} variables there (at most 20)")
RUNS
