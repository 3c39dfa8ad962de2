#!/usr/bin/env python3
"""Messages of whole sessions with the built program, read strictly by the types of the Language Server Protocol as another project
has them: the headers of Qt's language server, which a script of that project made from the specification. If they are not installed
it says so and ends with 77: skipped.

The sessions are the conversations of tests/conversations, run anew; what hlasm-lint asks of the examples; the questions of names.py;
the extension for VS Code, where there is node, and the questions of neovim_names.py, where there is Neovim. Of each session are read

- every message that the program writes: results by the method of their request, errors by their type and the codes of the
  protocol, notifications by their method;
- every message that these clients send. Those of the conversations are often wrong on purpose: of them a request that is answered
  has the arguments of its method, and one that is refused for its arguments has not.

Strictly means: each member that has to be there is there, none is there that the type has not, and each has its kind; where there are
several kinds, it has one of them. The interfaces that tests/conversations/shapes.py has of its own are compared with these types.

What this does not tell: the headers have 3.16, so `positionEncoding` of 3.17 is taken for a text; they do not tell unsigned numbers from
others, and leave the kind of a symbol and `serverInfo` open. shapes.py looks at all of these, and at the order of places. Which
capabilities a client has is not read. What messages mean is not asked here. `hlasm/dap` and what it carries are not of the protocol.

Usage: protocol.py [--server PATH] [--types FOLDER]
"""
import argparse
import glob
import json
import os
import re
import shutil
import subprocess
import sys
import tempfile
from collections import Counter

sys.dont_write_bytecode = True
import names
import neovim_names
import vscode
from names import BUILT, TOP, read, write

sys.path.insert(0, os.path.join(TOP, "tests/conversations"))
import check as conversations
import shapes

SKIPPED = 77
FOLDERS = "/usr/include/*/qt6/QtLanguageServer/*/QtLanguageServer/private"
HEADERS = ["qlanguageserverprespectypes_p.h", "qlanguageserverspectypes_p.h", "qlanguageserverspec_p.h"]
MOST = 2 ** 31 - 1
WRONG_ARGUMENTS = -32602
# What the project has beside the protocol.
OWN = {"hlasm/dap"}
# Members that 3.17 has and the headers do not, with their types.
LATER = {"ServerCapabilities": {"positionEncoding": "std::optional<QByteArray>"}}

PLAIN = {
    "bool": lambda v: isinstance(v, bool),
    "int": lambda v: type(v) is int and -MOST - 1 <= v <= MOST,
    "double": lambda v: type(v) in (int, float),
    "QByteArray": lambda v: isinstance(v, str),
    "QString": lambda v: isinstance(v, str),
    "QJsonObject": lambda v: isinstance(v, dict),
    "QJsonValue": lambda v: True,
    # What a client can do, of which each version of the protocol has more, and the program reads nothing.
    "ClientCapabilities": lambda v: isinstance(v, dict),
    "std::nullptr_t": lambda v: v is None,
}
OPTIONAL = ("std::optional", "std::unique_ptr")

# The rest of a program that runs another and keeps what goes through its pipes; it ends when that one does, with its status.
RECORDER = """
import os, subprocess, sys, tempfile, threading

def copy(source, sink, path):
    with open(path, "wb", buffering=0) as file:
        while data := os.read(source, 65536):
            file.write(data)
            while data:
                data = data[os.write(sink, data):]
    os.close(sink)

path = tempfile.mktemp(prefix="session.", dir=ROOM)
process = subprocess.Popen([PROGRAM, *sys.argv[1:]], stdin=subprocess.PIPE, stdout=subprocess.PIPE)
threading.Thread(target=copy, args=(0, os.dup(process.stdin.fileno()), path), daemon=True).start()
process.stdin.close()
copy(process.stdout.fileno(), 1, path + ".written")
os._exit(process.wait())
"""


# ---- the types


def parsed(text):
    """A type as its name and the types that it is made of."""
    words = re.findall(r"[\w:]+|[<>]", text)

    def one():
        name, parts = words.pop(0), []
        if words and words[0] == "<":
            words.pop(0)
            while words[0] != ">":
                parts.append(one())
            words.pop(0)
        return name, parts

    return one()


def enumerators(body):
    """The values of an enumeration; those without a number stand for texts."""
    found = {}
    for part in re.sub(r"/\*.*?\*/|//[^\n]*", "", body, flags=re.S).split(","):
        name, _, value = part.partition("=")
        if name.strip():
            found[name.strip()] = found.get(value.strip(), int(value) if re.fullmatch(r"\s*-?\d+\s*", value) else None)
    return found


class Types:
    """The types of the headers."""

    def __init__(self, folder):
        before, types, methods = (read(os.path.join(folder, name)) for name in HEADERS)
        text = before + types
        self.enums = {name: enumerators(body) for name, body in re.findall(r"enum class (\w+) \{(.*?)\};", text, re.S)}
        self.aliases = dict(re.findall(r"^using (\w+) =\s*(.*?);", text, re.S | re.M))
        self.bodies = {name: (bases, body) for name, bases, body in
                       re.findall(r"^class Q_LANGUAGESERVER_EXPORT (\w+)\s*([^{;]*)\{\n(.*?)^\};", text, re.S | re.M)}
        self.params, self.results = {}, {}
        requests, responses, notifications = (re.search(rf"namespace {name} {{(.*?)^}}", methods, re.S | re.M)[1]
                                              for name in ("Requests", "Responses", "Notifications"))
        results = dict(re.findall(r"using (\w+)ResultType =\s*(.*?);", responses, re.S))
        for part in (requests, notifications):
            params = dict(re.findall(r"using (\w+)ParamsType =\s*(.*?);", part, re.S))
            for name, method in re.findall(r'constexpr auto (\w+)Method = "(.*?)"', part):
                self.params[method] = params.get(name, "QJsonValue")
                if part is requests:
                    self.results[method] = results[name]

    def members(self, name):
        """The members of a class and of those that it stands on, each with its type."""
        bases, body = self.bodies[name]
        found = dict(LATER.get(name, {}))
        for base in re.findall(r"\w+", bases):
            found.update(self.members(base) if base != "public" else {})
        declared, _, walk = body.partition("template<typename W>")
        kinds = {variable: kind for kind, variable in re.findall(r"([\w:]+(?:<[^;{}]*>)?)\s+(\w+)(?: = [^;]*)?;", declared)}
        found.update({member: kinds[variable] for member, variable in re.findall(r'field\(w, "(\w+)", (\w+)\)', walk)})
        return found

    def fault(self, kind, value, where):
        """What is wrong with a value, if anything: it is to be of a type, as text or parsed."""
        name, parts = parsed(kind) if isinstance(kind, str) else kind
        if name in PLAIN:
            return None if PLAIN[name](value) else f"{where} is no {name}"
        if name in OPTIONAL:
            return self.fault(parts[0], value, where)
        if name == "std::variant":
            faults = [self.fault(part, value, where) for part in parts]
            return None if None in faults else "; ".join(faults)
        if name == "QList":
            return self.fault_of_list(parts[0], value, where)
        if name in self.enums:
            return None if is_one_of(self.enums[name], value) else f"{where} is no {name}"
        if name in self.aliases:
            return self.fault(self.aliases[name], value, where)
        return self.fault_of_object(name, value, where)

    def fault_of_list(self, kind, value, where):
        if not isinstance(value, list):
            return f"{where} is no list"
        return next(filter(None, (self.fault(kind, one, f"{where}[{at}]") for at, one in enumerate(value))), None)

    def fault_of_object(self, name, value, where):
        if not isinstance(value, dict):
            return f"{where} is no {name}"
        members = {member: parsed(kind) for member, kind in self.members(name).items()}
        missing = {member for member, (kind, _) in members.items() if kind not in OPTIONAL} - value.keys()
        others = value.keys() - members.keys()
        if missing or others:
            return f"{where} as a {name} lacks {sorted(missing)} and has {sorted(others)} beside"
        return next(filter(None, (self.fault(members[member], one, f"{where}.{member}") for member, one in value.items())), None)


def is_one_of(values, value):
    """Whether a value is one of an enumeration: a number, or a text, for which Qt's name begins with a capital."""
    if isinstance(value, str):
        return value.lower() in {name.lower() for name, number in values.items() if number is None}
    return type(value) is int and value in values.values()


# ---- messages


def bodies_in(data):
    """The bodies in a stream of frames."""
    bodies = []
    while data:
        head, _, data = data.partition(b"\r\n\r\n")
        length = int(re.search(rb"(?i)content-length: *(\d+)", head)[1])
        bodies.append(data[:length])
        data = data[length:]
    return bodies


def message_of(body):
    """The message of a body, or None if it is none."""
    try:
        message = json.loads(body)
    except ValueError:
        return None
    return message if isinstance(message, dict) else None


def by_id(sent):
    """The requests that were sent, by their identifiers."""
    found = {}
    for message in sent:
        if message and "id" in message and isinstance(message.get("method"), str):
            found.setdefault(json.dumps(message["id"]), []).append(message)
    return found


def fault_of_params(types, message):
    """What is wrong with the arguments of a message. Where the protocol has none, none may be there."""
    kind = types.params[message["method"]]
    if kind == "std::nullptr_t" and "params" not in message:
        return None
    if "params" not in message:
        return f"{message['method']} has no arguments"
    return types.fault(kind, message["params"], "params")


def fault_of_error(types, message, requests):
    error = message["error"]
    fault = types.fault("ResponseError", error, "error")
    if fault:
        return fault
    if error["code"] not in types.enums["ErrorCodes"].values():
        return f"{error['code']} is no code of the protocol"
    if message["id"] is not None and json.dumps(message["id"]) not in requests:
        return "no such request was sent"
    return None


def fault_of_result(types, message, requests):
    asked = [it["method"] for it in requests.get(json.dumps(message["id"]), []) if it["method"] in types.results]
    if not asked:
        return "no such request was sent"
    faults = [types.fault(types.results[method], message["result"], "result") for method in asked]
    return None if None in faults else faults[0]


def fault_written(types, message, requests):
    """What is wrong with a message that the program writes. The form of messages is that of JSON-RPC 2.0."""
    if message is None or message.get("jsonrpc") != "2.0":
        return "not a message"
    keys = message.keys() - {"jsonrpc"}
    if keys == {"id", "error"}:
        return fault_of_error(types, message, requests)
    if keys == {"id", "result"}:
        return fault_of_result(types, message, requests)
    if keys == {"method", "params"} and message["method"] in types.params.keys() - types.results.keys():
        return fault_of_params(types, message)
    return "neither an answer nor a notification of the protocol"


def fault_sent(types, message):
    """What is wrong with a message of a client that is to be right."""
    if message is None or message.get("jsonrpc") != "2.0" or message.keys() - {"jsonrpc", "id", "method", "params"}:
        return "not a message"
    if message.get("method") not in types.params:
        return "no method of the protocol"
    if ("id" in message) != (message["method"] in types.results):
        return "a request without an identifier, or a notification with one"
    return fault_of_params(types, message)


def is_own(message):
    return bool(message) and message.get("method") in OWN


# ---- sessions


def of_conversations(program):
    """Each conversation, run anew: its name, what is sent and what is written."""
    with open(os.path.join(TOP, "tests/conversations/conversations.json"), encoding="utf-8") as file:
        rows = json.load(file)
    for row in rows:
        says = [conversations.INITIALIZE if body == "initialize" else body for body in row["says"]]
        run = conversations.run_at_once if row.get("at_once") else conversations.run_in_turn
        written, _, _ = run([program, *row.get("words", ["serve"])], says)
        yield row["shows"], says, bodies_in(written)


def recorder(program, room):
    """A program that is the server, and keeps what goes in and out of it in files of the room."""
    write(f"{room}/server", f"#!{sys.executable}\nPROGRAM, ROOM = {program!r}, {room!r}\n{RECORDER}")
    os.chmod(f"{room}/server", 0o755)
    return f"{room}/server"


def kept(what, room):
    """The sessions that were kept: each with its name, what was sent and what was written."""
    for number, path in enumerate(sorted(glob.glob(f"{room}/session.????????"))):
        sent, written = (open(it, "rb").read() for it in (path, f"{path}.written"))
        yield f"{what}, session {number + 1}", bodies_in(sent), bodies_in(written)


def lint(server, _):
    for words in ([f"{TOP}/examples/first.hlasm"], ["--related", "--root", names.LIBRARY, names.LIBRARY]):
        ran = subprocess.run([sys.executable, f"{TOP}/clients/hlasm-lint", "--server", server, *words], capture_output=True, timeout=60)
        if ran.returncode not in (0, 1):
            yield f"ended with {ran.returncode}: {ran.stderr}"


def names_asked(server, room):
    yield from names.faults_of_page(server, f"{room}/page")
    yield from names.faults_of_library(server)


def extension(server, _):
    vscode.server = server
    vscode.started()
    return []


def neovim(server, room):
    return neovim_names.check(shutil.which("nvim"), server, f"{room}/neovim")[1]


def of_clients(program, faults):
    """The sessions of clients. What fails in them is added to the faults."""
    runs = [("hlasm-lint", lint, True), ("names.py", names_asked, True), ("the extension for VS Code", extension, shutil.which("node")),
            ("Neovim", neovim, shutil.which("nvim"))]
    for what, run, is_there in runs:
        with tempfile.TemporaryDirectory(prefix="hlasm-protocol-") as room:
            room = os.path.realpath(room)
            try:
                faults += [f"{what}: {fault}" for fault in (run(recorder(program, room), room) if is_there else [])]
            except (Exception, SystemExit) as fault:
                faults.append(f"{what}: {fault!r}")
            yield from kept(what, room)


# ---- faults


def kind_of(message, requests):
    """What a message that is written is an example of."""
    if "method" in message:
        return message["method"]
    return "error" if "error" in message else requests[json.dumps(message["id"])][0]["method"]


def faults_written(types, what, sent, written, seen):
    requests = by_id(sent)
    for message in written:
        if is_own(message):
            continue
        fault = fault_written(types, message, requests)
        if fault:
            yield f"{what}: {fault}: the program writes {message}"
        else:
            seen.update([kind_of(message, requests)])


def is_of_a_file(params):
    """Whether arguments name a file, if they name a document: of other documents nothing is answered."""
    document = params.get("textDocument") if isinstance(params, dict) else None
    return not document or document["uri"].startswith("file:")


def faults_of_conversation(types, what, sent, written):
    """The requests that are answered with arguments that are wrong, or refused for some that are right. `initialize` has none here."""
    replies = {json.dumps(it["id"]): it for it in written if it and "id" in it}
    for key, (asked, *others) in by_id(sent).items():
        reply, method = replies.get(key), asked["method"]
        if others or not reply or method not in types.results or method == "initialize":
            continue
        fault = fault_of_params(types, asked)
        refused = reply.get("error", {}).get("code") == WRONG_ARGUMENTS
        if "result" in reply and fault:
            yield f"{what}: {fault}: answered all the same: {asked}"
        if refused and not fault and is_of_a_file(asked["params"]):
            yield f"{what}: refused for its arguments, which are right: {asked}"


def faults_sent(types, what, sent):
    for message in sent:
        fault = None if is_own(message) else fault_sent(types, message)
        if fault:
            yield f"{what}: {fault}: the client sends {message}"


def agrees(types, shape, kind):
    """Whether a kind of shapes.py is one of those that a type has."""
    name, parts = kind
    if isinstance(shape, list):
        return all(agrees(types, one, kind) for one in shape)
    if name in OPTIONAL or name == "std::variant":
        return any(agrees(types, shape, part) for part in parts)
    if isinstance(shape, tuple):
        if name == "QList":
            return agrees(types, shape[0], kind)
        return name in ("QJsonValue", "QByteArray") or name in types.enums and all(is_one_of(types.enums[name], one) for one in shape)
    if name == "QList":
        return shape.endswith("[]") and agrees(types, shape[:-2], parts[0])
    plain = {"string": "QByteArray", "boolean": "bool", "integer": "int", "uinteger": "int", "null": "std::nullptr_t"}
    return name == plain.get(shape, shape) or name == "QJsonObject" and shape == "ServerInfo"


def faults_of_shapes(types):
    """Where the interfaces of shapes.py are not those of the headers."""
    for name, shape in shapes.SHAPES.items():
        if name not in types.bodies:
            continue
        members = {member: parsed(kind) for member, kind in types.members(name).items()}
        needed = {member for member, (kind, _) in members.items() if kind not in OPTIONAL}
        if needed != {member for member in shape if not member.endswith("?")}:
            yield f"shapes.py: {name} has to have {sorted(needed)}"
        for member, kind in shape.items():
            found = members.get(member.rstrip("?"))
            if not found or not agrees(types, kind, found):
                yield f"shapes.py: {member} of {name} is {kind}, and in the headers {found}"
    for method, kinds in shapes.RESULTS.items():
        if not agrees(types, kinds, parsed(types.results[method])):
            yield f"shapes.py: {method} is answered by {kinds}, and in the headers by {types.results[method]}"


# ---- what has to be seen, and what has to be refused

HERE = {"uri": "file:///w/a", "range": {"start": {"line": 0, "character": 0}, "end": {"line": 0, "character": 1}}}
RANGE = HERE["range"]

KINDS = {"initialize", "shutdown", "textDocument/hover", "textDocument/definition", "textDocument/references",
         "textDocument/documentSymbol", "textDocument/publishDiagnostics", "window/logMessage", "error"}

# Of types, values that are not of them, each by one thing that is wrong.
WRONG = [
    ("Position", {"line": 0}), ("Position", {"line": 0, "character": "0"}), ("Position", {"line": 0, "character": 0.5}),
    ("Position", {"line": 0, "character": True}), ("Position", {"line": 2 ** 31, "character": 0}),
    ("Range", {"start": RANGE["start"], "end": None}), ("Location", {**HERE, "line": 0}), ("Location", {"range": RANGE}),
    ("Diagnostic", {"range": RANGE, "message": "m", "severity": 5}), ("Diagnostic", {"range": RANGE, "message": "m", "code": None}),
    ("Diagnostic", {"range": RANGE, "message": "m", "relatedInformation": [{"location": HERE}]}), ("Diagnostic", {"message": "m"}),
    ("PublishDiagnosticsParams", {"uri": "file:///w/a"}), ("PublishDiagnosticsParams", {"uri": "u", "diagnostics": None}),
    ("LogMessageParams", {"type": 0, "message": "m"}), ("LogMessageParams", {"type": 5, "message": "m"}),
    ("Hover", {"contents": {"kind": "plain", "value": "v"}}), ("Hover", {"contents": {"kind": "plaintext"}}), ("Hover", {}),
    ("DocumentSymbol", {"name": "A", "kind": 13, "range": RANGE}), ("InitializeResult", {"capabilities": {"hoverProvider": 1}}),
    ("InitializeResult", {"capabilities": {"textDocumentSync": {"change": 3}}}), ("InitializeResult", {"capabilities": {"x": True}}),
    ("ResponseError", {"code": -32602}), ("ResponseError", {"code": "-32602", "message": "m"}),
]


def faults_of_reading(types, seen):
    """What the reading itself missed."""
    yield from (f"nothing was written of {kind}" for kind in sorted(KINDS - seen.keys()))
    yield from (f"{value} passes for a {name}" for name, value in WRONG if not types.fault(name, value, "value"))


def check(types, program):
    seen, count, faults = Counter(), 0, []
    for is_conversation, sessions in ((True, of_conversations(program)), (False, of_clients(program, faults))):
        for what, sent, written in sessions:
            sent, written = list(map(message_of, sent)), list(map(message_of, written))
            faults += faults_written(types, what, sent, written, seen)
            if is_conversation:
                faults += faults_of_conversation(types, what, sent, written)
            else:
                faults += faults_sent(types, what, sent)
                count += len(sent)
    return seen, count, [*faults, *faults_of_shapes(types), *faults_of_reading(types, seen)]


def main():
    parser = argparse.ArgumentParser(description=__doc__.partition("\n\n")[0])
    parser.add_argument("--server", default=BUILT, type=os.path.abspath, help="the program hlasm_ls (default: the built one)")
    parser.add_argument("--types", default=next(iter(sorted(glob.glob(FOLDERS))), ""), help="the folder with Qt's headers")
    words = parser.parse_args()
    if not all(os.path.exists(os.path.join(words.types, name)) for name in HEADERS):
        print("protocol.py: skipped, Qt's language server is not there (apt-get install qt6-languageserver-private-dev)")
        return SKIPPED
    if not os.access(words.server, os.X_OK):
        sys.exit(f"protocol.py: there is no program {words.server}: make run builds it")
    seen, count, faults = check(Types(words.types), words.server)
    for fault in faults:
        print(f"FAIL {fault}")
    print(f"protocol.py: {sum(seen.values())} messages that the program writes and {count} of clients, {len(faults)} faults")
    return 1 if faults else 0


if __name__ == "__main__":
    sys.exit(main())
