#!/usr/bin/env python3
"""Whether each body of conversations.json that is to be written has the shape that the Language Server Protocol 3.17 gives it: a
reply by the method of its request, a notification by its own. check.py compares the program's bytes with these bodies.

The shapes stand below as the interfaces of the protocol, members that may be missing with a question mark. The protocol lets a
message have other members; here it has none. What `hlasm/dap` carries is the Debug Adapter Protocol's, and is not looked at.

Usage: shapes.py
"""
import json
import os
import sys

HERE = os.path.dirname(os.path.realpath(__file__))
MOST = 2 ** 31 - 1

SHAPES = {
    "Position": {"line": "uinteger", "character": "uinteger"},
    "Range": {"start": "Position", "end": "Position"},
    "Location": {"uri": "string", "range": "Range"},
    "DiagnosticRelatedInformation": {"location": "Location", "message": "string"},
    "Diagnostic": {"range": "Range", "severity?": (1, 2, 3, 4), "code?": ["integer", "string"], "source?": "string", "message": "string",
                   "relatedInformation?": ("DiagnosticRelatedInformation[]",)},
    "PublishDiagnosticsParams": {"uri": "string", "version?": "integer", "diagnostics": "Diagnostic[]"},
    "LogMessageParams": {"type": (1, 2, 3, 4), "message": "string"},
    "DebugParams": {"session": "uinteger", "message": "object"},
    "MarkupContent": {"kind": ("plaintext", "markdown"), "value": "string"},
    "Hover": {"contents": "MarkupContent", "range?": "Range"},
    "DocumentSymbol": {"name": "string", "detail?": "string", "kind": tuple(range(1, 27)), "range": "Range", "selectionRange": "Range",
                       "children?": "DocumentSymbol[]"},
    "TextDocumentSyncOptions": {"openClose?": "boolean", "change?": (0, 1, 2)},
    "ServerCapabilities": {"positionEncoding?": ("utf-8", "utf-16", "utf-32"), "textDocumentSync?": "TextDocumentSyncOptions",
                           "hoverProvider?": "boolean", "definitionProvider?": "boolean", "referencesProvider?": "boolean",
                           "documentSymbolProvider?": "boolean"},
    "ServerInfo": {"name": "string", "version?": "string"},
    "InitializeResult": {"capabilities": "ServerCapabilities", "serverInfo?": "ServerInfo"},
    "ResponseError": {"code": "integer", "message": "string"},
}
RESULTS = {
    "initialize": ["InitializeResult"],
    "shutdown": ["null"],
    "textDocument/hover": ["Hover", "null"],
    "textDocument/definition": ["Location", "Location[]", "null"],
    "textDocument/references": ["Location[]", "null"],
    "textDocument/documentSymbol": ["DocumentSymbol[]", "null"],
}
PARAMS = {"textDocument/publishDiagnostics": "PublishDiagnosticsParams", "window/logMessage": "LogMessageParams",
          "hlasm/dap": "DebugParams"}
PLAIN = {
    "string": lambda v: isinstance(v, str),
    "boolean": lambda v: isinstance(v, bool),
    "integer": lambda v: type(v) is int and -MOST - 1 <= v <= MOST,
    "uinteger": lambda v: type(v) is int and 0 <= v <= MOST,
    "object": lambda v: isinstance(v, dict),
    "null": lambda v: v is None,
}


def place(position):
    return position["line"], position["character"]


def is_in_order(name, value):
    """What the protocol asks of some values beside their members."""
    if name == "Range":
        return place(value["start"]) <= place(value["end"])
    if name == "DocumentSymbol":
        whole, part = value["range"], value["selectionRange"]
        return place(whole["start"]) <= place(part["start"]) and place(part["end"]) <= place(whole["end"])
    return True


def has_members(shape, value):
    wanted = {name.rstrip("?"): kind for name, kind in shape.items()}
    missing = {name for name in shape if not name.endswith("?")} - value.keys()
    return not missing and value.keys() <= wanted.keys() and all(fits(wanted[name], it) for name, it in value.items())


def fits(kind, value):
    """Whether a value is of a kind: one of a list of kinds, one of a tuple of values or kinds of lists, or the kind of a name."""
    if isinstance(kind, list):
        return any(fits(one, value) for one in kind)
    if isinstance(kind, tuple):
        return any(fits(one, value) if str(one).endswith("[]") else type(one) is type(value) and one == value for one in kind)
    if kind.endswith("[]"):
        return isinstance(value, list) and all(fits(kind[:-2], one) for one in value)
    if kind in PLAIN:
        return PLAIN[kind](value)
    return isinstance(value, dict) and has_members(SHAPES[kind], value) and is_in_order(kind, value)


def asked(says):
    """The method of each request that is sent, by its id."""
    methods = {}
    for body in says:
        try:
            message = json.loads(body)
        except ValueError:
            continue
        if isinstance(message, dict) and "id" in message and isinstance(message.get("method"), str):
            methods.setdefault(json.dumps(message["id"]), []).append(message["method"])
    return methods


def is_reply(message, methods):
    """A reply: it has a result of a request that was sent, or an error, for which the id may be unknown."""
    if "error" in message:
        return message.keys() == {"jsonrpc", "id", "error"} and fits(["integer", "string", "null"], message["id"]) \
            and fits("ResponseError", message["error"])
    return message.keys() == {"jsonrpc", "id", "result"} \
        and any(fits(RESULTS.get(method, []), message["result"]) for method in methods.get(json.dumps(message["id"]), []))


def is_right(body, methods):
    message = json.loads(body)
    if message["jsonrpc"] != "2.0":
        return False
    if "method" in message:
        return message.keys() == {"jsonrpc", "method", "params"} and message["method"] in PARAMS \
            and fits(PARAMS[message["method"]], message["params"])
    return is_reply(message, methods)


def main():
    sys.path.insert(0, HERE)
    sys.dont_write_bytecode = True
    from check import INITIALIZE, OFFER
    with open(os.path.join(HERE, "conversations.json"), encoding="utf-8") as file:
        rows = json.load(file)
    right, wrong = 0, 0
    for row in rows:
        methods = asked(INITIALIZE if body == "initialize" else body for body in row["says"])
        for body in row["hears"]:
            body = OFFER if body == "offer" else body
            if is_right(body, methods):
                right += 1
            else:
                wrong += 1
                print(f"{row['shows']}: not a message of the protocol: {body}")
    print(f"shapes: {right} bodies have that of the protocol, {wrong} not")
    return 1 if wrong else 0


if __name__ == "__main__":
    sys.exit(main())
