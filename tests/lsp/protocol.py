"""What the tests of the language server share: frames, a server that runs, what `snl_cli` finds in
a text, and a model of what the server has to say."""
import json
import os
import subprocess

from asked import METHODS, wrong_in_answer
from texts import changed, offset_of

LIMIT = 1048576
LONGEST = 67108864
MOST_SHOWN = 1000
LARGE = ": more than 1048576 bytes: not checked"
LOST = ": a change could not be followed: open the file again"
ERRORS = {
    -32700: "parse error",
    -32600: "invalid request",
    -32601: "method not found",
    -32602: "invalid params",
    -32002: "server not initialized",
}


# ---- frames


def frame(message):
    """A message in its frame; a body may be bytes already."""
    body = message if isinstance(message, bytes) else compact(message)
    return b"Content-Length: %d\r\n\r\n%s" % (len(body), body)


def compact(value):
    """The bytes of a value of JSON, as the server writes them."""
    text = json.dumps(value, ensure_ascii=False, sort_keys=True, separators=(",", ":"))
    return text.encode()


def bodies(data):
    """The bodies of whole messages, each in a frame as the server writes it."""
    found = []
    while data:
        head, mark, rest = data.partition(b"\r\n\r\n")
        name, _, number = head.partition(b": ")
        if name != b"Content-Length" or not mark or len(rest) < int(number):
            raise ValueError(f"no whole message: {data[:80]!r}")
        found.append(rest[: int(number)])
        data = rest[int(number) :]
    return found


def request(number, method, params=None):
    message = {"jsonrpc": "2.0", "id": number, "method": method}
    return message if params is None else {**message, "params": params}


def note(method, params=None):
    message = {"jsonrpc": "2.0", "method": method}
    return message if params is None else {**message, "params": params}


def did_open(uri, text, version=0):
    document = {"uri": uri, "languageId": "snl", "version": version, "text": text}
    return note("textDocument/didOpen", {"textDocument": document})


def did_change(uri, changes, version=1):
    document = {"uri": uri, "version": version}
    return note("textDocument/didChange", {"textDocument": document, "contentChanges": changes})


def did_close(uri):
    return note("textDocument/didClose", {"textDocument": {"uri": uri}})


def ask(number, method, uri, line=None, character=None, includes=True):
    """A question on a document, or on a place of it; with or without what is declared, where the
    method asks for that."""
    params = {"textDocument": {"uri": uri}}
    if line is not None:
        params["position"] = {"line": line, "character": character}
    if METHODS[f"textDocument/{method}"].has_context:
        params["context"] = {"includeDeclaration": includes}
    return request(number, f"textDocument/{method}", params)


def initialize(encodings=None):
    general = {} if encodings is None else {"general": {"positionEncodings": encodings}}
    return request(1, "initialize", {"capabilities": general})


def part(start, stop, text):
    """A change of the part between two places, each a line and a character."""
    places = [{"line": line, "character": character} for line, character in (start, stop)]
    return {"range": {"start": places[0], "end": places[1]}, "text": text}


# ---- programs


def run(server, data, **more):
    """Runs the server over bytes: its output, its standard error and its status."""
    made = subprocess.run([server], input=data, capture_output=True, timeout=300, **more)
    return made.stdout, made.stderr, made.returncode


class Server:
    """A server that runs."""

    def __init__(self, *command):
        pipe = subprocess.PIPE
        self.process = subprocess.Popen(command, stdin=pipe, stdout=pipe, stderr=pipe)
        self.into, self.out = self.process.stdin.fileno(), self.process.stdout.fileno()
        self.rest = b""

    def send(self, data):
        data = memoryview(data)
        while data:
            data = data[os.write(self.into, data) :]

    def read(self):
        got = os.read(self.out, 1 << 16)
        if not got:
            raise EOFError("the server has ended")
        return got

    def body(self):
        """The next body. It is there once all that was sent before is answered."""
        while b"\r\n\r\n" not in self.rest:
            self.rest += self.read()
        head, _, rest = self.rest.partition(b"\r\n\r\n")
        length = int(head.rpartition(b":")[2])
        parts, size = [rest], len(rest)
        while size < length:
            parts.append(self.read())
            size += len(parts[-1])
        rest = b"".join(parts)
        self.rest = rest[length:]
        return rest[:length]

    def end(self):
        """What is left of the output, standard error and the status, once the input is closed."""
        out, errors = self.process.communicate(timeout=60)
        return self.rest + out, errors, self.process.returncode


class Checker:
    """A session of `snl_cli`, which is asked what is in texts."""

    def __init__(self, program):
        pipe = subprocess.PIPE
        self.process = subprocess.Popen([program], stdin=pipe, stdout=pipe)
        self.length = 0

    def ask(self, text, command, last):
        """The lines of the answer to a command over a text, up to the last one."""
        script = b"edit 0 %d %d\n%s\n%s\n" % (self.length, len(text), text, command)
        self.process.stdin.write(script)
        self.process.stdin.flush()
        assert self.process.stdout.readline() == b"ok\n"
        self.length = len(text)
        while not (line := self.process.stdout.readline()).startswith(last):
            yield line.rstrip(b"\n")

    def found(self, text):
        """The findings of a text: for each its line from 0 on, its code and its message."""
        findings = []
        for line in self.ask(text, b"check", b"errors "):
            place, _, told = line.partition(b": ")
            code, _, message = told.partition(b" ")
            findings.append((int(place.rpartition(b":")[2]) - 1, code.decode(), message.decode()))
        return findings

    def listed(self, text):
        """The lines of a text's listing."""
        return [line.decode() for line in self.ask(text, b"list", b"end")]

    def end(self):
        self.process.stdin.close()
        self.process.wait()


# ---- the model


class Model:
    """What the server has to say. Of a publish it says the findings, by their lines."""

    def __init__(self, checker):
        self.checker = checker
        self.phase = "new"
        self.is_utf8 = False
        self.documents = {}
        self.status = None

    def heard(self, body):
        """The bodies that are to be answered, as values; a publish has its findings as the checker
        tells them, and the text that they are of."""
        try:
            message = json.loads(body)
        except ValueError:
            return [error(None, -32700)] + self.lose(list(self.documents))
        if not isinstance(message, dict):
            return [error(None, -32600)]
        method = message.get("method")
        if not isinstance(method, str):
            is_response = "result" in message or "error" in message
            return [] if is_response else [error(None, -32600)]
        if "id" in message:
            is_id = isinstance(message["id"], (str, int)) and not isinstance(message["id"], bool)
            if not is_id:
                return [error(None, -32600)]
            return [self.asked(message["id"], method, message.get("params"))]
        return self.told(method, message.get("params"))

    def asked(self, number, method, params):
        if self.phase == "new" and method == "initialize":
            return self.begin(number, params)
        if self.phase == "new":
            return error(number, -32002)
        if self.phase != "ready" or method == "initialize":
            return error(number, -32600)
        if method == "shutdown":
            self.phase = "shut"
            return {"jsonrpc": "2.0", "id": number, "result": None}
        if method in METHODS:
            return self.asked_of_document(number, method, params)
        return error(number, -32601)

    def asked_of_document(self, number, method, params):
        """What is to be answered to a question on a document, by its text if that is checked."""
        try:
            uri = params["textDocument"]["uri"]
            place = params["position"] if METHODS[method].is_of_place else None
            numbers = [] if place is None else [place["line"], place["character"]]
            has_context = METHODS[method].has_context
            includes = params["context"]["includeDeclaration"] if has_context else True
        except (KeyError, TypeError):
            return error(number, -32602)
        if not isinstance(uri, str) or any(not is_number(it) for it in numbers):
            return error(number, -32602)
        if not isinstance(includes, bool):
            return error(number, -32602)
        if uri not in self.documents:
            return error(number, -32602)
        now, _, text = self.documents[uri]
        plain = {"jsonrpc": "2.0", "id": number}
        if now != "checked":
            return {**plain, "result": None}
        rows = self.checker.listed(text) if place is None else None
        asked = {"method": method, "uri": uri, "place": numbers, "text": text, "rows": rows}
        asked["includes"] = includes
        return {"asked": asked, "plain": plain}

    def begin(self, number, params):
        self.phase = "ready"
        try:
            self.is_utf8 = "utf-8" in params["capabilities"]["general"]["positionEncodings"]
        except (KeyError, TypeError):
            self.is_utf8 = False
        return initialized(number, "utf-8" if self.is_utf8 else "utf-16")

    def told(self, method, params):
        if method == "exit":
            self.status = 0 if self.phase == "shut" else 1
            self.phase = "gone"
        elif self.phase != "ready" or not method.startswith("textDocument/did"):
            pass
        elif method == "textDocument/didOpen":
            document = params["textDocument"]
            self.documents[document["uri"]] = "checked", None, b""
            text = document["text"].encode()
            return self.publish(document["uri"], document.get("version"), text)
        elif method == "textDocument/didChange":
            return self.change(params)
        elif method == "textDocument/didClose":
            uri = params["textDocument"]["uri"]
            self.documents.pop(uri, None)
            return [published(uri, None, [], b"")]
        return []

    def change(self, params):
        uri = params["textDocument"]["uri"]
        if uri not in self.documents:
            return []
        text = self.documents[uri][2]
        for it in params["contentChanges"]:
            text = changed(text, it, self.is_utf8)
        return self.publish(uri, params["textDocument"].get("version"), text)

    def lose(self, uris):
        return [it for uri in uris for it in self.publish(uri, None, None)]

    def publish(self, uri, version, text):
        """What is told of a document whose text is another one now."""
        if text is not None and len(text) > LONGEST:
            text = None
        before = self.documents[uri][0]
        now = "lost" if text is None else "large" if len(text) > LIMIT else "checked"
        self.documents[uri] = now, version, text
        if now == "checked":
            return [published(uri, version, self.checker.found(text)[:MOST_SHOWN], text)]
        if now == before:
            return []
        notice = (1, LOST) if now == "lost" else (2, LARGE)
        params = {"type": notice[0], "message": uri + notice[1]}
        return [
            published(uri, version, [], b""),
            {"jsonrpc": "2.0", "method": "window/showMessage", "params": params},
        ]


def is_number(value):
    """Whether it is an integer of 64 bits, from 0 on."""
    return isinstance(value, int) and not isinstance(value, bool) and 0 <= value < 2**64


def initialized(number, encoding):
    """The answer to `initialize`."""
    capabilities = {
        **{it.provider: True for it in METHODS.values()},
        "positionEncoding": encoding,
        "textDocumentSync": {"change": 2, "openClose": True},
    }
    result = {"capabilities": capabilities, "serverInfo": {"name": "snl_lsp"}}
    return {"jsonrpc": "2.0", "id": number, "result": result}


def error(number, code):
    return {"jsonrpc": "2.0", "id": number, "error": {"code": code, "message": ERRORS[code]}}


def published(uri, version, findings, text):
    number = {} if version is None else {"version": version}
    return {"findings": findings, "text": text, "params": {"uri": uri, **number}}


def wrong_in(body, wanted, is_utf8):
    """What is wrong with a body; nothing, where it is what the model wants."""
    value = json.loads(body)
    if compact(value) != body:
        return f"not in its plain form: {body!r}"
    if "asked" in wanted:
        result = value.pop("result", "none")
        if value != wanted["plain"]:
            return f"{value} in place of {wanted['plain']}"
        return wrong_in_answer(result, wanted["asked"], is_utf8)
    if "findings" not in wanted:
        return "" if value == wanted else f"{value} in place of {wanted}"
    items = value.get("params", {}).pop("diagnostics", None)
    plain = {"jsonrpc": "2.0", "method": "textDocument/publishDiagnostics"}
    if value != {**plain, "params": wanted["params"]}:
        return f"{value} in place of a publish of {wanted['params']}"
    told = [(it["range"]["start"]["line"], it["code"], it["message"]) for it in items]
    if told != wanted["findings"]:
        return f"{told} in place of {wanted['findings']}"
    wrong = (wrong_in_item(it, wanted["text"], is_utf8) for it in items)
    return next((it for it in wrong if it), "")


def wrong_in_item(item, text, is_utf8):
    """What is wrong with a diagnostic, but for its line, its code and its message."""
    offsets = [
        offset_of(text, item["range"][end]["line"], item["range"][end]["character"], is_utf8)
        for end in ("start", "end")
    ]
    there = text[offsets[0] : offsets[1]].decode()
    quoted = item["message"].endswith("'") and item["message"].partition(" '")[2][:-1]
    if quoted and there != quoted:
        return f"{there!r} is at {item}"
    if offsets[0] > offsets[1] or item["severity"] != (2 if item["code"][0] == "W" else 1):
        return f"wrong: {item}"
    return "" if item["source"] == "snl" and len(item) == 5 else f"wrong: {item}"


def compare(model, sent, answers):
    """Compares the answers to bodies with what the model says: for each body what is wrong."""
    left = list(answers)
    for body in sent:
        for wanted in model.heard(body):
            if not left:
                yield f"no answer {wanted}"
                return
            yield wrong_in(left.pop(0), wanted, model.is_utf8)
        if model.status is not None:
            break
    yield f"{len(left)} answers more: {left[0][:200]!r}" if left else ""
