"""Input as bytes, well formed and not: what the server answers, its status, its line of a fault."""
import json
import os
import subprocess
import tempfile

from protocol import (
    LOST, Checker, Model, Server, bodies, compare, did_change, did_close, did_open, error, frame,
    initialize, initialized, note, part, request, run,
)

PUMP = "program pump\nint x;\nss s { state a { when (x) { } state b } state c { } }\n"
SOUND = "program p ss s { state a { when () { } exit } }"
URI = "file:///a.stt"
BEGIN = frame(initialize()) + frame(note("initialized", {}))
END = frame(request(2, "shutdown")) + frame(note("exit"))
STARTED = initialized(1, "utf-16")
SHUT = {"id": 2, "jsonrpc": "2.0", "result": None}


# Of each: its name, the input, the answers, the status and the line on standard error.
def table():
    yield "nothing", b"", [], 1, b""
    yield "bytes after exit", BEGIN + END + b"GET /", [STARTED, SHUT], 0, b""
    yield "exit without shutdown", BEGIN + frame(note("exit")), [STARTED], 1, b""
    yield "exit before initialize", frame(note("exit")), [], 1, b""
    yield "the input ends", BEGIN, [STARTED], 1, b""
    for name, data, answers in between():
        yield name, BEGIN + data + END, [STARTED, *answers, SHUT], 0, b""
    first = [error(7, -32002), error(8, -32002), STARTED, SHUT, error(7, -32600)]
    data = frame(request(7, "shutdown")) + frame(request(8, "workspace/symbol")) + BEGIN
    data += frame(request(2, "shutdown")) + frame(request(7, "shutdown")) + frame(note("exit"))
    yield "requests at other times", data, first, 0, b""
    for number in ("seven", 0, -1, 2**64 - 1, -(2**63), "", '"\\\n\x00ä😀'):
        data = BEGIN + frame(request(number, "shutdown")) + frame(note("exit"))
        yield f"the id {number!r}", data, [STARTED, {**SHUT, "id": number}], 0, b""
    yield from heads()


def between():
    """Of each its name, messages between `initialize` and `shutdown`, and their answers."""
    yield "no documents", b"", []
    unknown = frame(request(7, "workspace/symbol", {"query": ""}))
    yield "an unknown request", unknown, [error(7, -32601)]
    yield "a second initialize", frame(initialize()), [error(1, -32600)]
    yield "a header alone", b"Accept: */*\r\n\r\n", [error(None, -32700)]
    yield "an empty header", b"\r\n", [error(None, -32700)]
    told = [{"diagnostics": [], "uri": URI, **more} for more in ({"version": 0}, {})]
    published = [note("textDocument/publishDiagnostics", it) for it in told]
    lost = note("window/showMessage", {"message": URI + LOST, "type": 1})
    data = frame(did_open(URI, SOUND)) + b"\r\n\r\n"
    answers = [published[0], error(None, -32700), published[1], lost, error(None, -32700)]
    yield "a header alone loses documents", data, answers
    yield "a response", frame(b'{"id":1,"result":null}'), []
    for told in (b"null", b"1.5", b"1e3", b"-0", b"18446744073709551616", b"true", b"[]", b"{}"):
        data = frame(b'{"id":%s,"method":"shutdown"}' % told)
        yield f"the id {told!r}", data, [error(None, -32600)]
    for told in (b"[1]", b"7", b'{"id":1}', b"{}"):
        yield f"no message: {told!r}", frame(told), [error(None, -32600)]
    lone = b'"\xed\xa0\x80"'
    for told in (b"{]}", b"", b"{", b'{"a":1,}', b"\xff", lone, b'{"\\ud83d":1}', b"[" * 200):
        yield f"no JSON: {told[:12]!r}", frame(told), [error(None, -32700)]


def heads():
    """Headers of each form, and such as none can be."""
    body = json.dumps(request(2, "shutdown")).encode()
    for head in (
        b"content-length: %d\r\nContent-Type: text\r\n\r\n",
        b"Content-Type: text\r\nCONTENT-LENGTH: %d\r\n\r\n",
        b"Content-Length: %d\n\n",
        b"Content-Length: 3\r\nContent-Length: 00%d\r\n\r\n",
    ):
        data = BEGIN + head % len(body) + body + frame(note("exit"))
        yield f"the header {head!r}", data, [STARTED, SHUT], 0, b""
    fault = b"snl_lsp: header fault\n"
    for head in (b"GET /\r\n" * 9, b"x" * 300, b"Content-Length: 67108865\r\n\r\n"):
        yield f"no header: {head[:24]!r}", BEGIN + head + END, [STARTED], 2, fault
    cut = b"snl_lsp: input ends within a message\n"
    yield "an end within a header", BEGIN + b"Content-Le", [STARTED], 2, cut
    yield "an end within a body", BEGIN + frame(b"{}")[:-1], [STARTED], 2, cut


def judged(server, data, answers, status, line, feed=run):
    out, errors, got = feed(server, data)
    values = [json.loads(it) for it in bodies(out)]
    if values != answers:
        return f"{values} in place of {answers}"
    return "" if (errors, got) == (line, status) else f"status {got}, {errors!r}"


def fed_by_bytes(server, data):
    """The server over bytes that come one by one, as far as it reads them."""
    it = Server(server)
    try:
        for at in range(len(data)):
            it.send(data[at : at + 1])
    except BrokenPipeError:
        pass
    return it.end()


# ---- documents, by the model


OTHER = "file:///b.stt"


def untold(changes):
    """A didChange with no version, of changes as bytes."""
    document = b'{"textDocument":{"uri":"%s"},"contentChanges":%s}' % (URI.encode(), changes)
    return b'{"method":"textDocument/didChange","params":%s}' % document


def talks():
    """Of each its name and its messages, between `initialize` and `shutdown`."""
    yield "two documents by turns", [
        did_open(URI, PUMP),
        did_open(OTHER, "ss"),
        did_change(URI, [part((2, 8), (2, 13), "state q")]),
        did_change(OTHER, [part((0, 0), (0, 0), "program p ")]),
        did_close(URI),
        did_change(URI, [{"text": "a"}]),
        did_change(OTHER, [{"text": PUMP}]),
    ]
    yield "a document that is opened again", [
        did_open(URI, PUMP), did_open(URI, "x", 9), did_close(URI), did_close(URI),
    ]
    yield "a range that ends before it begins", [
        did_open(URI, PUMP),
        did_change(URI, [part((1, 0), (0, 3), "x")]),
        did_change(URI, [part((0, 0), (0, 1), "x")]),
        did_change(URI, [{"text": PUMP}]),
        did_change(URI, [part((9, 0), (9, 9), "\n/*")]),
    ]
    yield "changes that do not fit", [
        did_open(URI, PUMP),
        did_open(OTHER, PUMP),
        untold(b'[{"text":7}]'),
        did_change(URI, [part((0, 0), (0, 1), "x")]),
        did_change(OTHER, [part((0, 0), (0, 1), "P")]),
        *[b"{]}"] * 2,
        did_change(OTHER, [part((0, 0), (0, 1), "P")]),
        did_open(OTHER, PUMP),
        did_open(URI, PUMP),
    ]
    yield "ends of lines", [
        did_open(URI, "program p\r\nint y;\r\nss s { state a { } }\r"),
        did_change(URI, [part((0, 99), (0, 99), "x")]),
        did_change(URI, [part((1, 6), (2, 0), "")]),
        did_change(URI, [part((1, 99), (9, 9), "\rint z;")]),
    ]
    yield "a URI that is escaped", [did_open(ESCAPED, PUMP), did_close(ESCAPED)]
    yield "versions", [
        did_open(URI, PUMP, 5), did_change(URI, [], 2**64 - 1), untold(b"[]"),
    ]
    yield from long_talks()


ESCAPED = 'file:///ä "\\\n.stt'


def long_talks():
    letters = [part((1, 4), (1, 5), "xy"[number % 2]) for number in range(5000)]
    yield "5,000 changes at once", [did_open(URI, PUMP), did_change(URI, letters)]
    long = "program p ss s { state a { } }\n" + "int xxxxxxxxxxxxxxxxxxxxx;\n" * 38000
    yield "a text that grows over the limit and shrinks again", [
        did_open(URI, long),
        did_change(URI, [part((1, 0), (1, 0), "/*" + "x" * 70000 + "*/")]),
        did_change(URI, [part((1, 2), (1, 3), "y")]),
        did_change(URI, [part((1, 0), (1, 80000), "")]),
        did_change(URI, [part((2, 0), (99999, 0), "int z[9];")]),
        did_open(URI, long * 2),
        did_change(URI, [part((1, 0), (99999, 0), "")]),
    ]
    used = "z = w; " * 1200
    many = "program p\nss s { state a { when (x) { y = 1; " + used + "} exit } }\n"
    yield "more than 1,000 diagnostics", [
        did_open(URI, many), did_change(URI, [part((1, 40), (1, 7000), "")]),
    ]


class Held(Model):
    """A model that knows of messages whose parameters don't fit."""

    def change(self, params):
        if any(not isinstance(it.get("text"), str) for it in params["contentChanges"]):
            return self.lose([params["textDocument"]["uri"]])
        return super().change(params)


def talk(server, cli, messages, encodings):
    """What is wrong with what the server says in a talk."""
    begin = [initialize(encodings), note("initialized", {})]
    sent = bodies(b"".join(map(frame, [*begin, *messages, request(2, "shutdown"), note("exit")])))
    out, errors, status = run(server, b"".join(map(frame, sent)))
    checker = Checker(cli)
    wrong = next((it for it in compare(Held(checker), sent, bodies(out)) if it), "")
    checker.end()
    return wrong if (errors, status) == (b"", 0) else f"status {status}, {errors!r}; {wrong}"


def columns(server):
    """Columns after wide characters, in either encoding."""
    text = "program p\n/* ä😀 */ evflag f = 1;\nss s { state a { when () { } exit } }\n"
    for encodings, column in ((None, 17), (["utf-16"], 17), (["utf-32", "utf-8"], 20)):
        data = frame(initialize(encodings)) + frame(did_open(URI, text))
        params = json.loads(bodies(run(server, data)[0])[1])["params"]
        got = [(it["code"], it["range"]) for it in params["diagnostics"]]
        ends = [{"character": column + more, "line": 1} for more in (0, 1)]
        wanted = [("E17", {"end": ends[1], "start": ends[0]})]
        yield f"columns by {encodings}", "" if got == wanted else f"{got} in place of {wanted}"


def answered_at_once(server):
    """Each answer is written before more is read."""
    it = Server(server)
    it.send(frame(initialize()))
    first = json.loads(it.body())
    it.send(frame(note("initialized", {})) + frame(did_open(URI, PUMP)))
    it.body()
    it.send(frame(did_change(URI, [part((2, 8), (2, 13), "stat")]))[:-5])
    _, errors, status = it.end()
    return "" if (first, status) == (STARTED, 2) else f"{first}, status {status}, {errors!r}"


def ends_of_pipes(server):
    """An output that takes nothing, and one that the client has closed."""
    line = b"snl_lsp: write fault\n"
    given = {"input": BEGIN, "stderr": subprocess.PIPE, "timeout": 60}
    with open("/dev/full", "wb") as full:
        made = subprocess.run([server], stdout=full, **given)
    yield "a full disk", "" if (made.stderr, made.returncode) == (line, 2) else str(made)
    into, out = os.pipe()
    os.close(into)
    made = subprocess.run([server], stdout=out, **given)
    os.close(out)
    is_right = made.returncode in (2, -13)
    yield "a pipe that is closed", "" if is_right else str(made)
    with tempfile.TemporaryDirectory() as folder:
        folder_in = os.open(folder, os.O_RDONLY)
        made = subprocess.run([server], stdin=folder_in, capture_output=True, timeout=60)
        os.close(folder_in)
    is_right = (made.stdout, made.stderr, made.returncode) == (b"", b"snl_lsp: read fault\n", 2)
    yield "an input that can't be read", "" if is_right else str(made)


def cases(server, cli):
    for name, data, *wanted in table():
        yield name, judged(server, data, *wanted)
    for name, data, *wanted in table():
        if len(data) < 2000:
            yield f"{name}, byte by byte", judged(server, data, *wanted, feed=fed_by_bytes)
    for name, messages in talks():
        for encodings in (None, ["utf-8"]):
            yield f"{name}, {encodings}", talk(server, cli, messages, encodings)
    yield from columns(server)
    yield "answers at once", answered_at_once(server)
    yield from ends_of_pipes(server)
