"""Each request for memory is refused in turn, each read and each write fails in turn, and writes
take few bytes or none. A run that meets a fault ends with status 2 and its line, and what it wrote
is a front of what it writes without one."""
import os
import subprocess
import tempfile

from protocol import (
    ask, did_change, did_close, did_open, frame, initialize, note, part, request, run,
)

HERE = os.path.dirname(os.path.realpath(__file__))
URI = "file:///a.stt"
PUMP = """program p
int x; assign x to "dev:x"; monitor x; evflag f; sync x to f;
ss a { state i { when (efTest(f) && x > 3) { pvPut(x); } state j } state k { } }
"""


def talks():
    """Talks in which all is said that the server says."""
    begin = [initialize(["utf-8"]), note("initialized", {}), did_open(URI, PUMP)]
    end = [request("two", "shutdown"), note("exit")]
    yield [
        *begin,
        did_change(URI, [part((2, 73), (2, 74), "j")], 1),
        did_change(URI, [part((0, 8), (0, 9), "/*ä*/q"), part((1, 0), (1, 4), "long")], 2),
        ask(3, "documentSymbol", URI),
        ask(4, "definition", URI, 2, 30),
        ask(5, "hover", URI, 2, 36),
        ask(6, "references", URI, 2, 36, False),
        ask(7, "documentHighlight", URI, 2, 25),
        did_change(URI, [{"text": "ss"}], 3),
        *end,
    ]
    yield [
        *begin,
        did_open("file:///b.stt", "program q"),
        b"{]}",
        b'{"id":1.5,"method":"x"}',
        request(-4, "textDocument/hover", {"textDocument": {"uri": URI}}),
        did_change(URI, [part((0, 0), (0, 0), "x")], 4),
        did_change(URI, [{"text": PUMP}], 5),
        did_close("file:///b.stt"),
        *end,
    ]
    large = PUMP + " " * 1048600
    yield [*begin, did_open(URI, large), did_change(URI, [part((3, 9), (3, 99), "")]), *end]


def built(folder, source):
    """A library that is preloaded, of a file of C."""
    made = f"{folder}/{os.path.basename(source)[:-2]}.so"
    subprocess.run(["cc", "-shared", "-fPIC", "-O1", "-o", made, source, "-ldl"], check=True)
    return made


def numbers_in(path):
    with open(path, encoding="ascii") as file:
        return [int(it) for it in file.read().split()]


def judged(outcome, whole, line):
    """What is wrong with a run that met a fault."""
    out, errors, status = outcome
    if (errors, status) != (line, 2):
        return f"status {status}, {errors[:80]!r}"
    return "" if whole.startswith(out) else f"wrote {out[-80:]!r}"


def swept(server, data, folder, sources):
    """Each call of a talk fails in turn."""
    memory, streams = (built(folder, it) for it in sources)
    count, calls = f"{folder}/count", f"{folder}/calls"
    plain = run(server, data)
    given = {"LD_PRELOAD": memory, "COUNT": count}
    is_plain = run(server, data, env={**os.environ, **given}) == plain
    yield "ample memory", "" if is_plain else "differs"
    for number in range(1, numbers_in(count)[0] + 1):
        env = {**os.environ, "LD_PRELOAD": memory, "REFUSE": str(number)}
        wrong = judged(run(server, data, env=env), plain[0], b"snl_lsp: out of memory\n")
        yield f"request {number} for memory", wrong
    env = {**os.environ, "LD_PRELOAD": streams, "CALLS": calls}
    yield "streams", "" if run(server, data, env=env) == plain else "differs"
    reads, writes = numbers_in(calls)
    for name, most, line in (("READ", reads, b"read"), ("WRITE", writes, b"write")):
        for number in range(1, most + 1):
            env = {**os.environ, "LD_PRELOAD": streams, f"FAIL_{name}": str(number)}
            wrong = judged(run(server, data, env=env), plain[0], b"snl_lsp: %s fault\n" % line)
            yield f"{name} {number} that fails", wrong
    for number in range(1, writes + 1):
        env = {**os.environ, "LD_PRELOAD": streams, "NO_WRITE": str(number)}
        wrong = judged(run(server, data, env=env), plain[0], b"snl_lsp: write fault\n")
        yield f"write {number} that takes nothing", wrong
    for most in (1, 7):
        env = {**os.environ, "LD_PRELOAD": streams, "SHORT_WRITE": str(most)}
        yield f"writes of {most} bytes", "" if run(server, data, env=env) == plain else "differs"


def cases(server, _cli):
    sources = os.path.join(HERE, "..", "refusals", "refuse.c"), f"{HERE}/streams.c"
    with tempfile.TemporaryDirectory() as folder:
        for number, messages in enumerate(talks()):
            data = b"".join(map(frame, messages))
            for name, wrong in swept(server, data, folder, sources):
                yield f"talk {number}, {name}", wrong
