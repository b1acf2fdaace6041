"""A second judge of reports. It says in plain Python what docs/FORMATS.md says of a report: the
blocks of a text, by what `snl_cli` finds there, by where `snl_lsp` says that is, and by what
report_notes.py says of notes.

`snl_lsp` reads UTF-8 alone, and tells 1,000 findings. So it is given a text in which each byte that
is none is another one that begins no token either: all places stay as they are.
"""
import bisect
import json
import os
import re
import subprocess
import sys
import unicodedata

sys.path.insert(0, os.path.join(os.path.dirname(os.path.realpath(__file__)), "lsp"))
# pylint: disable=wrong-import-position
from protocol import ask, bodies, did_open, frame, initialize, note, request, run
from report_notes import MOST as MOST_NOTES
from report_notes import Relations, line_of, markers_of

TAB = 8
BEFORE, AFTER = 80, 120
MOST = 1000
URI = "file:///a"
CLOSING = {b"/*": b"*/", b"%{": b"}%"}
FINDING = re.compile(rb"(?:(.*):)?(\d+): ([EW]\d\d) ([^:]*)", re.S)
MARKED = re.compile(rb'^[ \t]*#[^"\n]*"((?:[^"\\\n]|\\.)*)"', re.M)
HIDDEN = (
    (0, 0x1F), (0x7F, 0x9F), (0xAD, 0xAD), (0x61C, 0x61C), (0x200B, 0x200F), (0x2028, 0x202E),
    (0x2060, 0x206F), (0xFEFF, 0xFEFF),
)


# ---- what is found, and where


def findings_of(cli, text):
    """What `snl_cli` finds: for each the printed name of a file or none, a line, a code and a
    message; and its last line."""
    script = b"edit 0 0 %d\n%s\ncheck\n" % (len(text), text)
    made = subprocess.run([cli], input=script, capture_output=True, timeout=120)
    lines = made.stdout.split(b"\n")
    assert lines[0] == b"ok" and lines[-1] == b"", made
    matches = (FINDING.fullmatch(line) for line in lines[1:-2])
    return [(it[1], int(it[2]), it[3].decode(), it[4].decode()) for it in matches], lines[-2]


def in_utf8(text):
    """The text with a byte 1 in the place of each that is no UTF-8."""
    made, at = bytearray(text), 0
    while at < len(text):
        size = size_of(text[at : at + 4])
        if size == 0:
            made[at] = 1
        at += size or 1
    return bytes(made)


def told(server, text, questions=()):
    """What `snl_lsp` tells of a text, in which it is asked questions."""
    begin = [initialize(["utf-8"]), did_open(URI, text.decode())]
    end = [request(1, "shutdown"), note("exit")]
    said = bodies(run(server, b"".join(map(frame, [*begin, *questions, *end])))[0])
    return [json.loads(it) for it in said]


def places_of(server, text):
    """Where `snl_lsp` tells its findings: for each the offsets of its ends, and its code."""
    known = in_utf8(text)
    said = told(server, known)
    items = next(it["params"]["diagnostics"] for it in said if "params" in it)
    starts = line_starts(known)
    ends = ([it["range"][end] for end in ("start", "end")] for it in items)
    places = ([starts[it["line"]] + it["character"] for it in both] for both in ends)
    return [(start, stop, it["code"]) for (start, stop), it in zip(places, items)]


def line_starts(text):
    return [0] + [it.end() for it in re.finditer(b"\n", text)]


def wanted_words(server, text, places):
    """What `snl_lsp` says of the syntax errors among some places: words by offsets."""
    known = in_utf8(text)
    starts = line_starts(known)
    offsets = [start for start, _, code in places if code == "E02"]
    asked = []
    for number, offset in enumerate(offsets, 2):
        line = bisect.bisect(starts, offset) - 1
        asked.append(ask(number, "hover", URI, line, offset - starts[line]))
    said = told(server, known, asked) if asked else []
    answers = {it["id"]: it["result"] for it in said if it.get("id", 0) > 1 and it["result"]}
    hovers = ((offset, answers.get(number)) for number, offset in enumerate(offsets, 2))
    return {offset: it["contents"]["value"] for offset, it in hovers if it}


# ---- how a line is shown


def size_of(data):
    """How many bytes the first character has; none, where there is no UTF-8."""
    for size in range(1, min(4, len(data)) + 1):
        try:
            data[:size].decode()
            return size
        except UnicodeDecodeError:
            pass
    return 0


def width_of(letter):
    """How many columns a character takes that is not shown by its number."""
    if unicodedata.category(letter) in ("Mn", "Me", "Cf"):
        return 0
    return 2 if unicodedata.east_asian_width(letter) in ("W", "F") else 1


def shown(data, column=0, rest=b""):
    """How bytes are shown from a column on, and the column after them. What comes after them in the
    text tells where a character or a line ends."""
    told, at, whole = "", 0, data + rest[:4]
    while at < len(data):
        size = size_of(whole[at : at + 4])
        letter = whole[at : at + size].decode() if size else ""
        if not size:
            piece = f"\\x{whole[at]:02x}"
        elif letter == "\t":
            piece = " " * (TAB - column % TAB)
        elif letter == "\r" and whole[at + 1 : at + 2] == b"\n":
            piece = ""
        elif any(first <= ord(letter) <= last for first, last in HIDDEN):
            piece = f"\\u{{{ord(letter):04x}}}"
        else:
            piece = letter
        told += piece
        column += sum(map(width_of, piece))
        at += size or 1
    return told, column


def excerpt(text, start, stop):
    """The line with a place, and the marks under the bytes from there up to `stop`."""
    first = text.rfind(b"\n", 0, start) + 1
    last = text.find(b"\n", start)
    last = len(text) if last < 0 else last
    begin, end = max(first, start - BEFORE), min(last, start + AFTER)
    told, column = "", 0
    if begin > first:
        # A character that begins before is left out.
        told, column = "..", 2
        begin += len(re.match(rb"[\x80-\xbf]{0,3}", text[begin:start])[0])
    stop = min(stop, end)
    front, column = shown(text[begin:start], column, text[start:])
    marked, after = shown(text[start:stop], column, text[stop:])
    back, _ = shown(text[stop:end], after, text[end:])
    told += front + marked + back + (".." if end < last else "")
    return told, " " * column + "^" + "~" * (after - column - 1)


# ---- the report


def file_shown(printed, text):
    """How the name of a file in a line marker is shown, by how `snl_cli` prints it."""
    for name in MARKED.findall(text):
        if re.sub(rb"[^ -~]", lambda it: b"\\x%02x" % it[0][0], name) == printed:
            return shown(name)[0]
    return printed.decode()


def block(name, text, finding, place, note_told):
    """What is told of a finding: three lines, and three for a note."""
    file, line, code, message = finding
    start, stop, _ = place
    closing = CLOSING.get(text[start : start + 2])
    if stop > start and closing and text.find(closing, start + 2) < 0:
        # A comment or C code that nothing ends.
        stop = start + 2
    where = name if file is None else file_shown(file, text)
    near, more = note_told
    return three_lines(f"{where}:{line}", text, (start, stop), f"{code} {message}", near) + more


def three_lines(where, text, ends, words, near=""):
    start, stop = ends
    line = where.rpartition(":")[2]
    column = start - text.rfind(b"\n", 0, start)
    line_shown, marks = excerpt(text, start, stop)
    gutter = f"{line:>5} | "
    return (
        f"{where}:{column}: {words}\n"
        f"{gutter}{line_shown}\n{' ' * (len(gutter) - 3)} | {marks}{near}\n"
    )


class Notes:
    """What is told of the places that findings are related to."""

    def __init__(self, server, name, text, places):
        self.name, self.text = name, text
        self.relations = Relations(text, [(start, code) for start, _, code in places])
        self.markers = list(markers_of(self.relations.text))
        self.words = wanted_words(server, text, places[:MOST_NOTES])

    def told(self, place):
        """What comes after the marks of a finding, and the lines after that."""
        start, stop, code = place
        if code == "E02":
            at = self.relations.wanted(start) if start in self.words else 0
            return "", self.lines(at, at, self.words[start]) if start in self.words else ""
        found = self.relations.related(start, stop, code)
        if not found:
            return "", ""
        words, token = found
        if not words:
            return f" near: '{token.text}'", ""
        return "", self.lines(token.start, token.start + len(token.text), words)

    def lines(self, start, stop, words):
        line, file = line_of(self.relations.text, self.markers, start)
        where = self.name if file is None else shown(file)[0]
        return three_lines(f"{where}:{line}", self.text, (start, stop), f"note: {words}")


def report_of(programs, name, text):
    """The report on a text, and the places that it is made of."""
    cli, server = programs
    findings, numbers = findings_of(cli, text)
    places = places_of(server, text)
    assert [it[2] for it in findings[:MOST]] == [it[2] for it in places], (findings, places)
    named = shown(name)[0]
    notes = Notes(server, named, text, places)
    noted = [notes.told(it) for it in places[:MOST_NOTES]]
    noted += [("", "")] * (len(places) - len(noted))
    blocks = "".join(block(named, text, *it) for it in zip(findings, places, noted))
    return f"{blocks}{named}: {numbers.decode()}\n".encode(), list(zip(findings, places))
