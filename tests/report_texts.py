#!/usr/bin/env python3
"""Compares reports with those of a second judge (report_judge.py), over the texts of tests/cases
and random ones, many of them to one process; and looks at each report by itself: what is quoted
stands above the marks, and nothing in it is a command to a terminal.

Usage: tests/report_texts.py REPORTER CLI SERVER [NUMBER [SEED]]    as many random texts of each of
two kinds
"""
import random
import re
import subprocess
import sys

from report_judge import HIDDEN, report_of, width_of
from mentions import case_texts

HEAD = re.compile(r"(.*):(\d+):(\d+): (?:[EW]\d\d|note:) ([^:]*)", re.S)
SUM = re.compile(r".*: errors \d+ warnings \d+", re.S)
TOGETHER = 40
LARGEST = 200000

# What random texts are made of: tokens, and bytes that are shown in one way or another.
WORDS = rb"""program p|int x;|int x[3];|evflag f;|assign x to "a";|assign x;|monitor x;|sync x to f;
|ss s {|ss t {|state a {|state b {|when (y > 1) {|when () {|} state a|} state b|} state open| exit
|}|}|z = x;|efTest(x);|pvPut(y);|delay(1);|break;|option +q;|%%c|%{ c }%|/* c */|// c|"s"|'c'|08|@
|#x|(|)|/*|%{|"|entry {|exit {|state a;|for (;;)|if (x)""".replace(b"\n", b"").split(b"|")
BYTES = [it.encode() for it in "\t äß中文漢😀é\u0301\u200b\u200d\u202e\u2066\xad\x7f\x85\ufeffＡｱ§"]
BYTES += [b"\xff", b"\xc3", b"\xe4\xb8", b"\x80\x80", b"\xed\xa0\x80"]
BYTES += [b"\x1b[31m", b"\x00", b"\x07", b"\r", b"\\"]
ENDS = [b"\n", b"\n", b"\n", b"\r\n", b"\n\n", b"\r"]
MARKERS = [b'\n# 7 "a.h"\n', b'\n#line 90000 "\xc3\xa4 \xff.h"\n', b"\n# 123456\n"]
MARKERS += [b'\n# 3 "a\\"b" 2\n']
NAMES = [b"p.stt", b"a b", "ä中\u202e".encode(), b"\xff\n\x1b[0m", b""]


def odd(chance):
    """Bytes within a comment, a string or C code, or by themselves."""
    inner = b"".join(chance.choice(BYTES) for _ in range(chance.randrange(1, 6)))
    return chance.choice((b"/*%s*/", b'"%s"', b"%%{%s}%%", b"%s")) % inner


def some_text(chance):
    """A text of a few lines, some of them long."""
    parts = []
    for _ in range(chance.randrange(1, 60)):
        kind = chance.random()
        if kind < 0.12:
            parts.append(odd(chance))
        elif kind < 0.15:
            parts.append(odd(chance) * chance.randrange(1, 60))
        elif kind < 0.17:
            parts.append(chance.choice(MARKERS))
        else:
            parts.append(chance.choice(WORDS))
        parts.append(chance.choice(ENDS) if chance.random() < 0.25 else b" ")
    return b"".join(parts)


class Writer:
    """Writes a program with names that are near each other, and few faults of syntax."""

    NEAR = "level levels levle leve lever lvel flag flags flg fl".split()

    def __init__(self, chance):
        self.chance = chance

    def name(self):
        return self.chance.choice(self.NEAR)

    def some(self, most, write):
        return "".join(write() for _ in range(self.chance.randrange(most + 1)))

    def one_of(self, *forms):
        """One of these, with names and numbers in it."""
        form = self.chance.choice(forms)
        number = self.chance.randrange(4)
        return re.sub("NAME", lambda _: self.name(), form).replace("N", str(number))

    def part(self):
        return self.one_of(
            "int NAME;", "int NAME[3];", "evflag NAME;", "int NAME, NAME;", 'int NAME = NAME;',
            'assign NAME to "a";', 'assign NAME[N] to "a";', 'assign NAME to {"a", "b"};',
            'assign NAME {};', "assign NAME;", "monitor NAME;", "monitor NAME[N];",
            "sync NAME to NAME;", "sync NAME[N] NAME;", "syncq NAME NAME N;", "syncq NAME N;",
            "foreign NAME;", "int NAME(int NAME) { NAME = NAME; }", "int NAME(int);",
            "option +w;", "}", "%{ c }%",
        ) + self.chance.choice(" \n")

    def statement(self):
        return self.one_of(
            "NAME = NAME + 1;", "efSet(NAME);", "pvPut(NAME);", "{ int NAME; NAME++; }",
            "state NAME;", "if (efTest(NAME)) NAME = 1;", "pvGetQ(NAME);",
        )

    def transition(self):
        condition = self.one_of("", "NAME", "efTest(NAME)", "NAME > N && NAME", "delay(NAME)")
        target = self.one_of("state NAME", "state NAME", "exit", "state", "sate NAME")
        return f"when ({condition}) {{ {self.some(2, self.statement)} }} {target}\n"

    def state(self):
        own = self.some(1, self.part) if self.chance.random() < 0.3 else ""
        return f"state {self.name()} {{ {own}{self.some(3, self.transition)}}}\n"

    def state_set(self):
        end = self.chance.choice(["}", "}", "}", ""])
        return f"ss {self.name()} {{ {self.some(2, self.part)}{self.some(4, self.state)}{end}\n"

    def marker(self):
        return self.one_of("", "", '\n# N1 "a.h"\n', "\n#line N7\n", "/* \u00e4\u4e2d */ ")

    def program(self):
        parts = [self.some(8, self.part), self.some(3, self.state_set), self.some(1, self.part)]
        return "program p\n" + self.marker().join([*parts, ""])


def some_program(chance):
    return Writer(chance).program().encode()


def asked(name, text):
    return b"text %d %d\n%s%s" % (len(name), len(text), name, text)


def reported(reporter, requests):
    """What one process prints for these, and how it ends."""
    made = subprocess.run([reporter, "report"], input=b"".join(requests), capture_output=True)
    return made.stdout, made.stderr, made.returncode


def at_columns(line, start, stop):
    """The part of a shown line that takes these columns."""
    column, told = 0, ""
    for letter in line:
        if start <= column < stop:
            told += letter
        column += width_of(letter)
    return told


def wrong_in_block(lines, text):
    """What is wrong with a finding's three lines, by what it quotes."""
    found = HEAD.fullmatch(lines[0])
    if not found:
        return f"no finding: {lines[0]!r}"
    _, line, _, message = found.groups()
    gutter = f"{line:>5} | "
    marks = re.fullmatch(r" {%d} \| ( *)(\^~*)(?: near: '\w+')?" % (len(gutter) - 3), lines[2])
    if not marks or not lines[1].startswith(gutter):
        return f"no line with marks: {lines}"
    # What is wanted somewhere quotes words.
    quoted = "" if message.startswith("expected") else message.partition("'")[2][:-1]
    start = len(marks[1])
    above = at_columns(lines[1][len(gutter) :], start, start + len(marks[2]))
    is_cut = lines[1].endswith("..") and quoted.startswith(above)
    if quoted and above != quoted and not is_cut:
        return f"{above!r} is above the marks for {quoted!r}"
    return "" if not quoted or quoted.encode() in text else f"{quoted!r} is not in the text"


def wrong_in_report(report, text):
    """What is wrong with a report, looked at by itself."""
    lines = report.decode().split("\n")
    hidden = [it for it in report.decode() if any(a <= ord(it) <= b for a, b in HIDDEN)]
    if set(hidden) - {"\n"} or lines[-1] or not SUM.fullmatch(lines[-2]) or len(lines) % 3 != 2:
        return f"no report: {report[-80:]!r}"
    blocks = (lines[at : at + 3] for at in range(0, len(lines) - 2, 3))
    return next((wrong for it in blocks if (wrong := wrong_in_block(it, text))), "")


def wrong_columns(text, placed):
    """Where what is quoted is not at the places that all was computed of."""
    for (_, _, _, message), (start, stop, _) in placed:
        quoted = message.partition("'")[2][:-1].encode()
        if quoted and text[start:stop] != quoted:
            return f"{text[start:stop]!r} is not {quoted!r}"
    return ""


def compared(programs, texts):
    """For each of some texts, which one process reports on, what is wrong."""
    reporter, *others = programs
    requests = [asked(name, text) for name, text in texts]
    wanted = [report_of(others, name, text) for name, text in texts]
    statuses = [0 if report.split()[-3] == b"0" else 1 for report, _ in wanted]
    whole = b"".join(report for report, _ in wanted), b"", max(statuses)
    got = reported(reporter, requests)
    if got == whole:
        for (_, text), (report, placed) in zip(texts, wanted):
            yield wrong_in_report(report, text) or wrong_columns(text, placed)
        return
    yield f"of {len(texts)} texts in one process: {got[1:]}, {got[0][-60:]!r}"
    for request, (report, _), status in zip(requests, wanted, statuses):
        got = reported(reporter, [request])
        yield "" if got == (report, b"", status) else f"{request!r}: {got}, not {report!r}"


def main():
    programs = sys.argv[1:4]
    number = int(sys.argv[4]) if len(sys.argv) > 4 else 500
    chance = random.Random(int(sys.argv[5]) if len(sys.argv) > 5 else 1)
    texts = [it for it in case_texts() if len(it) < LARGEST]
    texts += [some_text(chance) for _ in range(number)]
    texts += [some_program(chance) for _ in range(number)]
    named = [(chance.choice(NAMES), text) for text in texts]
    passed = failed = 0
    for at in range(0, len(named), TOGETHER):
        for wrong in compared(programs, named[at : at + TOGETHER]):
            if wrong:
                failed += 1
                print(wrong[:2000], flush=True)
            else:
                passed += 1
    print(f"{passed} passed, {failed} failed")
    return 1 if failed else 0


if __name__ == "__main__":
    sys.exit(main())
