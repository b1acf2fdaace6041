"""What the names of a text mean, by a second judge (meant.py): at the first byte of each name of
the programs of tests/cases, and of random ones, a definition has to be what the rules in words
say, and so have the references, with what is declared and without by turns, and the highlights.

Usage: mentions.py SERVER NUMBER SEED    as many random programs, of that seed
"""
import glob
import json
import os
import random
import re
import sys

from asked import offsets_of
from meant import definitions_of, mentions_of, names_of
from protocol import ask, bodies, did_open, frame, initialize, note, request, run
from texts import place_of

URI = "file:///a.stt"
CASES = os.path.join(os.path.dirname(os.path.realpath(__file__)), "..", "cases")
EDIT = re.compile(rb"edit +0*(\d+) +0*(\d+) +0*(\d+)\n")


# ---- the programs of tests/cases


def scripted(script):
    """The text after each edit of a script."""
    text, at = b"", 0
    while found := EDIT.search(script, at):
        start, stop, size = map(int, found.groups())
        at = found.end() + size
        if start <= stop <= len(text) and len(script) >= at:
            text = text[:start] + script[found.end() : at] + text[stop:]
            yield text


def case_texts():
    found = set()
    for path in glob.glob(os.path.join(CASES, "**"), recursive=True):
        if os.path.isfile(path):
            with open(path, "rb") as file:
                data = file.read()
            if os.path.basename(path) == "script":
                found.update(scripted(data))
            elif path.endswith((".st", ".stt", "stdin")):
                found.add(data)
    return sorted(found)


# ---- random programs


class Writer:
    """Writes a program: few names, declared again and again in one scope or another."""

    NAMES = ["a", "b", "c", "d", "e", "f", "g"]

    def __init__(self, chance):
        self.chance = chance

    def name(self):
        return self.chance.choice(self.NAMES)

    def some(self, most, write, *given):
        return "".join(write(*given) for _ in range(self.chance.randrange(most + 1)))

    def one_of(self, *writers):
        return self.chance.choice(writers)()

    def program(self):
        parts = [
            f"program {self.name()}\n",
            self.some(6, self.part),
            "" if self.chance.random() < 0.7 else f"entry {self.block(2)}\n",
            self.some(3, self.state_set),
            "" if self.chance.random() < 0.7 else f"exit {self.block(2)}\n",
            self.some(2, self.part),
        ]
        return "".join(parts)

    def part(self):
        return self.one_of(
            self.declaration, self.declaration, self.clause, self.function, self.prototype,
            lambda: f"foreign {self.name()}, {self.name()};\n",
            lambda: f"struct {self.name()} {{ int {self.name()}[{self.expression(1)}]; }};\n",
            lambda: f"%% {self.name()}\n",
        )

    def declaration(self):
        kind = self.chance.choice(["int", "int", "evflag", "string", f"struct {self.name()}",
                                   f"typename {self.name()}", "unsigned long int", "const double"])
        names = [self.declarator() for _ in range(self.chance.randrange(1, 4))]
        return f"{kind} {', '.join(names)};\n"

    def declarator(self):
        length = f"[{self.expression(1)}]" if self.chance.random() < 0.2 else ""
        value = f" = {self.expression(1)}" if self.chance.random() < 0.2 else ""
        return self.name() + length + value

    def clause(self):
        return self.one_of(
            lambda: f'assign {self.name()} to "pv";\n',
            lambda: f'assign {self.name()} to {{"a", "b"}};\n',
            lambda: f"assign {self.name()};\n",
            lambda: f"monitor {self.name()};\n",
            lambda: f"sync {self.name()} to {self.name()};\n",
            lambda: f"syncq {self.name()}[1] to {self.name()} 3;\n",
            lambda: f"syncQ {self.name()};\n",
        )

    def parameters(self):
        each = [f"int {self.name()}", f"char *{self.name()}", "void", f"int {self.name()}[]",
                f"double {self.name()}[{self.name()}]"]
        return ", ".join(self.chance.choice(each) for _ in range(self.chance.randrange(3)))

    def function(self):
        return f"int {self.name()}({self.parameters()}) {self.block(3)}\n"

    def prototype(self):
        return f"int {self.name()}({self.parameters()});\n"

    def state_set(self):
        parts = self.some(2, lambda: self.one_of(self.declaration, self.clause))
        return f"ss {self.name()} {{\n{parts}{self.some(4, self.state)}}}\n"

    def state(self):
        return f"state {self.name()} {{\n{self.some(4, self.member)}}}\n"

    def member(self):
        return self.one_of(
            self.declaration, self.clause, self.transition, self.transition,
            lambda: f"entry {self.block(2)}\n", lambda: f"foreign {self.name()};\n",
            lambda: "option +t;\n",
        )

    def transition(self):
        target = "exit" if self.chance.random() < 0.2 else f"state {self.name()}"
        return f"when ({self.expression(2)}) {self.block(2)} {target}\n"

    def block(self, depth):
        return f"{{ {self.some(4, self.content, depth)}}}"

    def content(self, depth):
        if self.chance.random() < 0.3:
            return self.declaration().replace("evflag", "int").strip() + " "
        return self.statement(depth) + " "

    def statement(self, depth):
        if depth == 0 or self.chance.random() < 0.5:
            return self.chance.choice([
                f"{self.expression(2)};", f"{self.name()} = {self.expression(1)};",
                f"state {self.name()};", ";", f"return {self.name()};",
            ])
        return self.one_of(
            lambda: self.block(depth - 1),
            lambda: f"if ({self.expression(1)}) {self.statement(depth - 1)}",
            lambda: f"if ({self.name()}) {self.block(depth - 1)} else {self.statement(depth - 1)}",
            lambda: f"while ({self.expression(1)}) {self.statement(depth - 1)}",
            lambda: f"for ({self.name()} = 0; {self.name()} < 3; {self.name()}++) {self.block(0)}",
        )

    def expression(self, depth):
        if depth == 0 or self.chance.random() < 0.4:
            return self.chance.choice([self.name(), self.name(), "1", "2.5", '"s"', "TRUE"])
        inner = [self.expression(depth - 1) for _ in range(3)]
        name, other = self.name(), self.name()
        return self.chance.choice([
            f"{inner[0]} + {inner[1]}", f"({inner[0]})", f"-{name}", f"{name}.{other}",
            f"{name}->{other}", f"{name}[{inner[0]}]", f"{name}({inner[0]}, {inner[1]})",
            f"{name} ? {inner[1]} : {inner[2]}", f"(int) {name}", f"sizeof(struct {name})",
            f"efTest({name})", f"pvPut({name})", f"{name} = {inner[1]}", "delay(1)",
        ])


def some_program(chance):
    """A random program; in one of three a piece is left out or put in."""
    text = Writer(chance).program()
    if chance.random() < 0.33 and text:
        at = chance.randrange(len(text))
        new = chance.choice(["", "", ";", "}", "{", ")", "@", " x "])
        text = text[:at] + new + text[at + chance.randrange(3) :]
    return text.encode()


# ---- what is compared


# What is asked of each name.
ASKED = ("definition", "references", "documentHighlight")


def told_of_names(server, text, names):
    """For each name what is answered to each question on it; what is wrong with the run, if so."""
    talk = [initialize(["utf-8"]), note("initialized"), did_open(URI, text.decode())]
    for number, offset in enumerate(names):
        for at, method in enumerate(ASKED, 3 * number + 10):
            place = place_of(text, offset, True)
            talk.append(ask(at, method, URI, *place, number % 2 == 0))
    talk += [request(2, "shutdown"), note("exit")]
    output, errors, status = run(server, b"".join(map(frame, talk)))
    if (errors, status) != (b"", 0):
        return [], f"status {status}, {errors!r}"
    told = {it["id"]: it.get("result") for it in map(json.loads, bodies(output)) if "id" in it}
    numbers = range(len(names))
    return [[told.get(3 * number + at) for at in (10, 11, 12)] for number in numbers], ""


def starts_of(text, found):
    """Where the ranges of an answer begin; nothing, where it is none."""
    return None if found is None else [offsets_of(text, it["range"], True)[0] for it in found]


def named_alike(meant):
    """For each place that names mean, the names that mean it, in the order of the text."""
    alike = {}
    for offset in sorted(meant):
        alike.setdefault(meant[offset], []).append(offset)
    return alike


def wrong_meanings(server, text):
    """What is wrong with what the names of a text mean; nothing, where both judges agree."""
    names, defined, meant = names_of(text), definitions_of(text), mentions_of(text)
    told, wrong = told_of_names(server, text, names)
    if wrong:
        return wrong
    alike = named_alike(meant)
    for number, (offset, (definition, references, highlights)) in enumerate(zip(names, told)):
        marked = alike.get(meant.get(offset))
        named = marked
        if marked and number % 2:
            named = [it for it in marked if it != meant[offset]]
        wanted = [defined.get(offset), named, marked]
        start = offsets_of(text, definition["range"], True)[0] if definition else None
        found = [start, starts_of(text, references), starts_of(text, highlights)]
        if found != wanted:
            return f"the name at {offset} means {found}, and not {wanted}: {text!r}"
    return ""


def cases(server, _cli, number=1000, seed=1):
    for at, text in enumerate(case_texts()):
        try:
            text.decode()
        except UnicodeDecodeError:
            continue
        yield f"text {at} of tests/cases", wrong_meanings(server, text)
    for at in range(seed * 1000000, seed * 1000000 + number):
        yield f"program {at}", wrong_meanings(server, some_program(random.Random(at)))


def main():
    server, number, seed = sys.argv[1:]
    told = cases(server, "", int(number), int(seed))
    failed = [f"{name}: {wrong}" for name, wrong in told if wrong]
    print("\n".join(failed[:20]) or f"{number} programs: both agree")
    return 1 if failed else 0


if __name__ == "__main__":
    sys.exit(main())
