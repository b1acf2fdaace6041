"""What the second judge says of notes: the place that a finding is related to, by the rules in
words of docs/PROVED.md, and where something is wanted at a syntax error. What names mean is said
by meant.py, and the words at a syntax error by `snl_lsp`."""
import re

from meant import DIGITS, Meanings, Scope, firsts, piece_at
from notes import distance
from recogniser import read

MOST = 100
DECLARED = {"E13", "E14", "E15", "E16", "E20", "E21"}
CLAUSES = {"assign": "E12", "monitor": "W05", "sync": "E22", "syncq": "E22", "syncQ": "E22"}
WORDS = {"E12": "assigned here", "W05": "monitored here", "E22": "synced here"}
UNSOUND = {"E11", "E12", "E13", "E15", "E16", "E22"}
CLASSES = {
    "name": "NAME", "integer": "INT", "floating": "FLOAT", "text": "TEXT", "character": "CHAR",
    "C": "CCODE",
}
MARKER = re.compile(
    r'#[ \t]*(?:line[ \t]+)?([0-9]{1,10})(?![^ \t\n\r\v\f])(?:[ \t]+("(?:[^"\\\n]|\\[^\n])*"))?'
)


# ---- lines


def markers_of(text):
    """The line markers: from which offset on each counts, its number, and its file, if any."""
    at = 0
    while at < len(text):
        _, stop = piece_at(text, at)
        found = MARKER.match(text, at, stop) if text[at] == "#" else None
        if found and int(found[1]) < 1 << 31:
            end = text.find("\n", stop)
            yield (len(text) if end < 0 else end) + 1, int(found[1]), found[2]
        at = stop


def line_of(text, markers, offset):
    """The number of an offset's line, and the name of its file, if there is one."""
    start, number, file = 0, 1, None
    for begin, first, name in markers:
        if begin <= offset:
            start, number, file = begin, first, name or file
    return number + text.count("\n", start, offset), file and file[1:-1].encode("latin-1")


# ---- near names


def nearest(name, tokens):
    """The first of the nearest of these to a name, if one is near."""
    if not 3 <= len(name) <= 64:
        return None
    reach = 1 if len(name) <= 4 else 2
    about = [it for it in tokens if abs(len(it.text) - len(name)) <= reach]
    far = [(distance(name, it.text), it.start, it) for it in about]
    near = [it for it in far if 0 < it[0] <= reach]
    return min(near, key=lambda it: it[:2])[2] if near else None


# ---- clauses


class Clause:
    """A clause: what it is, its variable and flag, and which elements it is about."""

    def __init__(self, tokens):
        self.kind, self.variable = CLAUSES[tokens[0].kind], tokens[1]
        self.elements, at = None, 2
        if tokens[at].kind == "[":
            digits = re.match(DIGITS, tokens[at + 1].text)[0]
            base = 16 if digits[1:2] in ("x", "X") else 8 if digits[0] == "0" else 10
            self.elements, at = {int(digits, base)}, at + 3
        at += tokens[at].kind == "to"
        self.flag = tokens[at] if self.kind == "E22" and tokens[at].kind == "name" else None
        if tokens[at].kind == "{":
            inner = [it.kind for it in tokens[at + 1 :]]
            inner = inner[: inner.index("}")]
            commas = inner.count(",") - (inner[-1:] == [","])
            self.elements = set(range(commas + 1 if inner else 0))

    def overlaps(self, other):
        either = self.elements is None or other.elements is None
        return either or bool(self.elements & other.elements)


def clauses_of(items):
    for item in items:
        if item.kind != "faulty":
            for at, token in enumerate(item.tokens):
                if token.kind in CLAUSES:
                    yield Clause(item.tokens[at:])


# ---- what a finding is related to


class Relations:
    """What the findings of a text are related to."""

    def __init__(self, data, found):
        self.text = data.decode("latin-1")
        self.meanings = Meanings(self.text)
        self.items = self.meanings.items
        self.numbers = {it.start: at for at, item in enumerate(self.items) for it in item.tokens}
        prototypes = {it.prototype for it in self.items if it.prototype}
        pairs = self.meanings.pairs
        self.declared = {it.start: meant for it, meant in pairs if it not in prototypes}
        self.unsound = {start for start, code in found if code in UNSOUND}
        self.no_flags = {start for start, code in found if code == "E14"}
        self.clauses = list(clauses_of(self.items))

    def related(self, start, stop, code):
        """The words and the token that a finding is related to; none, where it is its own."""
        at = self.numbers.get(start)
        found = None if at is None else self.related_in(self.items[at], at, start, stop, code)
        return found if found and found[1] and found[1].start != start else None

    def related_in(self, item, at, start, stop, code):
        name, declared = self.text[start:stop], self.declared.get(start)
        if code == "E04" and item.kind == "set end":
            ends = [it.tokens[0] for it in self.items[:at] if it.kind == "set end"]
            return "the state set ended here", ends[-1] if ends else None
        if code == "E07":
            return "first declared here", declared
        if code == "E08":
            sets = (it.tokens[1] for it in self.items if it.kind == "set begin")
            return "the first one is here", next((it for it in sets if it.text == name), None)
        if code == "E09":
            return "the first one is here", self.meanings.states.get((item.set, name))
        if code in WORDS:
            return WORDS[code], self.earlier(start)
        if code in DECLARED and declared:
            return "declared here", declared
        if code == "E10":
            return None, nearest(name, self.states_in(item.set)) if item.set else None
        if code in ("E11", "E14", "E20", "W01"):
            return None, nearest(name, self.visible(item, code in ("E14", "E20")))
        return None

    def states_in(self, state_set):
        return [it.state_name() for it in self.items if it.set is state_set and it.state_name()]

    def visible(self, item, is_flag):
        """The declarations that an item can name outside its blocks: those of a state are its own,
        and hide others."""
        found = {}
        inner = [it for it in item.scope if isinstance(it, Scope)] if item.kind == "state" else []
        own = (it for scope in inner for it in scope if not isinstance(it, Scope))
        found.update(firsts(token for kind, token in own if kind == "declared"))
        for scope in (item.set, None):
            for name, token in self.meanings.declared.get(scope, {}).items():
                found.setdefault(name, token)
        return [it for it in found.values() if not is_flag or self.is_flag(it)]

    def is_flag(self, token):
        """Whether a name is declared as an event flag: its declaration begins so."""
        tokens = self.items[self.numbers[token.start]].tokens
        ends = [at for at, it in enumerate(tokens) if it.start < token.start and it.kind in ";{}"]
        first = ends[-1] + 1 if ends else 0
        return "evflag" in [it.kind for it in tokens[first : first + 2]]

    def earlier(self, start):
        """The variable of the first sound clause that speaks of the same as the one here."""
        own = next((it for it in self.clauses if it.variable.start == start), None)
        meant = own and self.declared.get(start)
        for it in self.clauses if meant else ():
            is_sound = it.variable.start not in self.unsound
            is_sound &= not it.flag or it.flag.start not in self.no_flags
            same = it.kind == own.kind and self.declared.get(it.variable.start) is meant
            if is_sound and same and it.overlaps(own):
                return it.variable
        return None

    def wanted(self, start):
        """Where something is wanted at a token at fault: there, or after the last one of an item
        where that may come."""
        tokens = self.items[self.numbers[start]].tokens
        last = tokens[-1]
        if last.start != start:
            return start
        kinds = [CLASSES.get(it.kind, it.kind) for it in tokens]
        may_come = read(kinds)[1] == len(kinds)
        return last.start + (len(last.text) if may_come else 0)
