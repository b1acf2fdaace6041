"""Random edits: texts that a seed defines are changed, with places in either encoding, several in a
message, past the ends of lines and texts and within characters. After each message the publish has
to be what `snl_cli` finds in the text that the protocol's rules make here. After some, an outline
has to have the names of the listing that `snl_cli` gives, a definition the bytes of its name, and
references and highlights have to be those of a second judge (meant.py).

Usage: edits.py SERVER CLI NUMBER SEED    as many messages, of that seed
"""
import json
import random
import sys

from asked import STATE, STATE_SET, WORD, all_symbols, is_note, line_of, offsets_of
from protocol import (
    Checker, Model, Server, ask, did_change, did_open, frame, initialize, note, request, wrong_in,
)
from texts import offset_of, place_of

URI = "file:///a.stt"
# Bytes that make texts: of the language, of lines, of one to four bytes a character.
WORDS = """program p|int x;|int y[3];|assign x to "dev:x";|monitor x;|sync x to f;|evflag f;|ss s {
|ss t {|state a {|state b {|when (x > 3) {|when () {|} state a|} state b|} exit|}|{|;|x = y[1];|z
|efTest(f)|pvPut(x);|option +r;|entry { x = 1; }|exit { }|%%escaped|/* ä😀 */|// é|"a😀b"|'c'|\n|\n
|\n|\r\n|\r|\t| |for (;;) break;|0x1F|1.5e3|ä|😀|@|/*|*/|"|while (x) { continue; }|state c;
|if (x) y = 2; else ;|void g(void) { }""".split("|")


def some_text(chance, most):
    return " ".join(chance.choice(WORDS) for _ in range(chance.randrange(most)))


def some_place(chance, text):
    """A place of a text: mostly one in it, else past the end of a line or of the text."""
    lines = text.split(b"\n")
    line = chance.randrange(len(lines) + 1)
    if line == len(lines):
        return line + chance.randrange(3), chance.randrange(9)
    most = len(lines[line]) + 1
    return line, chance.randrange(most if chance.random() < 0.9 else most + 99)


def some_change(chance, text, is_utf8):
    """A change, and the text after it."""
    if chance.random() < 0.02:
        new = some_text(chance, 60)
        return {"text": new}, new.encode()
    places = [some_place(chance, text), some_place(chance, text)]
    if chance.random() < 0.7:
        line, character = places[0]
        places[1] = line, character + chance.randrange(5)
    offsets = [offset_of(text, line, character, is_utf8) for line, character in places]
    if offsets[0] > offsets[1]:
        places.reverse()
        offsets.reverse()
    kept = text[: offsets[0]], text[offsets[1] :]
    new = some_text(chance, 5) if len(text) < 6000 else ""
    ends = [{"line": line, "character": character} for line, character in places]
    change = {"range": {"start": ends[0], "end": ends[1]}, "text": new}
    return change, kept[0] + new.encode() + kept[1]


def some_changes(chance, text, is_utf8):
    changes = []
    for _ in range(1 if chance.random() < 0.7 else chance.randrange(2, 9)):
        change, text = some_change(chance, text, is_utf8)
        changes.append(change)
    return changes, text


class Asking:
    """Questions on a document of a server that runs, whose answers have to be those of a model."""

    def __init__(self, server, model, seed):
        self.server, self.model, self.wrong = server, model, ""
        self.chance = random.Random(seed)

    def result(self, method, *given):
        """What is answered, once it is judged by the model."""
        asked = ask(7, method, URI, *given)
        self.server.send(frame(asked))
        body = self.server.body()
        for wanted in self.model.heard(json.dumps(asked)):
            wrong = wrong_in(body, wanted, self.model.is_utf8)
            self.wrong = self.wrong or (wrong and f"{method} at {given}: {wrong}")
        return json.loads(body).get("result")

    def ask_some(self, text):
        """The outline, what one of its names means, and what some words of the text do: what is
        wrong with these."""
        symbols = [it for _, it in all_symbols(self.result("documentSymbol") or [])]
        if symbols:
            self.ask_own_name(self.chance.choice(symbols))
        words = list(WORD.finditer(text))
        for it in self.chance.sample(words, min(3, len(words))):
            offset = self.chance.randint(it.start(), it.end())
            self.ask_at(text, *place_of(text, offset, self.model.is_utf8))
        self.ask_at(text, *some_place(self.chance, text))
        return self.wrong

    def ask_own_name(self, it):
        """What a name of an outline means; a state and a state set mean themselves."""
        between = it["selectionRange"]
        found = self.result("definition", between["start"]["line"], between["start"]["character"])
        if it["kind"] in (STATE, STATE_SET) and (found or {}).get("range") != between:
            self.wrong = self.wrong or f"{it['name']} at {between} means {found}"

    def ask_at(self, text, line, character):
        """A definition and a hover at one place: both are there or none, and the hover begins with
        the line of the declaration. At a token at fault the hover says what may come there. Then
        references and highlights, by the model alone."""
        found = self.result("definition", line, character)
        hover = self.result("hover", line, character)
        self.result("references", line, character, self.chance.random() < 0.5)
        self.result("documentHighlight", line, character)
        if self.wrong or (found, hover) == (None, None):
            return
        if hover and is_note(hover):
            at = hover["range"]["start"]["line"]
            faults = [it[0] for it in self.model.checker.found(text) if it[1] == "E02"]
            self.wrong = "" if at in faults else f"{hover} in line {at}, where no E02 is"
            return
        if not found or not hover:
            self.wrong = f"at {line}:{character} {found} is declared, and {hover} told"
            return
        wanted = line_of(text, offsets_of(text, found["range"], self.model.is_utf8)[0])
        if hover["contents"]["value"].split("\n")[0] != wanted:
            self.wrong = f"at {line}:{character} {hover} is told in place of {wanted!r}"


def talk(server, cli, number, seed):
    """For each message of a talk what is wrong with what is published after it."""
    chance = random.Random(seed)
    is_utf8 = bool(seed % 2)
    encodings = ["utf-16", "utf-8"] if is_utf8 else None
    checker = Checker(cli)
    model = Model(checker)
    it = Server(server)
    asking = Asking(it, model, seed)
    it.send(frame(initialize(encodings)) + frame(note("initialized")))
    text = some_text(chance, 90).encode()
    bodies = [initialize(encodings), note("initialized"), did_open(URI, text.decode())]
    it.send(frame(bodies[2]))
    for body in bodies:
        for wanted in model.heard(json.dumps(body)):
            yield wrong_in(it.body(), wanted, is_utf8)
    for version in range(1, number + 1):
        changes, text = some_changes(chance, text, is_utf8)
        it.send(frame(did_change(URI, changes, version)))
        wanted = {
            "findings": checker.found(text)[:1000],
            "text": text,
            "params": {"uri": URI, "version": version},
        }
        wrong = wrong_in(it.body(), wanted, is_utf8)
        model.documents[URI] = "checked", version, text
        if not wrong and version % 5 == 0:
            wrong = asking.ask_some(text)
        yield wrong and f"message {version}, {json.dumps(changes)}: {wrong}"
        if wrong:
            break
    it.send(frame(request(2, "shutdown")) + frame(note("exit")))
    _, errors, status = it.end()
    checker.end()
    yield "" if (errors, status) == (b"", 0) else f"status {status}, {errors!r}"


def cases(server, cli, number=20000, seed=1):
    """Talks of 500 messages, by turns in UTF-16 and UTF-8."""
    for first in range(0, number, 500):
        at = seed * 1000 + first // 500
        for wrong in talk(server, cli, min(500, number - first), at):
            yield f"edits of seed {at}", wrong


def main():
    server, cli, number, seed = sys.argv[1:]
    told = cases(server, cli, int(number), int(seed))
    failed = [f"{name}: {wrong}" for name, wrong in told if wrong]
    print("\n".join(failed) or f"{number} messages: none differs")
    return 1 if failed else 0


if __name__ == "__main__":
    sys.exit(main())
