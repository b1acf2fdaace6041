"""What a hover says of the token at fault in a faulty item, by a second judge (recogniser.py): where
E02 stands, it names exactly what may come there, and the word that a name was meant for."""
import json
import os
import random
import sys

from protocol import ask, bodies, did_change, did_open, frame, initialize, note, request, run

sys.path.insert(0, os.path.dirname(os.path.dirname(os.path.realpath(__file__))))
from recogniser import TOKENS, Reading, read  # noqa: E402

URI = "file:///a.stt"
PREFIXES, AT_ONCE = 5000, 500
# How tokens of a class are spelled; some names are nearly words.
SPELLED = {
    "NAME": "x level stat staet whn els exitt moniter sync2 i_f assing".split(),
    "INT": ["0", "12", "0x1F"],
    "FLOAT": ["1.5", "2e3"],
    "TEXT": ['"pv"', '""'],
    "CHAR": ["'a'"],
    "CCODE": ["%{ if }%"],
}
CLASSES = {
    "NAME": "a name",
    "INT": "an integer",
    "FLOAT": "a floating-point number",
    "TEXT": "a string",
    "CHAR": "a character",
    "CCODE": "C code",
}


# ---- what a message names


def after(text):
    return read(text.split())[0].next()


OPERATORS = after("exit { NAME") - {";", ","}
# What a group stands for; an operator is one that assigns or not.
GROUPS = {
    "an item": [after("")],
    "a statement": [after("exit {") - {"}"}],
    "a member of a state": [after("state NAME {") - {"}"}],
    "an operator": [OPERATORS, after("exit { NAME + NAME") - {";", ","}],
    "an operand": [after("exit { NAME =")],
    "a type": [after("int NAME (") - {")"}],
    "a clause": [{"assign", "monitor", "sync", "syncq", "syncQ"}],
}
PHRASES = {CLASSES.get(token, f"'{token}'"): token for token in TOKENS}


def phrases_of(message):
    """The phrases of a message: `expected A, B or C`."""
    assert message.startswith("expected "), message
    rest, found = message.removeprefix("expected "), []
    while rest:
        phrase = next(it for it in (*PHRASES, *GROUPS) if rest.startswith(it))
        rest = rest.removeprefix(phrase)
        found.append(phrase)
        mark = next((it for it in (", ", " or ") if rest.startswith(it)), "")
        assert bool(mark) == bool(rest), message
        rest = rest.removeprefix(mark)
        assert mark != " or " or rest in PHRASES or rest in GROUPS, message
    return found


def names(message, wanted):
    """Whether the message names just these tokens, each once."""
    phrases = phrases_of(message)
    choices = [GROUPS.get(it) or [{PHRASES[it]}] for it in phrases]
    fitting = [[tokens for tokens in them if tokens <= wanted] for them in choices]
    if len(set(phrases)) < len(phrases) or not all(fitting):
        return False
    # The widest that fits is meant.
    return set().union(*(max(them, key=len) for them in fitting)) == wanted


# ---- the word that was meant


def distance(one, other):
    """Letters put in, left out, replaced, or two that have changed places."""
    rows = [list(range(len(other) + 1))]
    for i, a in enumerate(one, 1):
        row = [i]
        for j, b in enumerate(other, 1):
            least = min(rows[-1][j] + 1, row[-1] + 1, rows[-1][j - 1] + (a != b))
            if i > 1 and j > 1 and one[i - 2 : i] == other[j - 2 : j][::-1]:
                least = min(least, rows[-2][j - 2] + 1)
            row.append(least)
        rows.append(row)
    return rows[-1][-1]


def meant(name, wanted):
    """The words that may have been meant by a name; none, where none is near."""
    far = {word: distance(name, word) for word in wanted if word[0].islower()}
    least = min(far.values(), default=99)
    few = min(len(name) // 3, 3)
    return {word for word, it in far.items() if it == least} if least <= few else set()


# ---- random items


def spelled(chance, tokens):
    return [chance.choice(SPELLED.get(token, [token])) for token in tokens]


def begun(chance):
    """The beginning of an item, and the tokens that may come after it."""
    reading, tokens = Reading(), []
    for _ in range(chance.choice((0, 1, 2, 3, 5, 8, 13, 21, 34))):
        may_come = sorted(reading.next())
        if not may_come:
            break
        # Names are what most programs have most of.
        token = "NAME" if "NAME" in may_come and chance.random() < 0.4 else chance.choice(may_come)
        reading.take(token)
        tokens.append(token)
    return tokens, reading


def wrong_after(chance, tokens, may_come):
    """A token that may not come and doesn't end the item before it, if there is one."""
    if tokens and tokens[0] in ("ss", "program"):
        return None
    ends = {"ss", "program"} if tokens else set()
    if tokens.count("{") == tokens.count("}"):
        ends.add("}")
    return chance.choice(sorted(set(TOKENS) - may_come - ends))


def faulty_item(chance):
    """A faulty item: its tokens, the number of the one at fault, and what may come there."""
    tokens, reading = begun(chance)
    wanted = reading.next()
    if not wanted:
        return faulty_item(chance)
    wrong = wrong_after(chance, tokens, wanted)
    if tokens and not reading.complete and (wrong is None or chance.random() < 0.4):
        return spelled(chance, tokens), len(tokens) - 1, wanted, None
    if wrong is None:
        return faulty_item(chance)
    words = spelled(chance, [*tokens, wrong])
    name = words[-1] if wrong == "NAME" else None
    # What comes after the token at fault plays no part.
    more = spelled(chance, chance.choices(TOKENS, k=chance.randrange(4)))
    return words + more, len(tokens), wanted, name


def wrong_in_message(message, wanted, name):
    """What is wrong in a message, in one line; nothing, if it is right."""
    words = meant(name, wanted) if name else set()
    if words:
        message, mark, word = message.partition("; did you mean '")
        if not mark or word.removesuffix("'?") not in words:
            return f"{word!r} was meant, and not one of {words}"
    return "" if names(message, wanted) else f"{message} in place of {sorted(wanted)}"


# ---- the server


def laid_out(chance, words):
    """A text of these tokens, and where each begins: its line and the character in it."""
    text, places, line, character = "", [], 0, 0
    for word in words:
        places.append((line, character))
        gap = "\n" if chance.random() < 0.1 else " "
        text += word + gap
        line, character = (line + 1, 0) if gap == "\n" else (line, character + len(word) + 1)
    return text, places


def hovers(server, texts, places):
    """What is told at a place of each text, which a document has one after the other."""
    messages = [initialize(), note("initialized"), did_open(URI, "")]
    for number, (text, place) in enumerate(zip(texts, places), 2):
        messages += [did_change(URI, [{"text": text}], number), ask(number, "hover", URI, *place)]
    messages += [request(1, "shutdown"), note("exit")]
    out, errors, status = run(server, b"".join(frame(it) for it in messages))
    answers = [json.loads(it) for it in bodies(out)]
    if errors or status:
        raise ValueError(f"status {status}, {errors!r}")
    told = {it["id"]: it.get("result") for it in answers if "id" in it}
    return [told[number] for number in range(2, len(texts) + 2)]


def wrong_in_hover(hover, item, place):
    words, at, wanted, name = item
    if not hover:
        return "no hover"
    line, character = place
    end = {"line": line, "character": character + len(words[at])}
    if hover["range"] != {"start": {"line": line, "character": character}, "end": end}:
        return f"the range is {hover['range']}"
    return wrong_in_message(hover["contents"]["value"], wanted, name)


def cases(server, _cli):
    for seed in range(PREFIXES // AT_ONCE):
        chance = random.Random(seed)
        items = [faulty_item(chance) for _ in range(AT_ONCE)]
        laid = [laid_out(chance, item[0]) for item in items]
        places = [at[item[1]] for item, (_, at) in zip(items, laid)]
        found = hovers(server, [text for text, _ in laid], places)
        wrong = ""
        for item, place, hover in zip(items, places, found):
            if it := wrong_in_hover(hover, item, place):
                wrong = f"{' '.join(item[0])}, token {item[1]}: {it}"
                break
        yield f"what may come in {AT_ONCE} items, {seed}", wrong
