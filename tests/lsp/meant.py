"""What each name of a text means, by the rules in words of docs/LANGUAGE.md: a plain reader of
whole texts, which keeps nothing and is no part of the product. It is there to be compared with."""
import re

WORDS = set(
    """program ss state entry exit when option assign to monitor sync syncq syncQ foreign if else
    while for break continue return sizeof const void char short int long unsigned int8_t
    uint8_t int16_t uint16_t int32_t uint32_t float double string evflag enum struct union
    typename""".split()
)
MARKS = """{ } ( ) [ ] ; , . -> ++ -- ! ~ + - * / % & | ^ && || << >> < > <= >= == != = += -= *= /=
%= &= |= ^= <<= >>= ? :""".split()
MARKS.sort(key=len, reverse=True)
ASSIGNING = {"=", "+=", "-=", "*=", "/=", "%=", "&=", "|=", "^=", "<<=", ">>="}
# From the loosest binding to the tightest.
BINARY = [{"||"}, {"&&"}, {"|"}, {"^"}, {"&"}, {"==", "!="}, {"<", ">", "<=", ">="}, {"<<", ">>"},
          {"+", "-"}, {"*", "/", "%"}]
PREFIXES = {"+", "-", "!", "~", "*", "&", "++", "--"}
SIZED = {"char", "short", "int", "long"}
PLAIN = {"void", "int8_t", "uint8_t", "int16_t", "uint16_t", "int32_t", "uint32_t", "float",
         "double", "string", "evflag"}
TAGGED = {"enum", "struct", "union", "typename"}
TYPES = SIZED | PLAIN | TAGGED | {"unsigned", "const"}
DIGITS = r"(0[xX][0-9a-fA-F]+|0[0-7]*|[1-9][0-9]*)"
INTEGER = re.compile(DIGITS + r"(?:[uU]?(?:l|L|ll|LL)?|(?:l|L|ll|LL)[uU])\Z")
POINT, EXPONENT = r"(?:[0-9]+\.[0-9]*|\.[0-9]+)", r"[eE][+-]?[0-9]+"
FLOATING = re.compile(f"(?:{POINT}(?:{EXPONENT})?|[0-9]+{EXPONENT})[fFlL]?\\Z")
DEEPEST = 100


# ---- tokens


class Token:
    """A token: what it is (a name, an integer, .., or the word or mark itself), and where."""

    def __init__(self, kind, start, text):
        self.kind, self.start, self.text = kind, start, text


def number_kind(run):
    if found := INTEGER.match(run):
        digits = found.group(1)
        value = int(digits, 16 if digits[1:2] in ("x", "X") else 8 if digits[0] == "0" else 10)
        return "integer" if value < 1 << 64 else "bad"
    return "floating" if FLOATING.match(run) else "bad"


def number_end(text, at):
    """Where a number run ends: a sign belongs to it after an `e` with digits and dots before it."""
    start = at
    while at < len(text):
        if re.match(r"[A-Za-z0-9_.]", text[at]):
            at += 1
        elif re.fullmatch(r"[0-9.]+[eE][+-]", text[start : at + 1]):
            at += 1
        else:
            break
    return at


def quoted_end(text, at):
    """Where a string or a character ends, and whether it is closed."""
    quote, at = text[at], at + 1
    while at < len(text) and text[at] not in (quote, "\n"):
        if text[at] == "\\":
            at += 1
        at += 1
    if at >= len(text):
        return len(text), False
    return (at + 1, True) if text[at] == quote else (at, False)


def begins(text, at):
    """Whether a piece other than a run of bad bytes begins here."""
    return bool(re.match(r"[ \t\n\r\v\fA-Za-z0-9_#\"']", text[at])) or any(
        text.startswith(it, at) for it in MARKS
    )


def piece_at(text, at):
    """The kind of the piece at a place, none for those that are no token, and where it ends."""
    if found := re.compile(r"[ \t\n\r\v\f]+").match(text, at):
        return None, found.end()
    for mark, end, kind in (("/*", "*/", None), ("%{", "}%", "C")):
        if text.startswith(mark, at):
            stop = text.find(end, at + 2)
            return ("bad", len(text)) if stop < 0 else (kind, stop + 2)
    for mark, kind in (("//", None), ("#", None), ("%%", "C")):
        if text.startswith(mark, at):
            stop = text.find("\n", at)
            return kind, len(text) if stop < 0 else stop
    if found := re.compile(r"[A-Za-z_][A-Za-z0-9_]*").match(text, at):
        return (found.group() if found.group() in WORDS else "name"), found.end()
    if re.compile(r"\.?[0-9]").match(text, at):
        stop = number_end(text, at)
        return number_kind(text[at:stop]), stop
    if text[at] in "\"'":
        stop, closed = quoted_end(text, at)
        return ("text" if text[at] == '"' else "character") if closed else "bad", stop
    for mark in MARKS:
        if text.startswith(mark, at):
            return mark, at + len(mark)
    stop = at + 1
    while stop < len(text) and not begins(text, stop):
        stop += 1
    return "bad", stop


def tokens_of(text):
    found, at = [], 0
    while at < len(text):
        kind, stop = piece_at(text, at)
        if kind:
            found.append(Token(kind, at, text[at:stop]))
        at = stop
    return found


# ---- items


def run_of(tokens, at, kinds):
    """Where as much of a head as is there ends: each kind once, but texts as often as they come."""
    for kind in kinds:
        if at == len(tokens) or tokens[at].kind != kind:
            break
        at += 1
        while kind == "text" and at < len(tokens) and tokens[at].kind == "text":
            at += 1
    return at


def item_end(tokens, at):
    """Where the item that begins here ends."""
    first = tokens[at].kind
    if first == "ss":
        return run_of(tokens, at, ["ss", "name", "{"])
    if first == "program":
        return run_of(tokens, at, ["program", "name", "(", "text", ")"])
    if first in ("}", "C", ";"):
        return at + 1
    opened = []
    for number in range(at, len(tokens)):
        kind = tokens[number].kind
        if kind in ("ss", "program") or kind == "}" and not opened:
            return number
        if kind == ";" and not opened:
            return number + 1
        if kind == "{":
            opened.append(number > at and tokens[number - 1].kind == ")")
        elif kind == "}":
            after_list = opened.pop()
            if not opened and (after_list or first in ("state", "entry", "exit")):
                return number + 1
    return len(tokens)


def items_of(tokens):
    at = 0
    while at < len(tokens):
        stop = item_end(tokens, at)
        yield tokens[at:stop]
        at = stop


# ---- the grammar


class Faulty(Exception):
    """The grammar has no tree for the tokens of an item."""


class Scope(list):
    """What is in a scope, in the order of the text: pairs of a kind and a token, and scopes."""


class Reader:
    """Reads one item: what its names are goes into scopes."""

    def __init__(self, tokens):
        self.tokens, self.at, self.level = tokens, 0, 0
        self.scope = self.outer = Scope()
        self.kind, self.prototype = "other", None
        self.in_transition = False

    def peek(self, ahead=0):
        at = self.at + ahead
        return self.tokens[at].kind if at < len(self.tokens) else None

    def take(self, *kinds):
        if self.peek() not in kinds or self.level > DEEPEST:
            raise Faulty
        self.at += 1
        return self.tokens[self.at - 1]

    def may(self, *kinds):
        return self.take(*kinds) if self.peek() in kinds else None

    def note(self, kind, token):
        self.scope.append((kind, token))

    def within(self, read, *given):
        self.level += 1
        read(*given)
        self.level -= 1

    def in_scope(self, read, *given):
        outer, self.scope = self.scope, Scope()
        outer.append(self.scope)
        read(*given)
        self.scope = outer

    def list_of(self, read, mark=","):
        read()
        while self.may(mark):
            read()

    # -- items

    def item(self):
        if any(it.kind == "bad" for it in self.tokens):
            raise Faulty
        first = self.peek()
        named = {"program": self.header, "ss": self.set_begin, "entry": self.own_block,
                 "exit": self.own_block, "state": self.state}
        if first in named:
            named[first]()
        elif first in ("}", "C", ";"):
            self.kind = "set end" if self.take(first).kind == "}" else "other"
        elif not self.part():
            if first == "struct" and self.peek(2) == "{":
                self.struct()
            else:
                self.declared(True)
        if self.at < len(self.tokens):
            raise Faulty

    def header(self):
        self.take("program")
        self.take("name")
        if self.may("("):
            self.within(self.texts)
            self.take(")")

    def texts(self):
        self.take("text")
        while self.may("text"):
            pass

    def set_begin(self):
        self.take("ss")
        self.note("own", self.take("name"))
        self.take("{")
        self.kind = "set begin"

    def own_block(self):
        self.take("entry", "exit")
        self.block()

    def part(self):
        """What may be at program level, in a state set and in a state, but for declarations."""
        first = self.peek()
        read = {"option": self.option, "foreign": self.foreign, "assign": self.assign,
                "monitor": self.monitor, "sync": self.sync, "syncq": self.syncq,
                "syncQ": self.syncq}.get(first)
        if not read:
            return False
        self.take(first)
        read()
        self.take(";")
        return True

    def option(self):
        self.take("+", "-")
        self.take("name")

    def foreign(self):
        self.list_of(lambda: self.note("declared", self.take("name")))

    def subscript(self):
        if self.may("["):
            self.within(self.take, "integer")
            self.take("]")
            return True
        return False

    def assign(self):
        self.note("outside", self.take("name"))
        if self.peek() == ";":
            return
        is_element = self.subscript()
        self.may("to")
        if self.peek() == "{" and not is_element:
            self.take("{")
            self.within(self.channels)
            self.take("}")
        else:
            self.texts()

    def channels(self):
        while self.peek() == "text":
            self.texts()
            if not self.may(","):
                break

    def monitor(self):
        self.note("outside", self.take("name"))
        self.subscript()

    def sync(self):
        self.monitor()
        self.may("to")
        self.note("outside", self.take("name"))

    def syncq(self):
        self.monitor()
        if self.may("to") or self.peek() == "name":
            self.note("outside", self.take("name"))
        self.may("integer")

    def struct(self):
        self.take("struct")
        self.take("name")
        self.take("{")
        self.within(self.struct_members)
        self.take("}")
        self.take(";")

    def struct_members(self):
        while self.peek() != "}":
            if not self.may("C"):
                self.declared(False, declares=False)

    def state(self):
        self.take("state")
        self.note("own", self.take("name"))
        self.kind = "state"
        self.take("{")
        self.level += 1
        self.in_scope(self.members)
        self.level -= 1
        self.take("}")

    def members(self):
        while self.peek() != "}":
            first = self.peek()
            if first in (";", "C"):
                self.take(first)
            elif first in ("entry", "exit"):
                self.own_block()
            elif first == "when":
                self.transition()
            elif not self.part():
                self.declared(False)

    def transition(self):
        self.take("when")
        self.take("(")
        if self.peek() != ")":
            self.within(self.expression)
        self.take(")")
        self.in_transition = True
        self.block()
        self.in_transition = False
        if not self.may("exit"):
            self.take("state")
            self.note("target", self.take("name"))

    # -- declarations

    def type(self):
        self.may("const")
        first = self.take(*SIZED, *PLAIN, *TAGGED, "unsigned").kind
        if first in TAGGED:
            self.take("name")
        if first == "unsigned" and self.peek() in SIZED:
            first = self.take(*SIZED).kind
        if first in ("short", "long"):
            self.may("int")
        self.may("const")

    def stars(self):
        while self.may("*"):
            self.may("const")

    def declared(self, may_be_function, declares=True):
        self.type()
        self.stars()
        name = self.take("name")
        if may_be_function and self.peek() == "(":
            self.function(name)
            return
        self.declarator(name, declares)
        while self.may(","):
            self.stars()
            self.declarator(self.take("name"), declares)
        self.take(";")

    def declarator(self, name, declares):
        if declares:
            self.note("declared", name)
        self.lengths()
        if self.may("="):
            self.value()

    def lengths(self):
        while self.may("["):
            if self.peek() != "]":
                self.within(self.expression)
            self.take("]")

    def value(self):
        if self.may("{"):
            self.within(self.values)
            self.take("}")
        else:
            self.without_commas()

    def values(self):
        while self.peek() != "}":
            self.value()
            if not self.may(","):
                break

    def function(self, name):
        # Without a body, no parameter is declared.
        has_body = self.tokens[-1].kind == "}"
        if has_body:
            self.note("declared", name)
        else:
            self.prototype = name
        self.in_scope(self.function_scope, has_body)

    def function_scope(self, has_body):
        self.take("(")
        if self.peek() != ")":
            self.level += 1
            self.list_of(lambda: self.parameter(has_body))
            self.level -= 1
        self.take(")")
        if has_body:
            self.block()
        else:
            self.take(";")

    def parameter(self, is_declared):
        self.type()
        self.stars()
        if name := self.may("name"):
            if is_declared:
                self.note("declared", name)
        self.lengths()

    # -- statements

    def block(self):
        self.take("{")
        self.level += 1
        self.in_scope(self.contents)
        self.level -= 1
        self.take("}")

    def contents(self):
        while self.peek() != "}":
            if self.peek() in TYPES:
                self.declared(False)
            else:
                self.statement()

    def body(self):
        """The body of an `if` and the like: a level, where it is no block."""
        if self.peek() == "{":
            self.block()
        else:
            self.within(self.statement)

    def statement(self):
        first = self.peek()
        if first == "{":
            self.block()
        elif first == "C":
            self.take("C")
        elif first in ("if", "while"):
            self.take(first)
            self.take("(")
            self.within(self.expression)
            self.take(")")
            self.body()
            if first == "if" and self.may("else"):
                if self.peek() == "if":
                    self.statement()
                else:
                    self.body()
        elif first == "for":
            self.loop()
        else:
            self.simple(first)

    def loop(self):
        self.take("for")
        self.take("(")
        self.level += 1
        for end in (";", ";", ")"):
            if self.peek() != end:
                self.expression()
            self.level -= end == ")"
            self.take(end)
        self.body()

    def simple(self, first):
        if first in ("break", "continue"):
            self.take(first)
        elif first == "state":
            # Outside the block of a transition it leads nowhere.
            self.take("state")
            name = self.take("name")
            if self.in_transition:
                self.note("target", name)
        else:
            self.may("return")
            if self.peek() != ";":
                self.expression()
        self.take(";")

    # -- expressions

    def expression(self):
        self.list_of(self.without_commas)

    def without_commas(self):
        self.prefixed()
        if self.may(*ASSIGNING):
            self.without_commas()
        else:
            self.condition_after(0)

    def condition_after(self, level):
        """The rest of a condition, the first operand of which is read."""
        self.operands_after(level)
        if self.may("?"):
            self.within(self.expression)
            self.take(":")
            self.prefixed()
            self.condition_after(0)

    def operands_after(self, loosest):
        """The operands after the first one, by marks that bind so tightly or more."""
        for level in range(len(BINARY) - 1, loosest - 1, -1):
            while self.may(*BINARY[level]):
                self.prefixed()
                self.operands_after(level + 1)

    def prefixed(self):
        after_sizeof = False
        while True:
            if self.peek() in PREFIXES:
                self.take(self.peek())
                after_sizeof = False
            elif self.peek() == "(" and self.peek(1) in TYPES:
                self.typed()
                if after_sizeof:
                    self.followed()
                    return
                after_sizeof = False
            elif self.may("sizeof"):
                after_sizeof = True
            else:
                break
        self.operand()
        self.followed()

    def typed(self):
        self.take("(")
        self.within(self.type_and_stars)
        self.take(")")

    def type_and_stars(self):
        self.type()
        self.stars()

    def operand(self):
        if self.may("("):
            self.within(self.expression)
            self.take(")")
        elif self.peek() == "text":
            self.texts()
        elif name := self.may("name"):
            self.note("used", name)
        else:
            self.take("integer", "floating", "character")

    def followed(self):
        while True:
            if self.may("["):
                self.within(self.expression)
                self.take("]")
            elif self.may("("):
                if self.peek() != ")":
                    self.level += 1
                    self.list_of(self.without_commas)
                    self.level -= 1
                self.take(")")
            elif self.may(".", "->"):
                self.take("name")
            elif not self.may("++", "--"):
                return


# ---- what names mean


class Item:
    """An item: its tokens, what it is, and its scope; a faulty one has nothing in it."""

    def __init__(self, tokens):
        self.tokens, self.set = tokens, None
        reader = Reader(tokens)
        try:
            reader.item()
            self.kind, self.scope, self.prototype = reader.kind, reader.outer, reader.prototype
        except Faulty:
            self.kind, self.scope, self.prototype = "faulty", Scope(), None

    def state_name(self):
        """The name of the state that it is, or begins as."""
        kinds = [it.kind for it in self.tokens[:2]]
        return self.tokens[1] if kinds == ["state", "name"] else None


def firsts(names):
    """The first token of each name."""
    found = {}
    for token in names:
        found.setdefault(token.text, token)
    return found


class Meanings:
    """What the names of a text mean: pairs of tokens."""

    def __init__(self, text):
        self.items = [Item(it) for it in items_of(tokens_of(text))]
        self.pairs = []
        self.place_in_sets()
        self.declared = {}
        self.functions = set()
        self.states = {}
        for item in self.items:
            self.declare(item)
        for item in self.items:
            self.resolve(item)

    def place_in_sets(self):
        current = None
        for item in self.items:
            if item.kind == "set begin":
                current = item
            elif current:
                item.set = current
            if item.kind == "set end":
                current = None

    def declare(self, item):
        into = self.declared.setdefault(item.set, {})
        for it in item.scope:
            if not isinstance(it, Scope) and it[0] == "declared":
                into.setdefault(it[1].text, it[1])
                if item.tokens[-1].kind == "}" and item.kind == "other":
                    self.functions.add(it[1])
        if item.set and item.state_name():
            name = item.state_name()
            self.states.setdefault((item.set, name.text), name)

    def outside(self, item, name):
        """What a name means outside the blocks of an item."""
        for scope in (item.set, None):
            if name in self.declared.get(scope, {}):
                return self.declared[scope][name]
        return None

    def add(self, token, meant):
        if meant:
            self.pairs.append((token, meant))

    def resolve(self, item):
        if item.kind == "faulty":
            if item.state_name():
                self.add(item.state_name(), item.state_name())
            return
        self.resolve_scope(item, item.scope, [])
        if item.prototype:
            meant = self.outside(item, item.prototype.text)
            self.add(item.prototype, meant if meant in self.functions else None)

    def resolve_scope(self, item, scope, visible):
        pairs = [it for it in scope if not isinstance(it, Scope)]
        if scope is not item.scope:
            own = firsts(token for kind, token in pairs if kind == "declared")
            visible = [own, *visible]
        for it in scope:
            if isinstance(it, Scope):
                self.resolve_scope(item, it, visible)
            else:
                self.add(it[1], self.meant(item, *it, visible))

    def meant(self, item, kind, token, visible):
        if kind == "own":
            return token
        if kind == "target":
            return self.states.get((item.set, token.text)) if item.set else None
        for names in visible:
            if token.text in names:
                return names[token.text]
        return self.outside(item, token.text)


def mentions_of(data):
    """The names of a text that mean something, by where they begin: where that begins which each
    means. Prototypes are among them."""
    text = data.decode("latin-1")
    return {token.start: meant.start for token, meant in Meanings(text).pairs}


def definitions_of(data):
    """The same without the names of prototypes."""
    text = data.decode("latin-1")
    found = Meanings(text)
    prototypes = {it.prototype.start for it in found.items if it.prototype}
    return {
        token.start: meant.start for token, meant in found.pairs if token.start not in prototypes
    }


def names_of(data):
    """Where each name of a text begins."""
    return [it.start for it in tokens_of(data.decode("latin-1")) if it.kind == "name"]
