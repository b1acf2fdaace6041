"""Wrong bodies in a copy of a proved crate: planting them, one check of all, and what it refuses.

A function is proved against the contracts of what it calls, whatever their bodies are. So many
wrong bodies are planted at once, at most one in a function, and one check of these functions alone
tells which it refuses. All others are taken at their word: the gate has checked them, and here each
has a stub for its body and a hole for its proof, which the prover takes for a proof.

The libraries below a crate are those that `rt ci` or `rt lib` left in its folder out/rlib.
"""
import os
import re
import shutil
import subprocess
import tempfile

PARTS = ("src", "specs", "proofs")
# A check that has not ended after so many seconds is stopped.
LIMIT = 3600
# These name what an edit took away, and so say nothing of the contract.
NAMES_ALONE = re.compile(r"that can be named from here|is not in scope|has no field|has no `")


class Stop(Exception):
    """Why nothing can be tried, in one line."""


class Function:
    """A function of the sources: its path as the check prints it, its file and its lines.

    Functions that call one another have a name for their cycle, and one proof.
    """

    def __init__(self, path, file, lines, cycle, is_const):
        self.path, self.file, self.cycle, self.is_const = path, file, cycle, is_const
        self.first, self.opens, self.last = lines
        self.proof = path.replace("::", "/")

    def words(self, texts):
        """The names in it."""
        lines = texts[self.file].split("\n")[self.first : self.last + 1]
        return re.findall(r"\w+", "\n".join(lines))

    def folders(self):
        """The folders of its proof below proofs/, and of those of its closures."""
        module, _, name = self.path.rpartition("::")
        return [self.proof, f"{module.replace('::', '/')}/fn/{name}".lstrip("/")]

    def is_named(self, path):
        """Whether a line of the check is of this function or of a closure in it."""
        module, _, name = self.path.rpartition("::")
        inside = f"{module}::fn::{name}::" if module else f"fn::{name}::"
        return path == self.path or path.startswith(inside)


def name_cycles(functions):
    """The proof of a cycle stands where all of its functions are."""
    for cycle in {it.cycle for it in functions if it.cycle}:
        members = [it for it in functions if it.cycle == cycle]
        shared = os.path.commonpath(["/" + os.path.dirname(it.proof) for it in members])
        for it in members:
            it.proof = f"{shared}/+{cycle}".lstrip("/")


def name_cycle(function):
    """Of a function that calls itself, the cycle has its own name."""
    home, _, name = function.proof.rpartition("/")
    function.cycle, function.proof = name, f"{home}/+{name}".lstrip("/")


def module_of(file):
    """The module of a source file, as a list of at most one path."""
    module = re.sub(r"^src/|\.rt$", "", file).replace("/", "::")
    return [] if module in ("lib", "main") else [module]


def homes_of(texts):
    """The modules of each type of a crate, which are as many as there are types of that name."""
    types = r"(?m)^(?:pub(?:\([^)]*\))? )?(?:struct|enum) (\w+)"
    homes = {}
    for file, text in texts.items():
        for it in re.findall(types, text):
            homes.setdefault(it, []).append(module_of(file))
    return homes


def home_of(owner, homes, here, text):
    """Where the methods of a type are told: the module of the type that a file means."""
    modules = homes.get(owner, [here])
    if here in modules:
        return here
    for it in modules:
        last = "::".join(it).rpartition("::")[2]
        if re.search(rf"\b{last}::(?:\{{[^}}]*)?\b{owner}\b", text):
            return it
    return modules[0]


def functions_of(file, text, homes):
    """The functions of a source file, as rt fmt lays it out."""
    here = outer = module_of(file)
    owner, found, cycle, lines = [], [], None, text.split("\n")
    for number, line in enumerate(lines):
        head = re.match(r"(?:unsafe )?(?:pub(?:\([^)]*\))? )?(impl|trait)\b(.*)", line)
        if head:
            owner = [owner_of(head[1], whole_head(lines, number))]
            outer = home_of(owner[0], homes, here, text)
        elif line == "}":
            owner, outer = [], here
        named = re.search(r"#\[cycle\((\w+)\)\]", line)
        cycle = named[1] if named else cycle
        start = re.match(r"(\s*)(?:pub(?:\([^)]*\))? )?(?:const )?(?:unsafe )?fn (\w+)", line)
        if start and len(start[1]) == 4 * len(owner):
            last = end_of(lines, number, start[1])
            if last is not None:
                path = "::".join([*outer, *owner, start[2]])
                places = top_of(lines, number), brace_of(lines, number, last, start[1]), last
                found.append(Function(path, file, places, cycle, " const fn " in f" {line}"))
            cycle = None
    return found


def whole_head(lines, number):
    """The head of an impl or a trait, up to its brace."""
    head = ""
    for line in lines[number:]:
        head += " " + line.strip()
        if line.rstrip().endswith(("{", "{}")):
            break
    return head


def owner_of(kind, head):
    """What stands for an impl or a trait in a path: TYPE, for a trait's impl TYPETRAIT, and for one
    of From with what it is made of, TYPEFromOTHER."""
    plain = head
    while re.search(r"<[^<>]*>", plain):
        plain = re.sub(r"<[^<>]*>", "", plain.replace("->", ""))
    words = re.search(rf"\b{kind}\s+(?:!?([\w:]+)\s+for\s+)?[&\[]*([\w:]+)", plain)
    if not words:
        return "?"
    trait, name = (words[1] or "").rpartition("::")[2], words[2].rpartition("::")[2]
    made_of = re.search(r"\bFrom<([\w:]+)", head)
    if trait == "From" and made_of:
        trait += made_of[1].rpartition("::")[2]
    return name if trait in ("", "Drop") else name + trait


def top_of(lines, number):
    """The line on which a function's attributes and comments begin."""
    while number and re.match(r"\s*(#\[|//)", lines[number - 1]):
        number -= 1
    return number


def brace_of(lines, number, last, indent):
    """The line of the brace that opens a function's body: its own, where there are clauses."""
    body = range(number, last + 1)
    heads = rf"{indent}(\S.*)?\{{$"
    own = next((at for at in body if lines[at].rstrip() == indent + "{"), None)
    return next((at for at in body if re.match(heads, lines[at])), last) if own is None else own


def end_of(lines, number, indent):
    """The line of the brace that ends a function, or none where it has no body."""
    for at in range(number, len(lines)):
        line = lines[at].rstrip()
        if line in (indent + "}", indent + "{}") or (at == number and line.endswith("}")):
            return at
        if line.endswith(";") and re.match(rf"{indent}(\S|    (requires|ensures))", line):
            return None
    return None


def put_stub(lines, function):
    """Takes the body away of a function. The lines of others stay where they are."""
    for number in range(function.first, function.opens):
        if re.match(r"\s*#\[cycle\(", lines[number]):
            lines[number] = ""
    length = function.last - function.opens - 1
    if length > 0:
        lines[function.opens + 1 : function.last] = ["unreachable!()"] + [""] * (length - 1)


class Crates:
    """The crates of a checkout, and how the prover is called for one."""

    def __init__(self, root):
        self.root, self.of_kit, self.deps = root, {}, {}
        page = subprocess.run(["rt", "doc"], capture_output=True, text=True, check=False).stdout
        self.kit = os.path.dirname(page.strip())
        if not os.path.isdir(f"{self.kit}/rlibs"):
            raise Stop("rt is not installed")
        with open(f"{root}/crates.txt", encoding="utf-8") as file:
            rows = [it.partition("#")[0].partition(":") for it in file]
        rows = {head.split()[0]: rest.split() for head, _, rest in rows if head.strip()}
        for name, named in rows.items():
            self.deps[name] = [it for it in named if it in rows]
            self.of_kit[name] = [it for it in named if it not in rows]

    def below(self, name):
        """The crates that it is built on, each before those that need it."""
        found = []
        for low in self.deps[name]:
            found += [it for it in [*self.below(low), low] if it not in found]
        return found

    def library(self, name):
        return f"{self.root}/crates/{name}/out/rlib/{name}.rlib"

    def words(self, name):
        """The words of a check of the crate, in a folder that has its parts."""
        is_program = os.path.exists(f"{self.root}/crates/{name}/src/main.rt")
        rlibs = f"{self.kit}/rlibs"
        words = ["--crate-name", name, "src/main.rt" if is_program else "src/lib.rt"]
        for it in ["std", *self.of_kit[name]]:
            words += ["--extern", f"{it}={rlibs}/{it}.rlib"]
        words += ["-L", f"dependency={rlibs}"]
        for it in self.deps[name]:
            words += ["--extern", f"{it}={self.library(it)}"]
        for it in self.below(name):
            words += ["-L", f"dependency={os.path.dirname(self.library(it))}"]
        words += ["--antt-project", f"{self.kit}/rattle/logic/antt-project.json"]
        return [*words, "--logic-built", f"{self.kit}/logic_built", "--jobs", "1"]

    def need_libraries(self, name, are_new=False):
        """Has the libraries below a crate: as `rt ci` has just built them, or built where they are
        older than their sources. A library fits only those that it was built over, so then `rt`
        goes over all of them."""
        made = {it: f"{self.library(it)}/format" for it in self.below(name)}
        lacking = [it for it, file in made.items() if not os.path.exists(file)]
        if are_new and lacking:
            raise Stop(f"rt ci has left no library of {lacking[0]}, which {name} is built on")
        old = [it for it, file in made.items() if is_newer(f"{self.root}/crates/{it}", file)]
        if are_new or not old:
            return
        for low in self.deps[name]:
            ran = subprocess.run(
                ["rt", "lib", "--jobs", "1"],
                cwd=f"{self.root}/crates/{low}",
                stdin=subprocess.DEVNULL,
                capture_output=True,
                text=True,
                check=False,
            )
            if ran.returncode:
                raise Stop(f"{low}, which {name} is built on, is not proved")


def is_newer(folder, made):
    """Whether a source of a crate is newer than what was made of it, or nothing was."""
    if not os.path.exists(made):
        return True
    time = os.stat(made).st_mtime
    walks = (it for part in PARTS for it in os.walk(f"{folder}/{part}"))
    return any(os.stat(f"{at}/{it}").st_mtime > time for at, _, names in walks for it in names)


class Room:
    """A copy of a crate, in which wrong bodies are planted."""

    def __init__(self, crates, name):
        self.crates, self.name = crates, name
        self.home = f"{crates.root}/crates/{name}"
        self.folder = tempfile.mkdtemp(prefix="wrong-bodies-")
        self.texts, self.functions = {}, []
        for at, _, names in os.walk(f"{self.home}/src"):
            for it in names:
                path = os.path.relpath(f"{at}/{it}", self.home)
                with open(f"{self.home}/{path}", encoding="utf-8") as file:
                    self.texts[path] = file.read()
        homes = homes_of(self.texts)
        for path in sorted(self.texts):
            self.functions += functions_of(path, self.texts[path], homes)
        name_cycles(self.functions)
        for it in self.functions:
            home, _, name = it.proof.rpartition("/")
            if os.path.isdir(f"{self.home}/proofs/{home}/+{name}"):
                name_cycle(it)
        self.no_stubs = set()

    def __enter__(self):
        return self

    def __exit__(self, *_):
        shutil.rmtree(self.folder, ignore_errors=True)

    def function_at(self, path, line):
        """The innermost function that has a line of a file, or none."""
        around = [it for it in self.functions if it.file == path and it.first <= line <= it.last]
        return max(around, key=lambda it: it.first, default=None)

    def functions_by(self, path, line):
        """The functions that a line is of: the one that has it, or those that name its constant."""
        function = self.function_at(path, line)
        if function:
            return [function]
        text = self.texts[path].split("\n")[line]
        constant = re.match(r"\s*(?:pub(?:\([^)]*\))? )?(?:const|static) (\w+)", text)
        return [it for it in self.functions if constant and constant[1] in it.words(self.texts)]

    def lay_out(self, texts, planted):
        """Puts the crate's parts there: with these texts, and with stubs for all not planted."""
        for part in PARTS:
            shutil.rmtree(f"{self.folder}/{part}", ignore_errors=True)
            if os.path.isdir(f"{self.home}/{part}"):
                shutil.copytree(f"{self.home}/{part}", f"{self.folder}/{part}")
        kept = {it.proof for it in planted} | self.no_stubs
        stubs = [it for it in self.functions if it.proof not in kept and not it.is_const]
        for path, text in texts.items():
            lines = text.split("\n")
            for it in sorted((it for it in stubs if it.file == path), key=lambda it: -it.first):
                put_stub(lines, it)
            with open(f"{self.folder}/{path}", "w", encoding="utf-8") as file:
                file.write("\n".join(lines))
        for it in stubs:
            self.put_hole(it)

    def put_hole(self, function):
        """Takes a function at its word: its proof is a hole."""
        for folder in function.folders():
            shutil.rmtree(f"{self.folder}/proofs/{folder}", ignore_errors=True)
        at = function.path.replace("::", "/")
        os.makedirs(f"{self.folder}/proofs/{at}", exist_ok=True)
        name = os.path.basename(at)
        with open(f"{self.folder}/proofs/{at}/Proof.antt", "w", encoding="utf-8") as file:
            stated = f"Rattle.{self.name}.proofs.{at.replace('/', '.')}.Statement"
            file.write(f"use {stated}.{{statement}}\n\n")
            file.write(f"pub {name}_spec : {{M : Type 1}} → statement M\n{name}_spec = ?\n")

    def learns(self, said):
        """Whether a check tells of functions that can't have a stub."""
        lost = {it.replace("::", "/") for it in re.findall(r"has no function `(\S+)` for", said)}
        self.no_stubs |= lost
        return bool(lost)

    def check(self, texts, planted, keep=None):
        """What one check says of the crate with these texts."""
        words = [f"{self.crates.kit}/bin/rattle", "check", *self.crates.words(self.name)]
        words += ["--allow-holes"]
        for it in planted:
            words += ["--only", it.path]
        self.lay_out(texts, planted)
        answer = Answer(self.name, run(words, self.folder))
        if not answer.is_whole and self.learns(answer.said):
            self.lay_out(texts, planted)
            answer = Answer(self.name, run(words, self.folder))
        if keep:
            with open(keep, "a", encoding="utf-8") as file:
                file.write(answer.said)
        return answer


def run(words, folder):
    """What a command writes. One that takes too long is stopped."""
    try:
        ran = subprocess.run(
            words,
            cwd=folder,
            stdin=subprocess.DEVNULL,
            stdout=subprocess.PIPE,
            stderr=subprocess.STDOUT,
            text=True,
            errors="replace",
            timeout=LIMIT,
            check=False,
        )
        return ran.stdout
    except subprocess.TimeoutExpired:
        return f"the check has not ended after {LIMIT} seconds"


class Answer:
    """What a check said: whether there is a verdict, and of each function which goals are open."""

    def __init__(self, crate, said):
        self.crate, self.said, self.lines = crate, said, said.split("\n")
        self.is_whole = bool(re.search(r"^only=\d+ (holes|proved)=|^holes=\d|^logic=", said, re.M))
        self.of = {}
        for line in self.lines:
            found = re.match(rf"fn {crate}::(\S+?): (.*)", line)
            if found:
                self.of[found[1]] = found[2]

    def complaint(self):
        """The first line that says why there is no verdict."""
        errors = [it for it in self.lines if re.search(r"\berror\b", it)]
        return (errors or [it for it in self.lines if it.strip()] or ["nothing was said"])[0][:300]

    def goals(self, function):
        """The goals of a function's own that aren't proved, as the check names them."""
        found = set()
        lines = range(function.first + 1, function.last + 2)
        for line in self.lines:
            note = re.match(r"(?:note: )?(\S+?):(\d+):\d+: it is not proved.*?\(`([^`]+)`\)", line)
            if note and note[1] == function.file and int(note[2]) in lines:
                found.add(note[3])
            error = re.match(r"\./proofs/(\S+)/\w+\.antt:\d+:\d+: error: `([^`]+)`: (.*)", line)
            if error and self.is_in(error[1], function) and not NAMES_ALONE.search(error[3]):
                found.add(error[2])
        for path, said in self.of.items():
            if function.is_named(path) and said.startswith(("not proved", "no proof")):
                found |= set(re.findall(r"did not prove `([^`]+)`", said))
                for dotted in re.findall(rf"`Rattle\.{self.crate}\.proofs\.([^`]+)`", said):
                    module, _, goal = dotted.rpartition(".")
                    if self.is_in(module.replace(".", "/").rpartition("/")[0], function):
                        found.add(goal)
        return found

    @staticmethod
    def is_in(folder, function):
        return any(folder == it or folder.startswith(f"{it}/") for it in function.folders())

    def says_of(self, function):
        """The check's lines on a function and its closures."""
        return [said for path, said in self.of.items() if function.is_named(path)]
