"""The wrong bodies of the crates and the records of what refused them: for check-tried, try-wrong-bodies and try-tested-bodies.

A wrong body is an edit in crates/CRATE/must-fail or in wrong-bodies/CRATE. One with a line `# test:`, `# row:` or `# tool:` is
refused by no clause: it has no place in a record. The file wrong-bodies/CRATE/TRIED says for which
text of the crate its wrong bodies were tried, and what the prover said of each:

    text SUM                    of src, specs, proofs and the crate's line of crates.txt, without comments and blank lines
    kit WORDS                   the kit that tried the last of them
    below CRATE SUM             of what this crate may cite of a crate below it, as it was then
    edit NAME SUM FUNCTION GOAL the sum of that text and the edit's own, and the function and the goal that the prover named first

The file wrong-bodies/TESTED has a line for each wrong body whose trial or row failed with it: its crate and name, the sum of it,
of the functions that it changes and of the trial or the row, the trial's or the row's name, and how that failed.
"""
import functools
import hashlib
import importlib.machinery
import importlib.util
import pathlib
import re
import subprocess
import sys

TOP = pathlib.Path(__file__).resolve().parent.parent
OWN_CLAUSE = re.compile(r"^(?:# )?clause: (\S+) (\S+)$", re.M)
NO_GOAL = "-"

# What begins a comment stands also in strings, and `--` within words of antt.
RUST = re.compile(r"""(?P<comment>//[^\n]*)|[bc]?r(?P<hash>#*)".*?"(?P=hash)|[bc]?"(?:[^"\\]|\\.)*"|'(?:\\[^\n]|[^\n\\])'""", re.S)
ANTT = re.compile(r"""(?P<comment>(?<![^ \n(){}.;,@"»])--[^\n]*)|"(?:[^"\\\n]|\\[^\n])*\"""")
COMMENTS = {".rt": (RUST, "/*"), ".antt": (ANTT, "{-")}
CONSTANT = re.compile(r"\b(?:const|static) (\w+)")
LEMMAS_OF = re.compile(r"\bRattle\.(\w+)\.proofs((?:\.\w+)+)")


def tool(name):
    """The module of a tool beside this one."""
    sys.dont_write_bytecode = True
    loader = importlib.machinery.SourceFileLoader(name.replace("-", "_"), str(TOP / "tools" / name))
    module = importlib.util.module_from_spec(importlib.util.spec_from_loader(loader.name, loader))
    loader.exec_module(module)
    return module


claims = tool("check-claims")


def kit():
    """The name of the kit, or nothing where there is none."""
    try:
        return subprocess.run(["rt", "version"], capture_output=True, text=True, check=True).stdout.strip()
    except (OSError, subprocess.CalledProcessError):
        return ""


def sum_of(*texts):
    return hashlib.sha256("\0".join(texts).encode()).hexdigest()[:16]


def plain(text, suffix):
    """A text without comments and blank lines. One that has a comment of several lines is taken as it is."""
    if suffix not in COMMENTS or COMMENTS[suffix][1] in text:
        return text
    text = COMMENTS[suffix][0].sub(lambda it: "" if it["comment"] else it[0], text)
    return "\n".join(line.rstrip() for line in text.split("\n") if line.strip())


def rows():
    """The line of crates.txt of each crate, lowest first, without its comment."""
    lines = (it.split("#")[0].strip() for it in (TOP / "crates.txt").read_text().splitlines())
    return {re.split(r"[\s:]", it)[0]: it for it in lines if it}


ROWS = rows()


def below(crate):
    """The crates below one, lowest first."""
    found = set()
    waiting = [crate]
    while waiting:
        for it in ROWS[waiting.pop()].partition(":")[2].split():
            if it in ROWS and it not in found:
                found.add(it)
                waiting.append(it)
    return [it for it in ROWS if it in found]


def files_of(crate, *parts):
    folder = TOP / "crates" / crate
    return [it for part in parts for it in sorted((folder / part).rglob("*")) if it.is_file()]


def text_of(crate):
    """The sum of what a crate is, but for comments and blank lines."""
    texts = [ROWS[crate]]
    for path in files_of(crate, "src", "specs", "proofs"):
        texts += [str(path.relative_to(TOP)), plain(path.read_text(), path.suffix)]
    return sum_of(*texts)


def outside(path):
    """A source without its tests, its private functions, and the bodies of the others."""
    text, kept, at = path.read_text(), [], 0
    for function in claims.functions_in(text, path):
        is_seen = (function.public or function.of_trait) and not function.test
        kept.append(text[at : function.body if is_seen else function.start])
        at = function.end
    return plain("".join(kept) + text[at:], path.suffix)


class Cited:
    """What the crates above may cite of each crate: contracts and types, definitions, and lemmas by their files."""

    def __init__(self):
        self.stated = {}

    def of(self, crate):
        """The sum of a crate's sources without bodies, and of its definitions."""
        if crate not in self.stated:
            texts = [ROWS[crate]]
            for path in files_of(crate, "src", "specs"):
                said = outside(path) if path.suffix == ".rt" else plain(path.read_text(), path.suffix)
                texts += [str(path.relative_to(TOP)), said]
            self.stated[crate] = sum_of(*texts)
        return self.stated[crate]

    def below(self, crate):
        """The sums of all that a crate may cite of those below it."""
        lemmas = lemmas_below(crate)
        return {it: sum_of(self.of(it), *[plain(path.read_text(), path.suffix) for path in lemmas.get(it, ())]) for it in below(crate)}


def lemma_file(crate, words):
    """The file of lemmas that a name begins with, or nothing where it is what the prover makes of a function."""
    path = TOP / "crates" / crate / "proofs"
    for word in words:
        path /= word
        if path.with_suffix(".antt").is_file():
            return path.with_suffix(".antt")
    return None


def lemmas_below(crate):
    """The files of lemmas that a crate cites of each crate below it, and those that these cite."""
    found, seen = {}, set()
    waiting = files_of(crate, "src", "specs", "proofs")
    while waiting:
        for other, words in LEMMAS_OF.findall(waiting.pop().read_text()):
            path = lemma_file(other, words.split(".")[1:]) if other != crate and other in ROWS else None
            if path and path not in seen:
                seen.add(path)
                waiting.append(path)
                found.setdefault(other, []).append(path)
    return {other: sorted(paths) for other, paths in found.items()}


class Edit:
    """A wrong body: the texts that it replaces, and the clause that has to refuse it, or what shows that it is wrong."""

    def __init__(self, path, crate):
        self.path, self.crate, self.name = path, crate, path.stem
        text = path.read_text()
        said = OWN_CLAUSE.search(text)
        self.function, self.clause = said.groups() if said else ("", "")
        shown = claims.SHOWN_BY.search(text)
        self.kind, self.shown = shown.groups() if shown else ("clause", "")
        self.pairs = list(self.read(text))

    @staticmethod
    def read(text):
        file = old = ""
        for line in text.split("\n"):
            if line.startswith("file: "):
                file = line[6:].strip()
            elif line.startswith("old: "):
                old = line[5:]
            elif line.startswith("new:"):
                yield file, old, line[4:].removeprefix(" ")

    def sum(self, text):
        """The sum of the wrong body over a text of its crate."""
        return sum_of(text, *[it for pair in self.pairs for it in pair])

    @functools.cached_property
    def functions(self):
        """The functions that it changes, as crate, file and name, with their texts. A constant changes all that name it."""
        found, texts = {}, {}
        for path, old, new in self.pairs:
            file = TOP / "crates" / self.crate / path
            text = texts.get(path) or file.read_text()
            at = text.find(old)
            within = [it.name for it in claims.functions_in(text, file) if it.start < at + len(old) and at < it.end]
            named = CONSTANT.search(old)
            if within:
                found.update({key: said for key, said in functions_of(self.crate, file).items() if key[2] in within})
            elif named:
                for crate in ROWS if old.lstrip().startswith("pub ") else [self.crate]:
                    found.update(functions_with(named[1], crate))
            texts[path] = text.replace(old, new)
        return found

    def changes(self, symbol):
        """Whether a function of a module of LLVM is one that it changes, for some types, or stands within one."""
        parts = parts_of(symbol)
        return any(is_symbol_of(parts, *it) for it in self.functions)

    def is_named_by(self, symbol):
        """Whether it is one that it changes, for some types."""
        return self.changes(symbol) and parts_of(symbol)[-1] in {name.split("::")[-1] for _, _, name in self.functions}

    def tested_sum(self):
        """The sum of the wrong body, of the functions that it changes, and of the trial or the row that shows it."""
        folder, _, name = self.shown.partition("/")
        tested = trial_texts(folder).get(name, "") if self.kind == "test" else row_text(folder, name)
        pairs = [it for pair in self.pairs for it in pair]
        return sum_of(self.kind, self.shown, *pairs, *[plain(it, ".rt") for it in self.functions.values()], tested)

    def is_named(self, function, goal):
        """Whether these are its function, and its clause or none, or a call that does not meet its clause."""
        own = self.function.split("::")[-1]
        if own and own == required_of(goal) and re.search(r"clause-(\w+)|$", goal)[1] in (None, self.clause):
            return True
        return bool(own) and own == function.split("::")[-1] and clause_of(goal) in ("", "only", self.clause)


def required_of(goal):
    """The function that a goal calls and that requires something of the call, or nothing."""
    called, requires, _ = goal.partition("-requires")
    return called.split("-")[0] if requires else ""


def clause_of(goal):
    """The clause that a goal is about: nothing where it names none, or one that another function requires."""
    found = re.search(r"clause-(\w+)", goal)
    if "requires" in goal:
        return ""
    return found[1] if found else "only" if goal == "returns" else ""


def functions_of(crate, file):
    """The functions of a file, as crate, file and name, with their texts."""
    text, path = file.read_text(), str(file.relative_to(TOP / "crates" / crate))
    return {(crate, path, it.name): text[it.start : it.end] for it in claims.functions_in(text, file)}


def functions_with(word, crate):
    """Those of a crate that have a word."""
    pattern = re.compile(rf"\b{word}\b")
    files = [it for it in files_of(crate, "src") if pattern.search(it.read_text())]
    return {key: said for file in files for key, said in functions_of(crate, file).items() if pattern.search(said)}


def parts_of(symbol):
    """The parts of a function's name in a module of LLVM, without the types that it is of."""
    return symbol.strip('@"').split("::<")[0].split("::")


def is_symbol_of(parts, crate, path, name):
    """Whether these are the parts of a name of this function, or of one within it. A method has its type's module."""
    modules = [it for it in path.removeprefix("src/").removesuffix(".rt").split("/") if it not in ("lib", "main", "mod")]
    *of_type, function = name.split("::")
    if of_type:
        return parts[0] == crate and function in parts and any(it.startswith(of_type[0]) for it in parts)
    return parts[: 1 + len(modules)] == [crate, *modules] and function in parts[1 + len(modules) :]


@functools.lru_cache(None)
def trial_texts(folder):
    """The text of each trial of a folder, without comments."""
    found = {}
    for path in sorted((TOP / "trials" / folder / "src").rglob("*.trial")):
        text = path.read_text()
        found.update({it.name: plain(text[it.start : it.end], ".rt") for it in claims.functions_in(text, path) if it.test})
    return found


def row_text(program, name):
    """The text of a row, without comments: up to the next row, or to the next line at the margin."""
    folder = TOP / "rows" / program
    for pattern, begin in (("*.rows", rf"^row {name}\n(?:(?!row ).*\n)*"), ("*.py", rf"^def {name}\(room\):\n(?:(?:[ \t].*)?\n)*")):
        for path in sorted(folder.glob(pattern)):
            found = re.search(begin, path.read_text(), re.M)
            if found:
                return "\n".join(it.rstrip() for it in found[0].split("\n") if it.strip() and not it.lstrip().startswith("#"))
    return ""


def edits_of(crate):
    """The wrong bodies of a crate that the prover must refuse."""
    return [it for it in all_edits_of(crate) if it.kind == "clause"]


def tested_edits_of(crate):
    """Those that only a trial, a row or a tool shows to be wrong."""
    return [it for it in all_edits_of(crate) if it.kind != "clause"]


def all_edits_of(crate):
    return [Edit(path, crate) for path in claims.edit_files(crate)]


def crates_with_edits():
    """The crates that have wrong bodies of a clause or a record of some, lowest first. Folders of no crate stand at the end."""
    folders = {it.parent.name for it in (TOP / "wrong-bodies").glob("*/*")}
    there = {it for it in ROWS if edits_of(it) or (TOP / "wrong-bodies" / it / "TRIED").is_file()}
    return [it for it in ROWS if it in there] + sorted(folders - set(ROWS))


class Record:
    """The file wrong-bodies/CRATE/TRIED."""

    def __init__(self, crate):
        self.crate, self.path = crate, TOP / "wrong-bodies" / crate / "TRIED"
        self.text, self.kit = "", ""
        self.below, self.edits, self.odd = {}, {}, []
        for line in self.path.read_text().splitlines() if self.path.is_file() else ():
            if not line.startswith("#"):
                self.take(line)

    def take(self, line):
        kind, *words = line.split()
        if kind == "text" and len(words) == 1 and not self.text:
            self.text = words[0]
        elif kind == "kit" and words and not self.kit:
            self.kit = " ".join(words)
        elif kind == "below" and len(words) == 2 and words[0] not in self.below:
            self.below[words[0]] = words[1]
        elif kind == "edit" and len(words) == 4 and words[0] not in self.edits:
            self.edits[words[0]] = tuple(words[1:])
        else:
            self.odd.append(line)

    def write(self):
        if not self.edits:
            self.path.unlink(missing_ok=True)
            return
        lines = ["# Written by tools/try-wrong-bodies.", f"text {self.text}", f"kit {self.kit}"]
        lines += [f"below {name} {made}" for name, made in self.below.items()]
        lines += [f"edit {name} {' '.join(told)}" for name, told in sorted(self.edits.items())]
        self.path.parent.mkdir(parents=True, exist_ok=True)
        self.path.write_text("\n".join(lines) + "\n")

    def has(self, edit):
        """Whether it says what refused an edit as the edit is, over the text that it names."""
        return edit.name in self.edits and self.edits[edit.name][0] == edit.sum(self.text)


class Tested:
    """The file wrong-bodies/TESTED: each wrong body that its trial or row failed with, the sum of what was tried, and why."""

    path = TOP / "wrong-bodies" / "TESTED"

    def __init__(self):
        self.lines, self.noted = {}, {}
        for line in self.path.read_text().splitlines() if self.path.is_file() else ():
            if not line.startswith("#"):
                name, _, told = line.partition(" ")
                self.lines[name] = told

    def has(self, edit):
        """Whether it says how the trial or the row failed with an edit as all is."""
        return self.lines.get(f"{edit.crate}/{edit.name}", "").split(" ")[0] == edit.tested_sum()

    def note(self, edit, told):
        """Notes how the trial or the row failed, or nothing where it did not."""
        self.noted[f"{edit.crate}/{edit.name}"] = f"{edit.tested_sum()} {edit.shown} {told}" if told else ""

    def write(self):
        """Writes what was noted, beside the other lines of wrong bodies that are there."""
        known = {f"{crate}/{it.name}" for crate in ROWS for it in tested_edits_of(crate)}
        lines = {name: told for name, told in {**Tested().lines, **self.noted}.items() if told and name in known}
        self.path.write_text("\n".join(["# Written by tools/try-tested-bodies.", *[f"{name} {lines[name]}" for name in sorted(lines)]]) + "\n")
