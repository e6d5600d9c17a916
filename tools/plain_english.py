"""Counts forms of English that make a reader read twice, in the comments of the sources and of the definitions, and in the pages.

`check-docs` fails where one of them is more frequent than `LEFT` has. These numbers may only go down: rewrite what you touch, and
lower them. `tools/check-docs --english` prints each place, and the numbers of today. Also counted are public calls that can refuse
and have no list `# Errors`, and comments that are wider than 100 columns.
"""
import re
from pathlib import Path

TOP = Path(__file__).resolve().parent.parent
WIDTH, LONG = 100, 45

# A form, what is written in its place, and how it is found in a sentence.
FORMS = {
    "What": ("name the noun: `the answer`, not `What is answered`", re.compile(r"^What\b")),
    "Whether": ("`True if`", re.compile(r"^Whether\b")),
    "Who": ("name it: a thread, a caller, a client", re.compile(r"^Who(?:m|ever|se)?\b")),
    "so many": ("`n`, or the name of the number", re.compile(r"\bso many\b", re.I)),
    "tells": ("`says`, `returns`, `answers`, `notifies`", re.compile(r"\b(?:tells?|told|telling)\b", re.I)),
    "behind": ("`after`", re.compile(r"\bbehind\b", re.I)),
    "stands": ("`is`, `has`", re.compile(r"\b(?:stands?|stood)\b(?! for\b)", re.I)),
    "yes and no": ("`true`, `false`", re.compile(r"\b[Aa] (?:yes|no) says\b|\b[Aa]nswers? (?:yes|no)\b|\bis yes\b")),
    "long": (f"a list, or sentences of fewer than {LONG} words", re.compile(rf"^(?:\S+\s+){{{LONG},}}")),
}
OTHERS = {
    "no list of errors": "`# Errors` and a list, one refusal a line",
    "wide": f"at most {WIDTH} columns",
}

# How often each form is left, in the sources, the definitions and the pages.
LEFT = {
    "What": (72, 56, 30),
    "Whether": (46, 0, 0),
    "Who": (15, 1, 1),
    "so many": (49, 18, 1),
    "tells": (77, 64, 34),
    "behind": (23, 17, 2),
    "stands": (23, 21, 40),
    "yes and no": (4, 0, 2),
    "long": (6, 2, 2),
    "no list of errors": (0, 0, 0),
    "wide": (12, 1, 0),
}

COMMENT = re.compile(r"\s*(?:///|//!|//|--)(?: |$)(.*)")
PUBLIC = re.compile(r"\s*pub (?:const )?fn (\w+)")


class Place:
    """Where a form was found, and in which sentence."""

    def __init__(self, path, number, form, text):
        self.path = path.relative_to(TOP)
        self.number = number
        self.form = form
        self.text = text

    def __str__(self):
        return f"{self.path}:{self.number}: {self.form}: {self.text[:120]}"


def sentences(text):
    """The sentences of a text. A colon ends one too."""
    return re.split(r"(?<=[.:?!])\s+", text)


def comments(lines):
    """The comments of a source: the number of the first line of each part, and its text. An empty line or an item begins a part."""
    first, words = 0, []
    for number, line in enumerate([*lines, ""], 1):
        found = COMMENT.match(line)
        text = found[1].strip() if found else ""
        if words and (not text or text.startswith(("- ", "# ", "| "))):
            yield first, " ".join(words)
            words = []
        if text:
            first = first if words else number
            words.append(text.removeprefix("- "))


def parts_of_page(lines):
    """The paragraphs, items, headings and cells of a page, each with the number of its first line. Programs and heads of tables are
    left out.
    """
    first, words, is_program = 0, [], False
    for number, line in enumerate([*lines, ""], 1):
        text = line.strip()
        if text.startswith("```"):
            is_program = not is_program
        skipped = is_program or text.startswith("```") or line.startswith("    ")
        if words and (not text or skipped or text.startswith(("- ", "#", "|")) or re.match(r"\d+\. ", text)):
            yield first, " ".join(words)
            words = []
        is_head = lines[number:number + 1] and lines[number].startswith("|--")
        if text.startswith("|") and not skipped and not is_head:
            yield from ((number, cell.strip()) for cell in text.strip("|").split("|"))
        elif text and not skipped:
            first = first if words else number
            words.append(re.sub(r"^(?:- |#+ |\d+\. )", "", text))


def forms_in(path, parts):
    for number, text in parts:
        for sentence in sentences(text):
            plain = sentence.lstrip("*(\"")
            for form, (_, found) in FORMS.items():
                if found.search(plain):
                    yield Place(path, number, form, sentence)


def wide_comments(path, lines):
    for number, line in enumerate(lines, 1):
        if len(line) > WIDTH and COMMENT.match(line) and not re.match(r"\s*//!? \|", line):
            yield Place(path, number, "wide", line.strip())


def answer_of(lines, at):
    """The type that the function at a line answers, as its head has it."""
    head = ""
    for line in lines[at:at + 25]:
        head += f"{line.strip()} "
        if re.search(r"[{;]\s*$", line) or re.match(r"\s*(?:requires|ensures)\b", line):
            break
    return re.split(r"\b(?:requires|ensures|where)\b", head)[0].partition("->")[2]


def comment_before(lines, at):
    first = at
    while first > 0 and lines[first - 1].strip().startswith(("///", "#[")):
        first -= 1
    return "\n".join(lines[first:at])


def calls_without_errors(path, lines):
    for at, line in enumerate(lines):
        call = PUBLIC.match(line)
        if call and "Result<" in answer_of(lines, at) and "# Errors" not in comment_before(lines, at):
            yield Place(path, at + 1, "no list of errors", call[1])


def in_sources():
    for path in sorted((TOP / "crates").glob("*/src/**/*.rt")):
        lines = path.read_text().split("\n")
        yield from forms_in(path, comments(lines))
        yield from wide_comments(path, lines)
        yield from calls_without_errors(path, lines)


def in_definitions():
    for path in sorted((TOP / "crates").glob("*/specs/**/*.antt")):
        lines = path.read_text().split("\n")
        yield from forms_in(path, comments(lines))
        yield from wide_comments(path, lines)


def in_pages(pages):
    for path in pages:
        yield from forms_in(path, parts_of_page(path.read_text().split("\n")))


def found(pages):
    """All places, in the order of the columns of `LEFT`."""
    return [list(in_sources()), list(in_definitions()), list(in_pages(pages))]


def count(places):
    """How often each form is in sources, definitions and pages."""
    return {form: tuple(sum(place.form == form for place in part) for part in places) for form in [*FORMS, *OTHERS]}


def faults(pages):
    """The forms that are more frequent than is left."""
    for form, today in count(found(pages)).items():
        for where, now, most in zip(("sources", "definitions", "pages"), today, LEFT.get(form, (0, 0, 0))):
            if now > most:
                better = FORMS[form][0] if form in FORMS else OTHERS[form]
                yield f"{form}: {now} times in {where} in place of {most} at most; write {better} (tools/check-docs --english)"


def show(pages):
    """Prints each place, and then the numbers of today."""
    places = found(pages)
    for place in [place for part in places for place in part]:
        print(place)
    print("LEFT = {")
    for form, today in count(places).items():
        print(f'    "{form}": {today},')
    print("}")
