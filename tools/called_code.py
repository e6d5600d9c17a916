"""Which functions of the crates are called by product code. Trials and tests are no product code.

`check-claims` and `write-claims` use it. A call is found by its name, its number of arguments and its qualifier, in a crate that may use the
function's crate. The types of values are not looked at, so a method counts as called where another one of its name and number of
arguments is. A function that only uncalled functions call is uncalled too. Methods of traits and `main` are never taken away as
callers.
"""
import re

WORD = re.compile(r"[A-Za-z_]\w*$")
IMPORT = re.compile(r"^(?:pub(?:\([^)]*\))? )?use (\w+)([^;]*);", re.M)


class Call:
    """A mention of a function: its name, the qualifier before it, how many arguments it has, or None where that is not known."""

    def __init__(self, name, qualifier, is_method, arguments):
        self.name = name
        self.qualifier = qualifier
        self.is_method = is_method
        self.arguments = arguments


class Known:
    """A function of a crate, the owner that its name has, its number of parameters and the calls in its body."""

    def __init__(self, crate, function, imports, owner, parameters, takes_self, calls):
        self.crate = crate
        self.function = function
        self.imports = imports
        self.owner = owner
        self.name = function.name.split("::")[-1]
        self.parameters = parameters
        self.takes_self = takes_self
        self.calls = calls
        self.is_root = self.name == "main" or function.of_trait

    def is_meant(self, call, caller):
        """True if the call may be one of this function, by its name, its qualifier and its number of arguments."""
        if self.owner:
            by_type = call.qualifier in (self.owner, "?") or (call.qualifier == "Self" and caller.owner == self.owner)
            by_trait = self.function.of_trait and call.qualifier is not None
            named = call.is_method and self.takes_self or by_type or by_trait
        elif call.qualifier:
            named = call.qualifier in (self.function.path.stem, self.crate, "self", "super", "crate", "?")
        else:
            named = not call.is_method and self.is_seen_by(caller)
        given = self.parameters if not (call.is_method and self.takes_self) else self.parameters - 1
        return named and call.arguments in (None, given)

    def is_seen_by(self, caller):
        """True if the caller's file has this function itself, or imports one of its name from its crate or from one that hands it on."""
        if caller.function.path == self.function.path:
            return True
        origin = caller.imports.get(self.name)
        return origin is not None and (origin.startswith("journal_") or caller.crate == self.crate)


def count_parts(tokens, at, end, is_type):
    """How many parts the brackets at an index have, by their commas, and whether that is sure."""
    depth, parts, empty, sure = 0, 0, True, True
    for k in range(at + 1, end):
        word = tokens[k][0]
        if word in "([{" or word == "<" and (is_type or tokens[k - 1][0] == ":"):
            depth += 1
        elif word in ")]}" or word == ">" and depth and is_type:
            depth -= 1
        elif word == ">" and depth:
            depth -= 1
        elif word == "," and depth == 0:
            parts, empty = parts + 1, True
            continue
        elif word == "|":
            sure = False
        empty = False
    return parts + (0 if empty else 1), sure


def qualifier_of(tokens, k):
    """The word before `::` and a name, `?` where it is a type with arguments, or nothing."""
    if k < 3 or tokens[k - 1][0] != ":" or tokens[k - 2][0] != ":":
        return None
    before = tokens[k - 3][0]
    return before if WORD.match(before) else "?"


def calls_in(tokens, first, last, claims):
    """The calls between two indices."""
    for k in range(first, last):
        name = tokens[k][0]
        if not WORD.match(name) or tokens[k - 1][0] == "fn":
            continue
        at = k + 1
        if at + 2 < last and tokens[at][0] == ":" and tokens[at + 1][0] == ":" and tokens[at + 2][0] == "<":
            at = claims.past_generics(tokens, at + 2)
        is_method, qualifier = tokens[k - 1][0] == ".", qualifier_of(tokens, k)
        if at < last and tokens[at][0] == "(":
            count, sure = count_parts(tokens, at, claims.closing(tokens, at), False)
            yield Call(name, qualifier, is_method, count if sure else None)
        elif not is_method and (qualifier or tokens[k - 1][0] in ("(", ",") and tokens[at][0] in (",", ")")):
            yield Call(name, qualifier, False, None)


def imports_of(text):
    """The first name of the path by which a file imports each name."""
    return {name: root for root, rest in IMPORT.findall(text) for name in re.findall(r"\w+", rest)}


def known_in(crate, path, claims):
    """The functions of a file that are no tests."""
    text = path.read_text()
    imports = imports_of(text)
    tokens = claims.tokens_of(text)
    places = {start: k for k, (_, start, _) in enumerate(tokens)}
    for function in claims.functions_in(text, path):
        if function.test:
            continue
        at = claims.past_generics(tokens, places[function.start] + 2)
        end = claims.closing(tokens, at)
        count, _ = count_parts(tokens, at, end, True)
        takes_self = "self" in [word for word, _, _ in tokens[at:min(end, at + 6)]]
        first, last = places[function.body], next((k for k in range(places[function.body], len(tokens)) if tokens[k][2] >= function.end), len(tokens))
        owner = function.name.rpartition("::")[0]
        yield Known(crate, function, imports, owner, count, takes_self, list(calls_in(tokens, first, last, claims)))


def used_by(lines):
    """For each crate the crates that may use it, itself included, by the lines of crates.txt."""
    uses = {}
    for line in lines:
        name, *others = re.findall(r"[A-Za-z]\w*", re.sub(r"\w+=\S+", "", line.split("#")[0])) or [""]
        if name:
            uses[name] = {name}.union(*({other} | uses.get(other, set()) for other in others))
    return {crate: {user for user, below in uses.items() if crate in below} for crate in uses}


def uncalled(claims, top):
    """The functions that no product code calls."""
    known = [it for crate in claims.crates() for path in sorted((top / "crates" / crate / "src").rglob("*.rt")) for it in known_in(crate, path, claims)]
    users = used_by((top / "crates.txt").read_text().splitlines())
    named = {}
    for caller in known:
        for call in caller.calls:
            named.setdefault(call.name, []).append((caller, call))
    callers = {it: {caller for caller, call in named.get(it.name, []) if caller is not it and caller.crate in users[it.crate] and it.is_meant(call, caller)} for it in known}
    gone = set()
    while True:
        more = {it for it in known if it not in gone and not it.is_root and not callers[it] - gone}
        if not more:
            return gone
        gone |= more
