"""A small disk with a log, the installer beside it, and the search of all runs.

A module: `check-log-model` and `check-data-model` use it. docs/FORMATS.md has the log. A disk has block 0, block 1,
a few log blocks and a few home blocks. A rule is a `Rule`, or a class with more fields. A state is a named tuple with at
least the fields of a `State` of `check-log-model`: its first three make a disk that nobody has open, `expected` gives all
that its images may stand for, and `synced` the state after a barrier.
"""

import itertools
import sys
import time
from dataclasses import dataclass
from typing import NamedTuple

HEADER, START, LOG = 0, 1, 2


@dataclass(frozen=True)
class Rule:
    """How large a run is, and by which rule the log is written and read."""

    positions: int = 4
    group: int = 2
    homes: int = 2
    begun_in_all: int = 3
    crashes: int = 2
    is_sealed: bool = True
    # how many tags there are, and from which two a new one differs
    tags: int = 3
    avoids_held: bool = True
    avoids_wanted: bool = True
    # whose tags a reader looks at
    looks_at_all: bool = True
    # what the log blocks of a fresh disk have as their first bytes
    first_tags: tuple = ()
    # steps that are made before the barrier that they need
    marks_at_once: bool = False
    frees_at_once: bool = False
    starts_before_homes: bool = False
    installs_in_flight: bool = False
    # how many barriers fail, how many processes are killed, and which blocks an opening then writes as they read
    failures: int = 0
    kills: int = 0
    rewrites: str = "the log"
    # whether the installer leaves out a home block that reads as it should
    skips_same: bool = False


class Word(NamedTuple):
    """What block 0 has for a position."""

    home: int
    count: int
    tag: int
    first: object


class Header(NamedTuple):
    """Block 0: where the last group begins, or the end of a plain log, and a word for each log block."""

    begin: int
    words: tuple


class Content(NamedTuple):
    """A block: its first byte, which is the tag of a log block, and the rest of it."""

    first: object
    rest: object


class Block(NamedTuple):
    """What the device may have of a block, the last of which reads give, and whether the next barrier makes that stable."""

    contents: tuple
    is_pending: bool = False


class Installing(NamedTuple):
    """What the installer does: to which position it frees, and the home blocks that are left."""

    phase: str
    upto: int = 0
    left: frozenset = frozenset()


IDLE = Installing("idle")


class Events(NamedTuple):
    """How many groups or transactions began, and how many crashes, failed barriers and kills there were."""

    begun: int = 0
    crashes: int = 0
    failures: int = 0
    kills: int = 0


class Broken(Exception):
    """An image stands for what it must not stand for."""

    by = "an image"


class Model(NamedTuple):
    """What a tool searches, each a function: the first state of a rule, the states after one event, the images of a state,
    each looked at, and the state once an image that a crash left is open."""

    first: object
    steps: object
    images: object
    crashed: object


def fresh_log(rule):
    """The blocks before the homes of a disk whose log is empty."""
    tags = rule.first_tags or (0,) * rule.positions
    header = Header(0, (Word(-1, 0, 0, 0),) * rule.positions)
    return (header, 0, *[Content(tag, f"before {number}") for number, tag in enumerate(tags)])


def last_group(header, positions):
    """The positions of the group that block 0 of a sealed log names."""
    return range(header.begin, header.begin + header.words[header.begin % positions].count)


def end_of(rule, image):
    """Where the log of an image ends."""
    header = image[HEADER]
    if not rule.is_sealed:
        return header.begin
    group = last_group(header, rule.positions)
    looked_at = group if rule.looks_at_all else group[-1:]
    for position in looked_at:
        slot = position % rule.positions
        if image[LOG + slot].first != header.words[slot].tag:
            return header.begin
    return group.stop


def updates_of(rule, image, end):
    """The updates of the positions that the log of an image has, up to its end."""
    header, start = image[HEADER], image[START]
    if not start <= end <= start + rule.positions:
        raise Broken(f"the log goes from {start} to {end}")
    updates = []
    for position in range(start, end):
        slot = position % rule.positions
        word, block = header.words[slot], image[LOG + slot]
        updates.append((word.home, Content(word.first, block.rest) if rule.is_sealed else block))
    return tuple(updates)


def with_updates(blocks, updates):
    blocks = list(blocks)
    for home, content in updates:
        blocks[home] = content
    return tuple(blocks)


def first_home(rule):
    return LOG + rule.positions


def stable(image):
    """The disk of which the device has this image."""
    return tuple(Block((content,)) for content in image)


def reading(disk):
    """The image that reads give."""
    return tuple(block.contents[-1] for block in disk)


def written(disk, number, content):
    contents = tuple(other for other in disk[number].contents if other != content)
    return disk[:number] + (Block(contents + (content,), True),) + disk[number + 1:]


def synced(disk):
    return tuple(Block(block.contents[-1:]) if block.is_pending else block for block in disk)


def images_of(disk):
    return itertools.product(*[block.contents for block in disk])


def rewritten(rule, image):
    """The blocks of the log that an opening writes as they read."""
    slots = range(LOG, LOG + rule.positions)
    last = {LOG + position % rule.positions for position in last_group(image[HEADER], rule.positions)}
    return {
        "nothing": [],
        "block 0": [HEADER],
        "blocks 0 and 1": [HEADER, START],
        "blocks 0 and 1 and the last group": [HEADER, START, *last],
        "the log": [HEADER, START, *slots],
    }[rule.rewrites]


def without_barrier(rule, state):
    """The state in which a barrier failed, if one more may."""
    if state.events.failures < rule.failures:
        events = state.events._replace(failures=state.events.failures + 1)
        disk = tuple(block._replace(is_pending=False) for block in state.disk)
        yield type(state)(disk, events, state.expected())


def killed(rule, state):
    """The state in which the process was killed, if one more may be."""
    if state.events.kills < rule.kills:
        yield type(state)(state.disk, state.events._replace(kills=state.events.kills + 1), state.expected())


def first_tag(tags, avoided):
    """The first of so many tags that is not avoided, or the last one where none is."""
    return next((tag for tag in range(tags) if tag not in avoided), tags - 1)


def laid_out(rule, state, updates):
    """The words of block 0 and the tags once a group with these updates is put, and the writes of its log blocks."""
    end = state.start + len(state.updates)
    words, held, writes = list(state.header.words), list(state.held), []
    for number, (home, content) in enumerate(updates):
        slot = (end + number) % rule.positions
        avoided = {*([held[slot]] if rule.avoids_held else []), *([words[slot].tag] if rule.avoids_wanted else [])}
        tag = first_tag(rule.tags, avoided)
        words[slot] = Word(home, len(updates) if number == 0 else 0, tag, content.first)
        held[slot] = tag
        writes.append((LOG + slot, Content(tag, content.rest) if rule.is_sealed else content))
    return tuple(words), tuple(held), writes


def begun_installs(rule, state):
    for count in range(1, len(state.updates) + 1):
        homes = dict(state.updates[:count])
        if rule.skips_same:
            first = first_home(rule)
            homes = {home: content for home, content in homes.items() if state.disk[first + home].contents[-1] != content}
        if rule.installs_in_flight and state.group is not None:
            homes.update(state.group.updates)
        upto = state.start + count
        yield state._replace(installing=Installing("homes", upto, frozenset(homes.items())))


def freed(state):
    upto = state.installing.upto
    return state._replace(start=upto, updates=state.updates[upto - state.start:], installing=IDLE)


def installer_steps(rule, state):
    it = state.installing
    if it.phase == "idle":
        yield from begun_installs(rule, state)
    elif it.phase == "homes" and it.left:
        for home, content in it.left:
            disk = written(state.disk, first_home(rule) + home, content)
            yield state._replace(disk=disk, installing=it._replace(left=it.left - {(home, content)}))
    elif it.phase == "homes":
        after = state if rule.starts_before_homes else state.synced(rule)
        yield after._replace(installing=it._replace(phase="start"))
        yield from without_barrier(rule, state)
    elif it.phase == "start":
        after = state._replace(disk=written(state.disk, START, it.upto), installing=it._replace(phase="sync"))
        yield freed(after) if rule.frees_at_once else after
    else:
        yield freed(state.synced(rule))
        yield from without_barrier(rule, state)


def searched(model, rule, seconds):
    """What is wrong, or nothing; whether all was seen; how many states were."""
    until = time.process_time() + seconds
    first = model.first(rule)
    left, seen = [first], {first}
    try:
        while left:
            if time.process_time() > until:
                return None, False, len(seen)
            state = left.pop()
            after = list(model.steps(rule, state))
            for image in model.images(rule, state):
                if state.events.crashes < rule.crashes:
                    events = state.events._replace(crashes=state.events.crashes + 1)
                    after.append(model.crashed(rule, image, events))
            for new in after:
                if new not in seen:
                    seen.add(new)
                    left.append(new)
    except Broken as wrong:
        return wrong, True, len(seen)
    return None, True, len(seen)


def tried(model, kind, name, rule, seconds):
    """Tries a rule, and says whether it came out as it must."""
    began = time.process_time()
    wrong, whole, states = searched(model, rule, seconds)
    took = time.process_time() - began
    found = f"{wrong.by} breaks it" if wrong else "no image breaks it" if whole else "no image broke it so far"
    good = (wrong is None) == (kind == "right")
    print(f"{'ok' if good else 'WRONG':6}{kind:6} {name:52} {found}, {states} states, {took:.1f} s", flush=True)
    if not good and wrong:
        print(f"      {wrong}")
    return good


def try_all(model, right, wrong, words, usage):
    """Tries each rule for the seconds that the words say, 20 if none, and gives the status of the tool."""
    if len(words) > 1 or (words and not words[0].isdecimal()):
        print(usage.strip(), file=sys.stderr)
        return 2
    seconds = int(words[0]) if words else 20
    cases = [*(("right", *case) for case in right), *(("wrong", *case) for case in wrong)]
    good = [tried(model, *case, seconds) for case in cases]
    print(f"{sum(good)} of {len(good)} as they must be")
    return 0 if all(good) else 1
