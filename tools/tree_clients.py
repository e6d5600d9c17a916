"""Clients that change a tree of files which `jnlfs serve` serves, and what may be found of their
files afterwards.

A module: `kill-tree` and `lose-tree` use it. Each client has a folder of its own with folders and
files, and files in one folder of all clients. It sends several calls at once. What it has must
always be as its calls leave it up to some one of them, in order: the last that it was told to be
stable, or one after that. Told to be stable is a call that was answered OK, but for a WRITE that
was answered UNSTABLE and for what changes nothing; and all before a COMMIT that was answered OK
with the verifier of the writes. So a node whose RENAME was under way has the old name or the new
one, and never both or none; what had the new name is there or replaced; and a RENAME that was
answered is done.
"""

import collections
import random
import re
import struct
import subprocess
import threading
from typing import NamedTuple, Optional

from tree_calls import *
from tree_content import EMPTY, Content

FILE_BYTES = 20000
# Of a client with large files: how large they get, from where on and how often another index block is
# needed, and how much it writes at once and in a row.
LARGE_BYTES, FIRST_INDEX, INDEX_BYTES = 12 << 20, 4096 * 48, 4096 * 1024
MOST_WRITTEN, MOST_IN_A_ROW = 65536, 48
MOST_READ, READS_AT_ONCE = 65536, 8
SHARED = b"shared"
FOLDERS = 3
FILES_EACH = 2
NAMES_SHARE, RENAMES_SHARE = 0.4, 0.4
START_SECONDS = 60
BLOCK, MOST_TOLD = 4096, 12


class Wrong(Exception):
    """The service did what it must not do."""


class Node(NamedTuple):
    """A file, or a folder, whose content is None. A handle or a ctime that is None is not known: of
    a call without an answer nobody knows it. A folder's ctime is not looked at, because its names
    change it."""

    handle: Optional[bytes]
    mode: int
    content: Optional[Content]
    ctime: Optional[Time]

    def is_found_as(self, found):
        # The bytes are looked at last, because that takes longest.
        return (
            found is not None
            and self.mode == found.mode
            and self.handle in (None, found.handle)
            and self.ctime in (None, found.ctime)
            and is_same_content(self.content, found.content)
        )

    def __str__(self):
        handle = "any" if self.handle is None else self.handle[8:].hex()
        moment = "any" if self.ctime is None else "{}.{:09}".format(*self.ctime)
        if self.content is None:
            return f"folder {handle}, mode {self.mode:o}"
        written = ", ".join(f"{stamp.hex()}*{count}" for stamp, count in runs(self.content))
        return f"file {handle}, mode {self.mode:o}, ctime {moment}, {self.content.size} bytes: {written}"


def is_same_content(one, other):
    """Whether both are folders, or files with the same bytes."""
    return one is other if None in (one, other) else one.is_same(other)


def runs(content):
    """The bytes by fours, each the number of the write that wrote it, and how often it stands there
    in a row."""
    found = []
    for stamp, count in (run for at in range(0, content.size, BLOCK) for run in runs_of_block(content.part(at, BLOCK))):
        if found and found[-1][0] == stamp:
            found[-1][1] += count
        elif len(found) < MOST_TOLD:
            found.append([stamp, count])
        else:
            break
    return found


def runs_of_block(data):
    """Most blocks have the bytes of one write."""
    if data == data[:4] * (BLOCK // 4):
        return [(data[:4], BLOCK // 4)]
    return [(data[at : at + 4], 1) for at in range(0, len(data), 4)]


class Call:
    """A call that changes a path. Before it is answered it may have been done or not."""

    tells_stable = True
    is_done = True  # False once it was answered that nothing was done.
    is_answered = False
    ctime = None
    handle = None

    def __init__(self, path):
        self.path = path

    def after(self, state):
        """The state that it leaves."""
        return {**state, self.path: self.node(state.get(self.path))} if self.is_done else state


class Create(Call):
    procedure = CREATE

    def __init__(self, path, directory, mode, size):
        super().__init__(path)
        self.arguments = entry(directory, path[-1]) + words(GUARDED) + settings(mode=mode, size=size)
        self.mode, self.size = mode, size

    def take(self, made):
        self.handle, self.ctime = made.handle, made.attributes.ctime

    def node(self, before):
        return Node(self.handle, self.mode, EMPTY.resized(self.size), self.ctime)


class MakeFolder(Call):
    procedure = MKDIR

    def __init__(self, path, directory, mode):
        super().__init__(path)
        self.arguments, self.mode = entry(directory, path[-1]) + settings(mode=mode), mode

    def take(self, made):
        self.handle = made.handle

    def node(self, before):
        return Node(self.handle, self.mode, None, None)


class Remove(Call):
    procedure = REMOVE

    def __init__(self, path, directory):
        super().__init__(path)
        self.arguments = entry(directory, path[-1])

    def take(self, change):
        pass

    def node(self, before):
        return None


class RemoveFolder(Remove):
    procedure = RMDIR


class Rename(Call):
    """A node gets another path, with all that is below it. Its reply does not tell the node's
    ctime."""

    procedure = RENAME

    def __init__(self, path, directory, new_path, new_directory):
        super().__init__(path)
        self.new_path = new_path
        self.arguments = entry(directory, path[-1]) + entry(new_directory, new_path[-1])

    def take(self, renamed):
        pass

    def after(self, state):
        if not self.is_done:
            return state
        moved = moved_paths(state, self.path, self.new_path)
        return {**moved, self.new_path: moved[self.new_path]._replace(ctime=None)}


def is_below(path, top):
    """Whether a path is this one, or leads through it."""
    return path[: len(top)] == top


def moved_paths(by_path, top, new_top):
    """What is kept by paths, where all from one path on stands under another one, in place of what
    stood there."""
    stays = {path: it for path, it in by_path.items() if not is_below(path, top) and not is_below(path, new_top)}
    return stays | {new_top + path[len(top) :]: it for path, it in by_path.items() if is_below(path, top)}


class Set(Call):
    """SETATTR of a size, or of a mode."""

    procedure = SETATTR

    def __init__(self, path, handle, **asked):
        super().__init__(path)
        self.arguments, self.asked = opaque(handle) + settings(**asked) + words(0), asked

    def take(self, change):
        self.ctime = change.after.ctime

    def node(self, before):
        mode, size = self.asked.get("mode", before.mode), self.asked.get("size", before.content.size)
        return Node(before.handle, mode, before.content.resized(size), self.ctime)


class Write(Call):
    """A WRITE of so many bytes, by fours from the file's first one on its stamp. They are not kept,
    because a file may have a GiB."""

    procedure = WRITE
    verifier = None

    def __init__(self, path, handle, offset, size, stamp, how):
        super().__init__(path)
        self.to, self.offset, self.size, self.stamp, self.how = handle, offset, size, stamp, how
        self.tells_stable = how != UNSTABLE

    @property
    def arguments(self):
        return written(self.to, self.offset, self.data(), self.how)

    def data(self):
        return (self.stamp * (self.size // 4 + 2))[self.offset % 4 :][: self.size]

    def take(self, wrote):
        self.ctime, self.verifier = wrote.change.after.ctime, wrote.verifier
        wanted = (self.size, FILE_SYNC if self.tells_stable else UNSTABLE)
        if (wrote.count, wrote.committed) != wanted:
            raise Wrong(f"{self.path}: WRITE answers {wrote.count}, {wrote.committed}, not {wanted}")

    def node(self, before):
        return Node(before.handle, before.mode, before.content.overlaid(self.offset, self.data()), self.ctime)


class Commit(Call):
    procedure = COMMIT
    verifier = None

    def __init__(self, path, handle):
        super().__init__(path)
        self.arguments = at_place(handle, 0, 0)

    def take(self, committed):
        self.verifier = committed.verifier

    def after(self, state):
        return state


class Client:
    """The calls of a connection to paths of its own, and what it was told of them. It goes on from
    run to run. Of its bursts `names_share` change a name, and of these changes `renames_share` are
    renames. A call that is answered by one of `refusals` is not done."""

    refusals, own_folders = (JUKEBOX,), FOLDERS
    # The calls that cut, lengthen, remove or replace a file that was written from its first byte on.
    whole_calls = ()

    def __init__(self, number, most_at_once, choice=random, names_share=NAMES_SHARE, renames_share=RENAMES_SHARE):
        self.number, self.most_at_once, self.choice = number, most_at_once, choice
        self.names_share, self.renames_share = names_share, renames_share
        self.own = b"client%d" % number
        tops = [(self.own, b"folder%d" % place) for place in range(self.own_folders)]
        self.folders = tops + [(*top, b"deep") for top in tops]
        places = range(FILES_EACH)
        inner = [(*top, b"file%d" % place) for top in [(self.own,), *self.folders] for place in places]
        self.files = inner + [(SHARED, b"client%d file%d" % (number, place)) for place in places]
        self.found, self.writes, self.made = {}, 0, set()
        self.begin_run({})

    def begin_run(self, top):
        """Goes on from what was found. `top` has the handles of the folders that no client removes."""
        self.handles = dict(top) | {path: node.handle for path, node in self.found.items() if node}
        self.calls, self.stable, self.verifier, self.fault = [], 0, None, None
        # After so many calls its paths are so.
        self.known = 0, dict(self.found)

    def count_of_bursts(self, count):
        """How many bursts it sends where so many are asked for."""
        return count

    def is_own(self, path):
        return path in self.folders or path in self.files

    def run(self, port, is_ended, note=lambda kind, count: None, bursts=None):
        """Calls until the service ends, or so many bursts were sent. `note` learns how many calls
        were sent and are stable."""
        try:
            with Connection(port) as connection:
                while bursts is None or bursts > 0:
                    self.send_burst(connection, note)
                    bursts = bursts and bursts - 1
        except OSError as fault:
            if not is_ended():
                self.fault = Wrong(f"client {self.number}: the connection failed: {fault}")
        except Exception as fault:
            self.fault = Wrong(f"client {self.number}: {fault}")

    def send_burst(self, connection, note):
        burst = self.burst()
        self.calls += burst
        note("sent", len(self.calls))
        for call in burst:
            connection.send_nfs(call.procedure, call.arguments)
        for place in range(len(self.calls) - len(burst), len(self.calls)):
            self.take(connection, place)
            note("stable", self.stable)

    def burst(self):
        """Calls that are sent at once. What makes or removes a name comes last, since later calls
        need its answer."""
        there = [path for path in self.files if self.handles.get(path)]
        count = self.choice.randint(1, self.most_at_once) if there else 0
        calls = [self.change(self.choice.choice(there)) for _ in range(count)]
        if not calls or self.choice.random() < self.names_share:
            calls.append(self.change_of_names())
        return calls

    def change(self, path):
        handle, chance = self.handles[path], self.choice.random()
        if chance < 0.12:
            return Commit(path, handle)
        if chance < 0.22:
            return Set(path, handle, size=self.choice.randint(0, FILE_BYTES))
        if chance < 0.3:
            return Set(path, handle, mode=self.choice.choice((0o600, 0o644, 0o755)))
        start = self.choice.choice([0, 0, self.choice.randrange(FILE_BYTES)])
        end = self.choice.choice([FILE_BYTES, self.choice.randint(start + 1, FILE_BYTES)])
        return self.write_at(path, start, end - start, self.choice.choice([UNSTABLE, UNSTABLE, DATA_SYNC, FILE_SYNC]))

    def write_at(self, path, start, size, how):
        """A write of so many bytes, whose stamp is the number of the write."""
        self.writes += 1
        stamp = struct.pack(">I", self.number + 1 << 24 | self.writes)
        return Write(path, self.handles[path], start, size, stamp, how)

    def change_of_names(self):
        """A file or a folder that is made, removed or renamed, where its folder is there."""
        if self.choice.random() < self.renames_share and (rename := self.possible_rename()):
            return rename
        path = self.choice.choice([path for path in self.folders + self.files if self.handles.get(path[:-1])])
        if self.handles.get(path):
            return self.removal(path)
        directory = self.handles[path[:-1]]
        if path in self.folders:
            return MakeFolder(path, directory, 0o755)
        return Create(path, directory, 0o644, self.first_size())

    def first_size(self):
        return self.choice.choice([0, 0, 1, 5000, FILE_BYTES])

    def removal(self, path):
        """The removal of a path, or of the first thing that is in it."""
        inner = [it for it in self.folders + self.files if it[:-1] == path and self.handles.get(it)]
        if inner:
            return self.removal(inner[0])
        return (RemoveFolder if path in self.folders else Remove)(path, self.handles[path[:-1]])

    def possible_rename(self):
        """A rename of something that is there, if there is one."""
        there = [path for path in self.folders + self.files if self.handles.get(path)]
        places = [path for path in self.folders + self.files if self.handles.get(path[:-1])]
        for path in self.choice.sample(there, len(there)):
            goals = [goal for goal in places if self.may_get(path, goal, there)]
            if goals:
                goal = self.choice.choice(goals)
                return Rename(path, self.handles[path[:-1]], goal, self.handles[goal[:-1]])
        return None

    def may_get(self, path, goal, there):
        """Whether a path may get another one of the same kind, which has nothing in it, where all
        that is below it has a path of this client then."""
        if is_below(goal, path) or (path in self.folders) != (goal in self.folders):
            return False
        if any(is_below(it, goal) and it != goal for it in there):
            return False
        return all(self.is_own(goal + it[len(path) :]) for it in there if is_below(it, path))

    def take(self, connection, place):
        """Takes the answer to a call."""
        call = self.calls[place]
        status, results = connection.receive_nfs(call.procedure)
        call.is_answered = True
        if status in self.refusals:
            # Others were in the way, or there was no room. Nothing was done.
            call.is_done = False
            return
        if status != OK:
            raise Wrong(f"{b'/'.join(call.path)}: {NAMES[call.procedure]} is answered {status}")
        call.take(results)
        self.learn(call)
        if call.tells_stable:
            self.stable = place + 1

    def learn(self, call):
        """What the answer tells of handles and of the verifier."""
        if isinstance(call, (Write, Commit)):
            self.verifier = self.verifier or call.verifier
            if call.verifier != self.verifier:
                raise Wrong(f"{call.path}: another verifier in the same run")
        if isinstance(call, (Create, MakeFolder)):
            if call.handle in self.made:
                raise Wrong(f"{call.path}: {NAMES[call.procedure]} gives an old handle")
            self.made.add(call.handle)
            self.handles[call.path] = call.handle
        if isinstance(call, Remove):
            self.handles[call.path] = None
        if isinstance(call, Rename):
            self.handles = moved_paths(self.handles, call.path, call.new_path)

    def states(self, stable, sent):
        """What its paths may be where so many calls are stable, and so many were sent at most; and
        after how many."""
        state = self.state_after(stable)
        for place in range(stable, sent):
            yield place, state
            state = self.calls[place].after(state)
        yield sent, state

    def state_after(self, count):
        """What its paths are after so many calls. It is kept for later ones."""
        known, state = self.known if self.known[0] <= count else (0, dict(self.found))
        for call in self.calls[known:count]:
            state = call.after(state)
        self.known = count, state
        return state

    def place_of(self, found, stable, sent):
        """After how many of its calls its paths are as they were found."""
        states = list(self.states(stable, sent))
        paths = self.folders + self.files
        for place, state in states:
            if all(is_found(state.get(path), found.get(path)) for path in paths):
                return place
        raise Wrong("\n".join(self.difference([state for _, state in states], found, paths)))

    def difference(self, states, found, paths):
        """The paths that are as no state has them; or else all, which are in no state together."""
        is_odd = lambda path: not any(is_found(it.get(path), found.get(path)) for it in states)
        odd = [path for path in paths if is_odd(path)]
        if not odd:
            yield f"client {self.number}: each path is as it may be, but they are never so at once:"
        for path in odd or paths:
            name = b"/".join(path).decode()
            yield f"{name} found:   {found.get(path) or 'absent'}"
            for line in dict.fromkeys(str(state.get(path) or "absent") for state in states):
                yield f"{name} allowed: {line}"


class LargeClient(Client):
    """One whose files have index blocks (docs/FORMATS.md): it writes many blocks in a row, cuts and
    removes them. Where the disk is full, what needs room is not done."""

    refusals, own_folders = (JUKEBOX, NOSPC), 0

    def __init__(self, number, choice):
        super().__init__(number, MOST_IN_A_ROW, choice, names_share=0.25)

    def burst(self):
        there = [path for path in self.files if self.handles.get(path)]
        if not there or self.choice.random() < self.names_share:
            return [self.change_of_names()]
        path = self.choice.choice(there)
        if self.choice.random() < 0.25:
            return [Set(path, self.handles[path], size=self.place(path))]
        return self.writes_in_a_row(path)

    def writes_in_a_row(self, path):
        start, count = self.place(path), self.choice.randint(1, self.most_at_once)
        return self.row(path, start, min(start + count * MOST_WRITTEN, self.most_bytes(path)))

    def row(self, path, start, end):
        """Writes from one byte on to another one."""
        how = self.choice.choice((UNSTABLE, UNSTABLE, FILE_SYNC))
        places = range(start, end, MOST_WRITTEN)
        calls = [self.write_at(path, place, min(MOST_WRITTEN, end - place), how) for place in places]
        return [*calls, Commit(path, self.handles[path])] if how == UNSTABLE else calls

    def most_bytes(self, path):
        """How large a file gets."""
        return LARGE_BYTES

    def place(self, path):
        """A place in a file, often near one where another index block is needed."""
        most = self.most_bytes(path)
        edge = self.choice.randrange(FIRST_INDEX, most, INDEX_BYTES) + self.choice.randint(-9000, 9000)
        return self.choice.choice((0, self.choice.randrange(most), min(edge, most)))

    def first_size(self):
        return self.choice.choice((0, 0, self.choice.randrange(LARGE_BYTES)))


class GiantClient(LargeClient):
    """One with a file that gets so large, and that it writes, if it is asked for, from its first byte
    to its last one. Then it cuts it and makes it longer again, several times, and at last it removes
    it, or renames another file to its name."""

    cuts = 3

    def __init__(self, number, choice, giant_bytes, writes_whole):
        super().__init__(number, choice)
        self.giant, self.giant_bytes = self.files[0], giant_bytes
        self.acts = self.whole_acts() if writes_whole else iter(())
        self.whole_calls = []

    def most_bytes(self, path):
        return self.giant_bytes if path == self.giant else LARGE_BYTES

    def count_of_bursts(self, count):
        """How many bursts it sends, of which so many are random ones. One that does not write a whole
        file goes on as long as those that do."""
        rows = -(-self.giant_bytes // (MOST_IN_A_ROW * MOST_WRITTEN))
        return count + rows + 2 * self.cuts + 4

    def burst(self):
        return next(self.acts, None) or super().burst()

    def whole_acts(self):
        """The bursts of a whole file, in their order."""
        for path in (self.giant, self.files[1]):
            yield [Create(path, self.handles[path[:-1]], 0o644, 0)]
        row = MOST_IN_A_ROW * MOST_WRITTEN
        for start in range(0, self.giant_bytes, row):
            yield self.row(self.giant, start, min(start + row, self.giant_bytes))
        for size in sorted(self.choice.sample(range(self.giant_bytes), self.cuts), reverse=True):
            yield [self.whole(Set(self.giant, self.handles[self.giant], size=size))]
            yield [self.whole(Set(self.giant, self.handles[self.giant], size=self.giant_bytes))]
        yield [self.whole(self.last_act())]

    def last_act(self):
        folder = self.handles[self.giant[:-1]]
        if self.number % 2:
            return Rename(self.files[1], folder, self.giant, folder)
        return Remove(self.giant, folder)

    def whole(self, call):
        self.whole_calls.append(call)
        return call


def is_found(node, found):
    return found is None if node is None else node.is_found_as(found)


class Service:
    """A run of `jnlfs serve` over a disk."""

    def __init__(self, jnlfs, disk, environment=None):
        line = ["setpriv", "--pdeathsig", "KILL", jnlfs, "serve", disk, "--port", "0"]
        pipes = {"stdout": subprocess.PIPE, "stderr": subprocess.PIPE}
        self.process = subprocess.Popen([str(word) for word in line], text=True, env=environment, **pipes)
        self.is_killed = False
        self.watch = threading.Timer(START_SECONDS, self.process.kill)
        self.watch.start()

    def __enter__(self):
        return self

    def __exit__(self, *_):
        self.kill()
        self.process.wait()
        self.watch.cancel()
        self.process.stdout.close()
        self.process.stderr.close()

    def listen(self):
        """Waits for the port. None says that the program ended before it told one."""
        line = self.process.stdout.readline()
        self.watch.cancel()
        found = re.fullmatch(r"listening (?:on [\d.]+:)?(\d+)\n", line)
        if line and not found:
            raise Wrong(f"serve prints {line!r}")
        return int(found[1]) if found else None

    def kill(self):
        self.is_killed = True
        self.process.kill()

    def end(self):
        """What it has printed since, its faults and its status."""
        status = self.process.wait()
        return self.process.stdout.read(), self.process.stderr.read(), status


def make_disk(jnlfs, disk, *words):
    subprocess.run([jnlfs, "make", disk, *words], check=True, stdout=subprocess.DEVNULL)


def make_tops(jnlfs, disk, clients):
    """Makes the folders that no client removes. Their handles, by their paths."""
    with Service(jnlfs, disk) as service, Connection(listening(service)) as connection:
        root = connection.root()
        tops = {(): root}
        for name in (SHARED, *(client.own for client in clients)):
            tops[(name,)] = connection.must(MKDIR, entry(root, name) + settings(mode=0o755)).handle
        return tops


def listening(service):
    port = service.listen()
    if port is None:
        raise Wrong(f"serve does not serve the disk: {service.end()}")
    return port


def check_disk(jnlfs, disk, environment=None):
    """`jnlfs check` must find a sound tree."""
    ended = subprocess.run([jnlfs, "check", disk], capture_output=True, text=True, env=environment)
    if ended.returncode or "sound" not in ended.stdout:
        raise Wrong(f"check: status {ended.returncode}, {ended.stdout!r}, {ended.stderr!r}")


def all_nodes(jnlfs, disk, environment=None):
    """Each node of the disk by its path, as a run of the service tells them."""
    with Service(jnlfs, disk, environment) as service, Connection(listening(service)) as connection:
        nodes, waiting = {}, [((), connection.root())]
        while waiting:
            path, directory = waiting.pop()
            for line in connection.list_all(directory):
                nodes[(*path, line.name)] = node_of(connection, line)
                if line.attributes.kind == DIRECTORY:
                    waiting.append(((*path, line.name), line.handle))
        return nodes


def node_of(connection, line):
    told = line.attributes
    if told.kind == DIRECTORY:
        return Node(line.handle, told.mode, None, None)
    return Node(line.handle, told.mode, content_of(connection, line), told.ctime)


def content_of(connection, line):
    """The bytes of a file, which must be as many as its size. Several READs are sent at once. One
    that is answered JUKEBOX is sent again."""
    content, size = EMPTY, line.attributes.size
    offsets, waiting = collections.deque(range(0, size, MOST_READ)), collections.deque()
    while offsets or waiting:
        while offsets and len(waiting) < READS_AT_ONCE:
            waiting.append(offsets.popleft())
            connection.send_nfs(READ, at_place(line.handle, waiting[-1], MOST_READ))
        offset, (status, portion) = waiting.popleft(), connection.receive_nfs(READ)
        if status == JUKEBOX:
            offsets.append(offset)
        elif status != OK:
            raise Refused(READ, status)
        else:
            content = with_portion(content, offset, portion, line)
    return content


def with_portion(content, offset, portion, line):
    size = line.attributes.size
    wanted = min(MOST_READ, size - offset), offset + MOST_READ >= size
    if (len(portion.data), portion.is_end) != wanted:
        raise Wrong(f"{line.name}: size {size}, and a READ at {offset} gives {portion.count} bytes")
    return content.overlaid(offset, portion.data)


def own_nodes(client, nodes):
    return {path: node for path, node in nodes.items() if client.is_own(path)}


def refuse_strangers(nodes, clients, tops):
    """Each path is one of a client, or one of the folders that are never removed."""
    is_known = lambda path: path in tops or any(client.is_own(path) for client in clients)
    strangers = [path for path in nodes if not is_known(path)]
    if strangers:
        raise Wrong(f"paths that nobody made: {strangers}")
    lost = [path for path in tops if path and (path not in nodes or nodes[path].handle != tops[path])]
    if lost:
        raise Wrong(f"folders that nobody removed: {lost}")
