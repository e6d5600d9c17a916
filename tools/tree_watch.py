"""A proxy between a kernel and `jnlfs serve` of a tree. It judges each reply that tells of a file's
bytes, whatever the kernel makes of it.

A module: `mount-tree` uses it. The changes of a file are ordered by the ctime that their replies
tell. Then

- a READ has the bytes that the file had at the ctime of its reply, and says rightly whether they
  reach its end;
- a change tells as `before` the state after the change before it, has a later ctime, a WRITE also
  another mtime, and leaves the size that it must;
- attributes are those of a state of the file, and of none that is older than what any reply told
  before the call was sent.

So where a user of the kernel reads a wrong byte, and no reply was wrong, the kernel erred. It takes
for granted that nobody changes the files past it, that their replies come by one connection, as
those of mounts of one address do, and that the service is not killed meanwhile. Of a file that was
there before it knows nothing until it is told to be empty.
"""

import collections
import functools
import itertools
import socket
import threading
from typing import NamedTuple, Optional

from tree_calls import *
from tree_content import EMPTY, Content

# So many states are kept of a file, and so many files: more than are told of at once. One that
# nothing was told of for long is forgotten, and nothing more of it is judged.
STATES, FILES = 16, 64
MOST_FAULTS = 20


class State(NamedTuple):
    """What a file is from a change on."""

    mtime: Time
    content: Content


class Call(NamedTuple):
    """A call that is under way, and the ctime that replies had told of its file before."""

    procedure: int
    handle: bytes
    offset: int = 0
    count: int = 0
    data: bytes = b""
    size: Optional[int] = None
    told: Optional[Time] = None


# ---- how calls are read


def size_in_settings(reader):
    """The size that sattr3 sets, where it sets one."""
    for _ in range(3):
        reader.optional(reader.word)
    size = reader.optional(reader.hyper)
    for _ in range(2):
        if reader.word() == 2:
            reader.time()
    return size


def read_call(data):
    """The number of a call, and the call, if it is one of NFS that names a node or an entry."""
    reader = Reader(data)
    number, _, _, program, _, procedure = (reader.word() for _ in range(6))
    for _ in range(2):
        reader.word()
        reader.opaque()
    if program != NFS or procedure == NULL:
        return number, None
    return number, read_arguments(reader, procedure, reader.opaque())


def read_arguments(reader, procedure, handle):
    if procedure in (READ, WRITE):
        offset, count = reader.hyper(), reader.word()
        data = (reader.word(), reader.opaque())[1] if procedure == WRITE else b""
        return Call(procedure, handle, offset, count, data)
    if procedure == SETATTR:
        return Call(procedure, handle, size=size_in_settings(reader))
    if procedure == CREATE:
        reader.opaque()
        return Call(procedure, handle, size=size_in_settings(reader) if reader.word() != EXCLUSIVE else None)
    return Call(procedure, handle)


# ---- what a file is


class File:
    """The states of a file, by their ctimes."""

    def __init__(self):
        self.states, self.last = collections.OrderedDict(), None

    def add(self, ctime, state):
        self.states[ctime] = state
        self.last = max(ctime, self.last or ctime)
        while len(self.states) > STATES:
            self.states.popitem(last=False)

    def latest(self):
        return self.states[self.last]

    def is_moved(self, ctime, mtime, size):
        """True if this state has the bytes of the latest one, as after a RENAME or a new mode."""
        latest = self.latest()
        return ctime > self.last and (mtime, size) == (latest.mtime, latest.content.size)

    def state_at(self, ctime, mtime, size):
        """The state of which a reply tells these, or None."""
        if ctime not in self.states and self.is_moved(ctime, mtime, size):
            self.add(ctime, State(mtime, self.latest().content))
        state = self.states.get(ctime)
        return state if state and (state.mtime, state.content.size) == (mtime, size) else None

    def shown(self):
        """Its latest state, for a fault."""
        return f"ctime {self.last}, mtime {self.latest().mtime}, size {self.latest().content.size}"


class Files:
    """Those of which something was told lately, by their handles."""

    def __init__(self):
        self.by_handle = collections.OrderedDict()

    def get(self, handle):
        if handle in self.by_handle:
            self.by_handle.move_to_end(handle)
        return self.by_handle.get(handle)

    def add_empty(self, handle, attributes):
        self.by_handle[handle] = File()
        self.by_handle[handle].add(attributes.ctime, State(attributes.mtime, EMPTY))
        while len(self.by_handle) > FILES:
            self.by_handle.popitem(last=False)


class Judge:
    """Judges the replies of a service."""

    def __init__(self):
        self.files, self.told, self.under_way = Files(), {}, {}
        self.faults, self.counts, self.lock = [], collections.Counter(), threading.Lock()

    def fault(self, call, text):
        if len(self.faults) < MOST_FAULTS:
            self.faults.append(f"{NAMES[call.procedure]} of {call.handle.hex()}: {text}")

    def hear_call(self, connection, data):
        number, call = read_call(data)
        if call is not None:
            call = call._replace(told=self.told.get(call.handle))
        self.under_way[connection, number] = call

    def hear_reply(self, connection, data):
        call = self.under_way.pop((connection, int.from_bytes(data[:4], "big")), None)
        if call is None or data[4:24] != ACCEPTED + words(0):
            return
        status, results = read_results(call.procedure, data[24:])
        if status == OK:
            self.judge(call, results)

    def judge(self, call, results):
        if call.procedure in (WRITE, SETATTR):
            self.judge_change(call, results if call.procedure == SETATTR else results.change, results)
        elif call.procedure == CREATE:
            self.judge_made(call, results)
        elif call.procedure == READ:
            self.judge_portion(call, results)
        elif call.procedure == LOOKUP:
            self.look(call._replace(told=None), results.handle, results.attributes)
        elif call.procedure == COMMIT:
            self.look(call, call.handle, results.change.after)
        elif call.procedure == GETATTR:
            self.look(call, call.handle, results)
        elif call.procedure == ACCESS:
            self.look(call, call.handle, results.attributes)

    def look(self, call, handle, attributes):
        """The state of a file of which a reply tells, if the file is known."""
        if attributes is None or attributes.kind != FILE:
            return None
        if call.told is not None and attributes.ctime < call.told:
            self.fault(call, f"ctime {attributes.ctime}, where {call.told} was told before the call")
        self.note_told(handle, attributes.ctime)
        file = self.files.get(handle)
        if file is None:
            if attributes.size == 0:
                self.files.add_empty(handle, attributes)
            return None
        state = file.state_at(attributes.ctime, attributes.mtime, attributes.size)
        if state is None:
            self.fault(call, f"{attributes} is no state of the file, whose last one has {file.shown()}")
        else:
            self.counts["attributes"] += 1
        return state

    def note_told(self, handle, ctime):
        self.told[handle] = max(ctime, self.told.get(handle, ctime))

    def judge_portion(self, call, portion):
        state = self.look(call, call.handle, portion.attributes)
        if state is None:
            return
        wanted = state.content.part(call.offset, min(call.count, len(portion.data) or call.count))
        reaches = call.offset + portion.count >= state.content.size
        if portion.data != wanted or portion.count != len(wanted):
            self.fault(call, f"{portion.count} bytes at {call.offset} of {call.count} are not those at {portion.attributes.ctime}")
        if portion.is_end != reaches or not (portion.data or reaches):
            self.fault(call, f"{portion.count} bytes at {call.offset} of a file of {state.content.size}: its end {portion.is_end}")
        self.counts["READs"] += 1

    def judge_change(self, call, change, results):
        file, before, after = self.files.get(call.handle), change.before, change.after
        if file is None or None in (before, after):
            self.look(call, call.handle, after)
            return
        state = file.state_at(before.ctime, before.mtime, before.size)
        if state is None or before.ctime != file.last:
            self.fault(call, f"{before} is not the state before it, which has {file.shown()}")
            state = file.latest()
        if after.ctime <= before.ctime:
            self.fault(call, f"its ctime {after.ctime} is not after {before.ctime}")
        if call.data and after.mtime == before.mtime:
            self.fault(call, f"its mtime stays {after.mtime}")
        self.add_state(call, call.handle, after, content_after(call, state.content, results))
        self.counts["changes"] += 1

    def judge_made(self, call, made):
        """A CREATE, which may find a file that is there."""
        file = self.files.get(made.handle)
        if file is not None and made.attributes is not None and made.attributes.ctime not in file.states:
            self.add_state(call, made.handle, made.attributes, set_size(file.latest().content, call.size))
        self.look(call._replace(told=None), made.handle, made.attributes)

    def add_state(self, call, handle, attributes, content):
        if content.size != attributes.size:
            self.fault(call, f"its size {attributes.size} is not {content.size}")
        self.files.get(handle).add(attributes.ctime, State(attributes.mtime, content))
        self.note_told(handle, attributes.ctime)


def set_size(content, size):
    return content if size is None else content.resized(size)


def content_after(call, content, results):
    if call.procedure == SETATTR:
        return set_size(content, call.size)
    return content.overlaid(call.offset, call.data[: results.count])


# ---- the proxy


class Records:
    """Takes bytes as they come, and answers the records that are whole then."""

    def __init__(self):
        self.held, self.parts = b"", b""

    def take(self, data):
        self.held += data
        found = []
        while len(self.held) >= 4:
            mark = int.from_bytes(self.held[:4], "big")
            end = 4 + (mark & (LAST_FRAGMENT - 1))
            if len(self.held) < end:
                break
            self.parts, self.held = self.parts + self.held[4:end], self.held[end:]
            if mark & LAST_FRAGMENT:
                found.append(self.parts)
                self.parts = b""
        return found


def pass_on(judge, hear, source, goal):
    """Lets what one side sends be heard, and sends it on, until one of both ends."""
    records = Records()
    try:
        while data := source.recv(1 << 20):
            with judge.lock:
                for record in records.take(data):
                    try:
                        hear(record)
                    except Malformed as why:
                        judge.faults.append(f"a record is malformed: {why}"[:200])
            goal.sendall(data)
    except OSError:
        pass
    for end in (source, goal):
        try:
            end.shutdown(socket.SHUT_RDWR)
        except OSError:
            pass


def pass_on_all(judge, listener, goal):
    """Takes connections for ever."""
    for number in itertools.count():
        client, _ = listener.accept()
        try:
            server = socket.create_connection(goal)
        except OSError:
            client.close()
            continue
        hears = functools.partial(judge.hear_call, number), functools.partial(judge.hear_reply, number)
        for hear, source, end in zip(hears, (client, server), (server, client)):
            source.setsockopt(socket.IPPROTO_TCP, socket.TCP_NODELAY, 1)
            threading.Thread(target=pass_on, args=(judge, hear, source, end), daemon=True).start()


def watch(place, goal):
    """Listens at an address and a port, and passes on to those of a service. Answers the judge."""
    judge, listener = Judge(), socket.create_server(place, backlog=50)
    threading.Thread(target=pass_on_all, args=(judge, listener, goal), daemon=True).start()
    return judge
