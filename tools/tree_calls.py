"""Calls to a tree of files by NFS version 3 and MOUNT, and their replies, spelled by hand from RFC
1813 and RFC 5531.

A module: `tree-vectors`, `kill-tree` and `lose-tree` use it. A reply must be spelled as the
standard says, each boolean 0 or 1, each pad of zeros, and nothing after the end: else it is
`Malformed`.
"""

import random
import socket
import struct
from typing import NamedTuple, Optional

MOUNT, NFS = 100005, 100003
NULL, GETATTR, SETATTR, LOOKUP, ACCESS, READLINK, READ, WRITE, CREATE, MKDIR, SYMLINK = range(11)
MKNOD, REMOVE, RMDIR, RENAME, LINK, READDIR, READDIRPLUS, FSSTAT, FSINFO, PATHCONF, COMMIT = range(11, 22)
NAMES = (
    "NULL GETATTR SETATTR LOOKUP ACCESS READLINK READ WRITE CREATE MKDIR SYMLINK MKNOD REMOVE RMDIR RENAME LINK "
    "READDIR READDIRPLUS FSSTAT FSINFO PATHCONF COMMIT"
).split()

OK, PERM, NOENT, IO, ACCES, EXIST, NOTDIR, ISDIR = 0, 1, 2, 5, 13, 17, 20, 21
INVAL, FBIG, NOSPC, ROFS = 22, 27, 28, 30
NAMETOOLONG, NOTEMPTY, STALE, BADHANDLE, NOT_SYNC, NOTSUPP, TOOSMALL = 63, 66, 70, 10001, 10002, 10004, 10005
SERVERFAULT, JUKEBOX = 10006, 10008

UNSTABLE, DATA_SYNC, FILE_SYNC = 0, 1, 2
UNCHECKED, GUARDED, EXCLUSIVE = 0, 1, 2
FILE, DIRECTORY, SYMBOLIC_LINK = 1, 2, 5

# How many words follow the status of a refusal: a zero for each part that may be there.
AFTER_REFUSAL = {GETATTR: 0, RENAME: 4, LINK: 3}
AFTER_REFUSAL |= dict.fromkeys((LOOKUP, ACCESS, READLINK, READ, READDIR, READDIRPLUS), 1)
AFTER_REFUSAL |= dict.fromkeys((FSSTAT, FSINFO, PATHCONF), 1)
AFTER_REFUSAL |= dict.fromkeys((SETATTR, WRITE, CREATE, MKDIR, SYMLINK, MKNOD, REMOVE, RMDIR, COMMIT), 2)

SECONDS = 60
LAST_FRAGMENT = 1 << 31
# What stands after the number of a reply that accepts a call (RFC 5531, section 9), and why one is
# not done.
ACCEPTED = struct.pack(">4I", 1, 0, 0, 0)


class Malformed(Exception):
    """A reply is not spelled as RFC 1813 says."""


class Refused(Exception):
    """A call was answered by another status than OK."""

    def __init__(self, procedure, status):
        super().__init__(f"{NAMES[procedure]} is answered {status}")
        self.procedure, self.status = procedure, status


# ---- how arguments are spelled


def words(*numbers):
    return struct.pack(f">{len(numbers)}I", *numbers)


def hyper(number):
    return struct.pack(">Q", number)


def opaque(data):
    """Data of any length, with the length before it and zeros up to a multiple of four."""
    return words(len(data)) + data + bytes(-len(data) % 4)


class Time(NamedTuple):
    secs: int
    nanos: int


class FromServer:
    """A time that the server is asked to take from its own clock."""


def optional(number):
    return words(0) if number is None else words(1, number)


def new_time(time):
    if time is None:
        return words(0)
    return words(1) if time is FromServer else words(2, *time)


def settings(mode=None, user=None, group=None, size=None, read=None, changed=None):
    """sattr3. What is None is left as it is."""
    sized = words(0) if size is None else words(1) + hyper(size)
    return optional(mode) + optional(user) + optional(group) + sized + new_time(read) + new_time(changed)


def entry(directory, name):
    """diropargs3."""
    return opaque(directory) + opaque(name)


def at_place(handle, offset, count):
    """READ3args, and COMMIT3args."""
    return opaque(handle) + hyper(offset) + words(count)


def written(handle, offset, data, how=FILE_SYNC, count=None):
    """WRITE3args."""
    return at_place(handle, offset, len(data) if count is None else count) + words(how) + opaque(data)


def listed(directory, cookie, *counts):
    """READDIR3args, and with two counts READDIRPLUS3args. The cookie's verifier is zeros."""
    return opaque(directory) + hyper(cookie) + bytes(8) + words(*counts)


# ---- who calls

ANYBODY = words(0, 0)


def user(number, group=None, groups=(), machine=b"judge"):
    """The credential of a user by AUTH_SYS. His group has his number where none is named."""
    body = words(1) + opaque(machine) + words(number, number if group is None else group, len(groups), *groups)
    return words(1) + opaque(body)


ROOT_USER = user(0)


# ---- how replies are read


class Attributes(NamedTuple):
    """fattr3."""

    kind: int
    mode: int
    links: int
    user: int
    group: int
    size: int
    used: int
    device: tuple
    disk: int
    number: int
    read: Time
    mtime: Time
    ctime: Time


class Before(NamedTuple):
    """wcc_attr."""

    size: int
    mtime: Time
    ctime: Time


class Change(NamedTuple):
    """wcc_data."""

    before: Optional[Before]
    after: Optional[Attributes]


class Found(NamedTuple):
    """LOOKUP3resok."""

    handle: bytes
    attributes: Optional[Attributes]
    directory: Optional[Attributes]


class Made(NamedTuple):
    """CREATE3resok, MKDIR3resok and SYMLINK3resok."""

    handle: Optional[bytes]
    attributes: Optional[Attributes]
    directory: Change


class Renamed(NamedTuple):
    """RENAME3resok: of the directory that the node comes from, and of the one to which it goes."""

    source: Change
    goal: Change


class Access(NamedTuple):
    attributes: Optional[Attributes]
    rights: int


class LinkText(NamedTuple):
    """READLINK3resok."""

    attributes: Optional[Attributes]
    text: bytes


class Portion(NamedTuple):
    """READ3resok."""

    attributes: Optional[Attributes]
    count: int
    is_end: bool
    data: bytes


class Wrote(NamedTuple):
    """WRITE3resok."""

    change: Change
    count: int
    committed: int
    verifier: bytes


class Committed(NamedTuple):
    change: Change
    verifier: bytes


class Line(NamedTuple):
    """entry3, and entryplus3, which has the last two."""

    number: int
    name: bytes
    cookie: int
    attributes: Optional[Attributes] = None
    handle: Optional[bytes] = None


class Listing(NamedTuple):
    attributes: Optional[Attributes]
    verifier: bytes
    lines: list
    is_end: bool


class Space(NamedTuple):
    """FSSTAT3resok."""

    attributes: Optional[Attributes]
    total_bytes: int
    free_bytes: int
    available_bytes: int
    total_files: int
    free_files: int
    available_files: int
    stays_for: int


class Reader:
    """Reads results from their first byte on."""

    def __init__(self, data):
        self.data, self.at = data, 0

    def take(self, count):
        if self.at + count > len(self.data):
            raise Malformed(f"{self.data.hex()} ends within a value")
        self.at += count
        return self.data[self.at - count : self.at]

    def word(self):
        return int.from_bytes(self.take(4), "big")

    def hyper(self):
        return int.from_bytes(self.take(8), "big")

    def boolean(self):
        number = self.word()
        if number > 1:
            raise Malformed(f"{number} is no boolean")
        return number == 1

    def opaque(self):
        data = self.take(self.word())
        if any(self.take(-len(data) % 4)):
            raise Malformed("a pad is not zeros")
        return data

    def optional(self, read):
        return read() if self.boolean() else None

    def end(self):
        if self.at < len(self.data):
            raise Malformed(f"{self.data.hex()} has {len(self.data) - self.at} bytes too many")

    def time(self):
        return Time(self.word(), self.word())

    def attributes(self):
        first = [self.word() for _ in range(5)]
        sizes, device = [self.hyper(), self.hyper()], (self.word(), self.word())
        named = [self.hyper(), self.hyper()]
        return Attributes(*first, *sizes, device, *named, *(self.time() for _ in range(3)))

    def before(self):
        return Before(self.hyper(), self.time(), self.time())

    def change(self):
        return Change(self.optional(self.before), self.optional(self.attributes))

    def found(self):
        return Found(self.opaque(), self.optional(self.attributes), self.optional(self.attributes))

    def made(self):
        return Made(self.optional(self.opaque), self.optional(self.attributes), self.change())

    def renamed(self):
        return Renamed(self.change(), self.change())

    def access(self):
        return Access(self.optional(self.attributes), self.word())

    def link_text(self):
        return LinkText(self.optional(self.attributes), self.opaque())

    def portion(self):
        return Portion(self.optional(self.attributes), self.word(), self.boolean(), self.opaque())

    def wrote(self):
        return Wrote(self.change(), self.word(), self.word(), self.take(8))

    def committed(self):
        return Committed(self.change(), self.take(8))

    def line(self):
        return Line(self.hyper(), self.opaque(), self.hyper())

    def line_plus(self):
        return Line(*self.line()[:3], self.optional(self.attributes), self.optional(self.opaque))

    def listing(self, read_line):
        attributes, verifier, lines = self.optional(self.attributes), self.take(8), []
        while self.boolean():
            lines.append(read_line())
        return Listing(attributes, verifier, lines, self.boolean())

    def space(self):
        return Space(self.optional(self.attributes), *(self.hyper() for _ in range(6)), self.word())

    def facts(self):
        """FSINFO3resok: the attributes, and the bytes of the rest."""
        return self.optional(self.attributes), self.take(48)

    def name_facts(self):
        """PATHCONF3resok."""
        return self.optional(self.attributes), self.take(24)


RESULTS = {
    GETATTR: Reader.attributes,
    SETATTR: Reader.change,
    LOOKUP: Reader.found,
    ACCESS: Reader.access,
    READLINK: Reader.link_text,
    READ: Reader.portion,
    WRITE: Reader.wrote,
    CREATE: Reader.made,
    MKDIR: Reader.made,
    SYMLINK: Reader.made,
    REMOVE: Reader.change,
    RMDIR: Reader.change,
    RENAME: Reader.renamed,
    READDIR: lambda reader: reader.listing(reader.line),
    READDIRPLUS: lambda reader: reader.listing(reader.line_plus),
    FSSTAT: Reader.space,
    FSINFO: Reader.facts,
    PATHCONF: Reader.name_facts,
    COMMIT: Reader.committed,
}


def read_results(procedure, data):
    """The status and the results of a procedure. After a refusal there is no part that may be
    there."""
    reader = Reader(data)
    status = reader.word()
    if status == OK:
        if procedure not in RESULTS:
            raise Malformed(f"{NAMES[procedure]} is answered OK")
        results = RESULTS[procedure](reader)
    else:
        results = reader.take(4 * AFTER_REFUSAL[procedure])
        if any(results):
            raise Malformed(f"{NAMES[procedure]}: {results.hex()} after the refusal {status}")
    reader.end()
    return status, results


class Connection:
    """A connection. Replies come in the order of the calls, and many calls may be sent before one
    is read."""

    def __init__(self, port, host="127.0.0.1", credential=ROOT_USER):
        self.socket = socket.create_connection((host, port), timeout=SECONDS)
        self.socket.setsockopt(socket.IPPROTO_TCP, socket.TCP_NODELAY, 1)
        self.stream = self.socket.makefile("rb")
        self.credential = credential
        # Another connection begins with another number: a call that has been sent before, byte by byte,
        # is not done again.
        self.sent = self.received = random.SystemRandom().getrandbits(31)

    def __enter__(self):
        return self

    def __exit__(self, *_):
        self.close()

    def close(self):
        self.stream.close()
        self.socket.close()

    def send(self, program, version, procedure, arguments, credential=None):
        self.sent += 1
        by = self.credential if credential is None else credential
        call = words(self.sent, 0, 2, program, version, procedure) + by + words(0, 0) + arguments
        self.socket.sendall(words(LAST_FRAGMENT | len(call)) + call)

    def receive(self):
        """What a reply has after its number."""
        head = self.stream.read(4)
        mark = int.from_bytes(head, "big")
        reply = self.stream.read(mark & (LAST_FRAGMENT - 1))
        if len(head) < 4 or len(reply) < mark & (LAST_FRAGMENT - 1) or not mark & LAST_FRAGMENT:
            raise ConnectionError("the service ended the connection")
        self.received += 1
        if reply[:4] != words(self.received):
            raise Malformed(f"reply {reply[:4].hex()} in place of {self.received:x}")
        return reply[4:]

    def call(self, program, version, procedure, arguments=b"", credential=None):
        """What the reply to a call has after its number."""
        self.send(program, version, procedure, arguments, credential)
        return self.receive()

    def send_nfs(self, procedure, arguments, credential=None):
        self.send(NFS, 3, procedure, arguments, credential)

    def receive_nfs(self, procedure):
        """The status and the results of the next reply, which is to a call of this procedure."""
        reply = self.receive()
        if reply[:20] != ACCEPTED + words(0):
            raise Malformed(f"{NAMES[procedure]} is not accepted: {reply.hex()}")
        return read_results(procedure, reply[20:])

    def ask(self, procedure, arguments, credential=None):
        """The status and the results of a call."""
        self.send_nfs(procedure, arguments, credential)
        return self.receive_nfs(procedure)

    def must(self, procedure, arguments, credential=None):
        """The results of a call that is done. One that is answered JUKEBOX is sent again, as the
        standard says."""
        status = JUKEBOX
        while status == JUKEBOX:
            status, results = self.ask(procedure, arguments, credential)
        if status != OK:
            raise Refused(procedure, status)
        return results

    def root(self):
        """The handle that MOUNT gives for the whole tree."""
        reply = self.call(MOUNT, 3, 1, opaque(b"/"))
        if reply[:24] != ACCEPTED + words(0, 0):
            raise Malformed(f"MNT is answered {reply.hex()}")
        return Reader(reply[24:]).opaque()

    def read_all(self, handle):
        """All bytes of a file."""
        data, is_end = bytearray(), False
        while not is_end:
            portion = self.must(READ, at_place(handle, len(data), 65536))
            data += portion.data
            is_end = portion.is_end
        return bytes(data)

    def list_all(self, directory):
        """Each line of a directory but `.` and `..`, with attributes and handle."""
        cookie, is_end, lines = 0, False, []
        while not is_end:
            page = self.must(READDIRPLUS, listed(directory, cookie, 65536, 65536))
            lines, is_end = lines + page.lines, page.is_end
            cookie = page.lines[-1].cookie if page.lines else cookie
        return [line for line in lines if line.name not in (b".", b"..")]
