"""A tree of files that `jnlfs serve` serves, as it is asked by bytes that are made by hand, and how
its answers are compared with those that are written down.

A module: `tree_vectors.py`, `tree_renames.py`, `tree_links.py`, `tree_exclusive.py` and
`tree_large.py` use it, which have what is asked.
"""

import os
import re
import subprocess

from tree_calls import *

BLOCK = 4096
LARGEST_FILE = 4295163904
# Up to here a file has no index blocks, and up to there it has one.
DIRECT_BYTES, INDEXED_BYTES = 196608, 4390912
TRANSFER = 65536
LONGEST_NAME = 255
LONGEST_TEXT = 4095
NOBODY = 65534
ROOT_NUMBER = 1
NO_TIME = Time(0, 10**9)
# A reply's time is that of its call, and a service may read the clock at its last tick.
CLOCK_SLACK = 0.1

DENIED_CREDENTIAL = words(1, 1, 1, 1)  # MSG_DENIED, AUTH_ERROR, AUTH_BADCRED
PROGRAM_UNAVAILABLE = ACCEPTED + words(1)
VERSION_3_ALONE = ACCEPTED + words(2, 3, 3)
PROCEDURE_UNAVAILABLE = ACCEPTED + words(3)
GARBAGE = ACCEPTED + words(4)
DONE = ACCEPTED + words(0)

OWNER, MEMBER, STRANGER = user(1000, 100), user(1001, 500, (7, 100)), user(1002, 500)

# Where the description of the disk lies, and in it the disk's own number (docs/FORMATS.md).
DESCRIPTION, OWN_NUMBER = 513 * BLOCK, 32


class Differs(Exception):
    """An answer is another than the one that was written down."""


class Service:
    """A run of `jnlfs serve` over a disk, with these words and this environment more."""

    def __init__(self, jnlfs, disk, *more, **environment):
        line = ["setpriv", "--pdeathsig", "KILL", jnlfs, "serve", disk, "--port", "0", *more]
        pipes = {"stdout": subprocess.PIPE, "stderr": subprocess.DEVNULL}
        self.process = subprocess.Popen(line, text=True, env={**os.environ, **environment}, **pipes)
        found = re.fullmatch(r"listening (?:on [\d.]+:)?(\d+)\n", self.process.stdout.readline())
        if not found:
            self.process.kill()
            raise OSError("the service did not begin")
        self.port = int(found[1])

    def __enter__(self):
        return self

    def __exit__(self, *_):
        self.process.kill()
        self.process.wait()
        self.process.stdout.close()


class Vectors:
    """A connection to a service, the tree's root, and how many things were compared."""

    def __init__(self, port, disk_number):
        self.connection = Connection(port)
        self.disk_number = disk_number
        self.root = hyper(disk_number) + words(ROOT_NUMBER, 1)
        self.compared = 0

    def equal(self, what, got, wanted):
        self.compared += 1
        if got != wanted:
            show = lambda it: it.hex() if isinstance(it, bytes) else it
            raise Differs(f"{what}: got {show(got)}, wanted {show(wanted)}")

    def holds(self, what, is_so):
        self.equal(what, bool(is_so), True)

    def ask(self, what, procedure, arguments, by=ROOT_USER):
        try:
            return self.connection.ask(procedure, arguments, by)
        except Malformed as why:
            raise Differs(f"{what}: {why}") from None

    def does(self, what, procedure, arguments, by=ROOT_USER):
        """The results of a call that must be answered OK."""
        status, results = self.ask(what, procedure, arguments, by)
        self.equal(f"{what}: status", status, OK)
        return results

    def refuses(self, what, wanted, procedure, arguments, by=ROOT_USER):
        """A call must be answered by this status, and by no part more."""
        self.equal(f"{what}: status", self.ask(what, procedure, arguments, by)[0], wanted)

    def looks(self, what, attributes, **wanted):
        """Attributes that are there have these fields, and what all of them have."""
        self.holds(f"{what}: there are attributes", attributes is not None)
        wanted |= {"links": 1, "device": (0, 0), "disk": self.disk_number, "read": attributes.mtime}
        wanted["used"] = -(-attributes.size // BLOCK) * BLOCK
        for name, value in wanted.items():
            self.equal(f"{what}: {name}", getattr(attributes, name), value)
        for moment in (attributes.mtime, attributes.ctime):
            self.holds(f"{what}: nanoseconds", moment.nanos < 10**9)

    def attributes(self, handle):
        return self.does("GETATTR", GETATTR, opaque(handle))

    def shows(self, what, attributes, handle):
        """Attributes in a reply are those that GETATTR tells."""
        self.equal(what, attributes, self.attributes(handle))

    def changes(self, what, change, before, handle):
        """A change tells of a node what was told of it before, and what GETATTR tells after it."""
        self.equal(f"{what}: before", change.before, Before(before.size, before.mtime, before.ctime))
        self.shows(f"{what}: after", change.after, handle)

    def make(self, directory, name, by=ROOT_USER, **asked):
        """The handle of a new file."""
        arguments = entry(directory, name) + words(GUARDED) + settings(**asked)
        return self.does(f"CREATE {name}", CREATE, arguments, by).handle

    def folder(self, directory, name, by=ROOT_USER, **asked):
        """The handle of a new folder."""
        return self.does(f"MKDIR {name}", MKDIR, entry(directory, name) + settings(**asked), by).handle

    def link(self, directory, name, text, by=ROOT_USER, **asked):
        """The handle of a new symbolic link."""
        arguments = entry(directory, name) + settings(**asked) + opaque(text)
        return self.does(f"SYMLINK {name}", SYMLINK, arguments, by).handle

    def write(self, handle, data, offset=0, by=ROOT_USER):
        return self.does("WRITE", WRITE, written(handle, offset, data), by)

    def content(self, handle):
        return self.connection.read_all(handle)

    def set(self, handle, by=ROOT_USER, **asked):
        return self.does("SETATTR", SETATTR, opaque(handle) + settings(**asked) + words(0), by)

    def number_of(self, handle):
        return int.from_bytes(handle[8:12], "big")


class Disk:
    """A new disk of so many blocks, how it is cut, and services of it."""

    def __init__(self, jnlfs, folder, name, blocks, *more):
        self.jnlfs, self.path = jnlfs, folder / name
        subprocess.run([jnlfs, "make", self.path, "--blocks", str(blocks), *more], check=True, stdout=subprocess.DEVNULL)
        with open(self.path, "rb") as file:
            file.seek(DESCRIPTION)
            head, version, self.blocks, self.inodes, self.number = struct.unpack("<8s4Q", file.read(40))
        if (head, version, self.blocks) != (b"GJNLDSK1", 3, blocks):
            raise OSError(f"make makes no tree of {blocks} blocks: {head} {version} {self.blocks}")
        inode_blocks, owner_blocks = -(-self.inodes // 8), -(-blocks // 512)
        self.data_blocks = blocks - 514 - owner_blocks - inode_blocks

    def serve(self, *more, **environment):
        return Service(self.jnlfs, self.path, *more, **environment)

    def vectors(self, service):
        return Vectors(service.port, self.number)
