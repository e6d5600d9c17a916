"""What tools need that call `jtool serve`: a run of it, the calls that change files, and what they make of a file."""

import itertools
import socket
import struct
import subprocess
import sys
import threading
from pathlib import Path
from typing import NamedTuple, Optional

sys.path.insert(0, str(Path(__file__).resolve().parent.parent / "examples"))
from nfs_client import CREATE, FILE_SYNC, LOOKUP, READ, REMOVE, WRITE, Refused, Service, entry, files, opaque, read

FILE_BYTES = 8192  # two blocks, which one READ gives
SECONDS = 60
GETATTR, SETATTR, COMMIT = 1, 2, 21
UNSTABLE, DATA_SYNC = 0, 1
GUARDED = 1


class Wrong(Exception):
    """The service did what it must not do."""


class File(NamedTuple):
    """A file. What is None is not known: of a call without an answer nobody knows the time, nor the handle that it made."""

    handle: Optional[bytes]
    content: bytes
    time: Optional[tuple]

    def is_found_as(self, found):
        return (
            found is not None
            and self.content == found.content
            and self.handle in (None, found.handle)
            and self.time in (None, found.time)
        )


def described(file):
    """A file in a line. Its bytes stand by fours, each the number of the call that wrote it."""
    if file is None:
        return "absent"
    words = [file.content[at : at + 4].hex() for at in range(0, len(file.content), 4)]
    runs = " ".join(f"{word}*{len(list(run))}" for word, run in itertools.groupby(words))
    handle = "any" if file.handle is None else str(int.from_bytes(file.handle[8:], "big"))
    moment = "any" if file.time is None else "{}.{:09}".format(*file.time)
    return f"generation {handle}, time {moment}, {len(file.content)} bytes: {runs}"


class Call:
    """A call that changes a file. Before it is answered it may have been done or not."""

    tells_stable = True
    time = None

    def __init__(self, name):
        self.name = name


class Create(Call):
    handle = None

    def __init__(self, name, size):
        super().__init__(name)
        self.size = size

    def words(self):
        return CREATE, entry(self.name) + struct.pack(">5IQ2I", GUARDED, 0, 0, 0, 1, self.size, 0, 0)

    def take(self, reply):
        self.handle, _, *moment = struct.unpack_from(">8x12s24xQ40x2I", reply)
        self.time = tuple(moment)

    def after(self, file):
        return File(self.handle, bytes(self.size), self.time)


class Remove(Call):
    def words(self):
        return REMOVE, entry(self.name)

    def take(self, reply):
        pass

    def after(self, file):
        return None


class SetSize(Call):
    def __init__(self, name, handle, size):
        super().__init__(name)
        self.handle, self.size = handle, size

    def words(self):
        return SETATTR, opaque(self.handle) + struct.pack(">4IQ3I", 0, 0, 0, 1, self.size, 0, 0, 0)

    def take(self, reply):
        self.time = struct.unpack_from(">28x24x8x40x2I", reply)

    def after(self, file):
        return File(file.handle, file.content[: self.size].ljust(self.size, b"\0"), self.time)


class Write(Call):
    verifier = None

    def __init__(self, name, handle, offset, data, how):
        super().__init__(name)
        self.handle, self.offset, self.data, self.how = handle, offset, data, how
        self.tells_stable = how != UNSTABLE

    def words(self):
        place = struct.pack(">Q2I", self.offset, len(self.data), self.how)
        return WRITE, opaque(self.handle) + place + opaque(self.data)

    def take(self, reply):
        *moment, count, committed, self.verifier = struct.unpack_from(">28x24x8x40x2I8x2I8s", reply)
        self.time = tuple(moment)
        if count != len(self.data) or committed != (FILE_SYNC if self.tells_stable else UNSTABLE):
            raise Wrong(f"{self.name}: a WRITE of {len(self.data)} bytes answers {count}, committed {committed}")

    def after(self, file):
        before = file.content.ljust(self.offset, b"\0")
        behind = before[self.offset + len(self.data) :]
        return File(file.handle, before[: self.offset] + self.data + behind, self.time)


class Commit(Call):
    verifier = None

    def __init__(self, name, handle):
        super().__init__(name)
        self.handle = handle

    def words(self):
        return COMMIT, opaque(self.handle) + struct.pack(">QI", 0, 0)

    def take(self, reply):
        (self.verifier,) = struct.unpack_from(">116x8s", reply)

    def after(self, file):
        return file


class Look(Call):
    """A READ of a whole file, which changes nothing."""

    tells_stable = False
    found = None

    def __init__(self, name, handle):
        super().__init__(name)
        self.handle = handle

    def words(self):
        return READ, opaque(self.handle) + struct.pack(">QI", 0, FILE_BYTES)

    def take(self, reply):
        size, *moment, count = struct.unpack_from(">24xQ40x2I8xI", reply)
        self.found = File(self.handle, reply[100 : 100 + count], tuple(moment))
        if size != count:
            raise Wrong(f"{self.name}: {size} bytes, of which a READ gives {count}")

    def after(self, file):
        return file

    def agrees(self, file):
        """Whether the file is as it was found."""
        return is_found(file, self.found)


class Attributes(Look):
    """A GETATTR."""

    size = None

    def words(self):
        return GETATTR, opaque(self.handle)

    def take(self, reply):
        self.size, *moment = struct.unpack_from(">20xQ40x2I", reply)
        self.time = tuple(moment)

    def agrees(self, file):
        return (self.handle, self.size) == (file.handle, len(file.content)) and file.time in (None, self.time)


class Lookup(Attributes):
    """A LOOKUP, which finds the handle too."""

    def __init__(self, name):
        super().__init__(name, None)

    def words(self):
        return LOOKUP, entry(self.name)

    def take(self, reply):
        self.handle = reply[4:16]
        super().take(reply[20:])


def is_found(file, found):
    return found is None if file is None else file.is_found_as(found)


class Server:
    """A run of `jtool serve`."""

    def __init__(self, program, disk, connections, environment=None):
        words = [program, "serve", disk, "0", str(connections)]
        pipes = {"stdout": subprocess.PIPE, "stderr": subprocess.PIPE}
        self.process = subprocess.Popen(words, **pipes, text=True, env=environment)
        self.is_killed = False
        self.is_late = False
        self.watch = threading.Timer(SECONDS, self.give_up)
        self.watch.start()
        self.port = None

    def listen(self):
        """Waits for the port. None says that the program ended before it told one."""
        line = self.process.stdout.readline()
        if line.startswith("listening "):
            self.port = int(line.split()[1])
        elif line:
            raise Wrong(f"serve prints {line!r}")
        return self.port

    def kill(self):
        self.is_killed = True
        self.process.kill()

    def __enter__(self):
        return self

    def __exit__(self, *_):
        self.process.kill()
        self.process.wait()
        self.watch.cancel()

    def give_up(self):
        self.is_late = True
        self.process.kill()

    def end(self):
        """Waits for the program's end. Answers what else it printed, its faults, and its status."""
        status = self.process.wait()
        self.watch.cancel()
        if self.is_late:
            raise Wrong(f"serve did not end within {SECONDS} seconds")
        with self.process.stdout as output, self.process.stderr as faults:
            return output.read(), faults.read(), status


def told(output, faults, status):
    return f"{output!r} on standard output, {faults!r} on standard error, status {status}"


def all_files(program, disk):
    """Each file of the disk, by a run that serves one connection."""
    found = {}
    with Server(program, disk, 1) as server:
        try:
            if server.listen() is not None:
                service = Service(server.port)
                for name, handle, size, moment in list(files(service)):
                    found[name] = File(handle, read(service, handle), moment)
                    if len(found[name].content) != size:
                        raise Wrong(f"{name}: size {size}, and {len(found[name].content)} bytes to read")
                service.socket.shutdown(socket.SHUT_RDWR)
        except (Refused, OSError) as fault:
            server.kill()
            raise Wrong(f"the files cannot be read: {fault}; {told(*server.end())}") from None
        ended = server.end()
    if ended != ("served 1\n", "", 0):
        raise Wrong(f"serve does not serve the disk again: {told(*ended)}")
    return found
