"""Writes, reads and lists the files that `jtool serve` serves on this machine, over NFS version 3 (RFC 1813).

    python3 examples/nfs_client.py PORT put NAME TEXT    makes the file where it is not there, and writes the text
    python3 examples/nfs_client.py PORT get NAME         prints what the file has
    python3 examples/nfs_client.py PORT ls               prints the name and the size of each file
    python3 examples/nfs_client.py PORT rm NAME          removes the file

A name is f002 to f511, and a file has at most 49152 bytes, or 4096 on a disk of version 1. Each run is one connection.
"""
import socket
import struct
import sys

LOOKUP, READ, WRITE, CREATE, REMOVE = 3, 6, 7, 8, 12
FILE_SYNC = 2
AT_ONCE = 8192  # so many bytes are read or written by a call
STATUSES = {0: "OK", 2: "NOENT", 5: "IO", 17: "EXIST", 20: "NOTDIR", 22: "INVAL", 27: "FBIG", 28: "NOSPC", 70: "STALE",
            10001: "BADHANDLE", 10002: "NOT_SYNC", 10004: "NOTSUPP", 10006: "SERVERFAULT", 10008: "JUKEBOX"}
ROOT = b"JNL1" + struct.pack(">2I", 1, 1)  # the handle of the only folder


class Refused(Exception):
    """The service answered by another status than OK."""


class Service:
    """A connection. Its replies come in the order of its calls, and many calls may be sent before one is read."""

    def __init__(self, port):
        self.socket = socket.create_connection(("127.0.0.1", port))
        self.stream = self.socket.makefile("rb")
        self.sent = self.received = 0

    def send(self, *calls):
        """Sends calls, each a procedure and its arguments, all at once."""
        text = b""
        for procedure, arguments in calls:
            self.sent += 1
            call = struct.pack(">10I", self.sent, 0, 2, 100003, 3, procedure, 0, 0, 0, 0) + arguments
            text += struct.pack(">I", 1 << 31 | len(call)) + call
        self.socket.sendall(text)

    def receive(self):
        """The next reply's status, and what is behind it. At OK all optional parts are there: each item has its place."""
        length = int.from_bytes(self.stream.read(4), "big") & 0x7FFFFFFF
        reply = self.stream.read(length)
        if length == 0 or len(reply) < length:
            raise OSError("the service ended the connection")
        self.received += 1
        if reply[:24] != struct.pack(">6I", self.received, 1, 0, 0, 0, 0):
            raise OSError("the service does not take such a call")
        return STATUSES[int.from_bytes(reply[24:28], "big")], reply[28:]

    def call(self, procedure, arguments):
        status = "JUKEBOX"
        while status == "JUKEBOX":  # Others were in the way, and nothing was done.
            self.send((procedure, arguments))
            status, results = self.receive()
        if status != "OK":
            raise Refused(status)
        return results


def opaque(data):
    return struct.pack(">I", len(data)) + data + bytes(-len(data) % 4)


def entry(name):
    """A name in the folder, as LOOKUP, CREATE and REMOVE take it."""
    return opaque(ROOT) + opaque(name.encode(errors="surrogateescape"))


def put(service, name, text):
    data = text.encode(errors="surrogateescape")
    # UNCHECKED, and of all that can be set the size alone.
    made = service.call(CREATE, entry(name) + struct.pack(">5IQ2I", 0, 0, 0, 0, 1, len(data), 0, 0))
    handle = made[8:20]
    for offset in range(0, len(data), AT_ONCE):
        piece = data[offset : offset + AT_ONCE]
        service.call(WRITE, opaque(handle) + struct.pack(">Q2I", offset, len(piece), FILE_SYNC) + opaque(piece))


def read(service, handle):
    """All bytes of a file. Each READ says whether it reaches the end."""
    data, is_end = b"", False
    while not is_end:
        reply = service.call(READ, opaque(handle) + struct.pack(">QI", len(data), AT_ONCE))
        count, is_end = struct.unpack_from(">2I", reply, 88)
        data += reply[100 : 100 + count]
    return data


def get(service, name):
    handle = service.call(LOOKUP, entry(name))[4:16]
    print(read(service, handle).decode(errors="replace"))


def files(service):
    """Each file's name, handle, size and time. No call lists the names, so each that there can be is looked up."""
    names = [f"f{number:03}" for number in range(2, 512)]
    while names:
        service.send(*((LOOKUP, entry(name)) for name in names))
        answers = [(name, *service.receive()) for name in names]
        for name, status, results in answers:
            if status == "OK":
                handle, size, *time = struct.unpack_from(">4x12s24xQ40x2I", results)
                yield name, handle, size, tuple(time)
            elif status not in ("NOENT", "JUKEBOX"):
                raise Refused(status)
        names = [name for name, status, _ in answers if status == "JUKEBOX"]


def ls(service):
    for name, _, size, _ in sorted(files(service)):
        print(name, size)


def rm(service, name):
    service.call(REMOVE, entry(name))


def main(port="", verb="", *words):
    run = {("put", 2): put, ("get", 1): get, ("ls", 0): ls, ("rm", 1): rm}.get((verb, len(words)))
    if not run:
        sys.exit(__doc__)
    try:
        run(Service(port), *words)
    except (Refused, OSError) as fault:
        sys.exit(f"nfs_client: {fault}")


if __name__ == "__main__":
    main(*sys.argv[1:])
