"""A port over a map in memory, for the tests of the clients.

    port_in_memory.py SOCKET [BLOCKS REGION..]

It is written from docs/PROTOCOL.md alone, and knows nothing of the journal. It answers as the page
says, keeps nothing, and refuses to stop. Its first line of output is the TCP port of this machine
at which it listens too. BLOCKS and the regions are as of `jnl serve`, 513:block and so on. With
JNL_VERSION=1 in its environment it speaks version 1 of the protocol alone.
"""

import os
import secrets
import socket
import struct
import sys
import threading

VERSION = int(os.environ.get("JNL_VERSION", "2"))
MAX_RECORD, MAX_PARTS, MAX_ADDRESSES, MAX_VALUE, MAX_BLOCKS_WRITTEN = 2097152, 4096, 256, 4096, 128
HELLO, COMMIT, READ, FLUSH, STAT, STOP, COUNTERS, SCAN = range(8)
LAST_OPERATION = SCAN if VERSION > 1 else STOP
SLOTS = 257
COMPARE, WRITE = range(2)
SIZES = {"bit": 1, "block": 4096, **{f"record{8 << i}": 8 << i for i in range(9)}}


class Malformed(Exception):
    """A record is spelled as no request."""


class Refused(Exception):
    """Nothing was done, for a reason that has this status."""


class Layout:
    """How many blocks there are, and what the objects of each have."""

    def __init__(self, blocks: int, *regions: str):
        self.blocks = blocks
        words = [region.split(":") for region in regions]
        self.regions = [(int(first), SIZES[kind]) for first, kind in words]

    def size_of(self, block: int) -> int:
        """How many bytes the objects of a block have, or 0 where it has none."""
        if block >= self.blocks:
            return 0
        return ([0] + [size for first, size in self.regions if first <= block])[-1]

    def check_address(self, block: int, bit: int) -> None:
        size = self.size_of(block)
        if size == 0 or bit >= 32768 or bit % (1 if size == 1 else 8 * size):
            raise Refused(2)


    def spelled(self) -> bytes:
        """The regions as a hello of version 2 tells them."""
        pairs = [(first, 1 if size == 1 else 8 * size) for first, size in self.regions]
        return word(len(pairs)) + b"".join(hyper(first) + word(bits) for first, bits in pairs)


OF_FILES = Layout(1100, "513:block", "514:bit", "515:record128", "531:block")


def word(n: int) -> bytes:
    return struct.pack(">I", n)


def hyper(n: int) -> bytes:
    return struct.pack(">Q", n)


class Reader:
    def __init__(self, record: bytes):
        self.rest = record

    def take(self, size: int) -> bytes:
        if size > len(self.rest):
            raise Malformed
        found, self.rest = self.rest[:size], self.rest[size:]
        return found

    def word(self, most: int = 0xFFFFFFFF) -> int:
        n = int.from_bytes(self.take(4), "big")
        if n > most:
            raise Malformed
        return n

    def address(self) -> tuple:
        return int.from_bytes(self.take(8), "big"), self.word()

    def value(self) -> bytes:
        found = self.take(self.word(MAX_VALUE))
        if any(self.take(-len(found) % 4)):
            raise Malformed
        return found

    def part(self) -> tuple:
        return self.word(WRITE), self.address(), self.value()

    def end(self) -> None:
        if self.rest:
            raise Malformed


class Port:
    def __init__(self, layout: Layout = OF_FILES) -> None:
        self.layout = layout
        self.lock = threading.Lock()
        self.objects: dict = {}
        self.commits = 0
        self.opening = secrets.randbits(64)

    def get(self, address: tuple) -> bytes:
        return self.objects.get(address, bytes(self.layout.size_of(address[0])))

    def commit(self, parts: list) -> bytes:
        for action, address, value in parts:
            self.layout.check_address(*address)
            size = self.layout.size_of(address[0])
            if action == WRITE and (len(value) != size or size == 1 and value[0] > 1):
                raise Refused(3)
        if any(self.get(a) != value for action, a, value in parts if action == COMPARE):
            raise Refused(64)
        written = {a: value for action, a, value in parts if action == WRITE}
        if len({block for block, _ in written}) > MAX_BLOCKS_WRITTEN:
            raise Refused(4)
        self.objects.update(written)
        self.commits += 1
        return hyper(self.commits) + hyper(self.commits)

    def values(self, addresses: list) -> bytes:
        for address in addresses:
            self.layout.check_address(*address)
        found = [self.get(address) for address in addresses]
        return word(len(found)) + b"".join(word(len(v)) + v + bytes(-len(v) % 4) for v in found)

    def greeting(self, version: int) -> bytes:
        if version not in range(1, VERSION + 1):
            raise Refused(69)
        told = word(version) + hyper(self.layout.blocks)
        if version == 1:
            return told
        most = word(SLOTS) + word(MAX_BLOCKS_WRITTEN)
        return told + hyper(self.opening) + most + self.layout.spelled()

    def counters(self) -> bytes:
        counted = [(1, self.commits), (2, self.commits)]
        return word(len(counted)) + b"".join(word(name) + hyper(n) for name, n in counted)

    def bits(self, block: int, first: int, value: int, most: int) -> bytes:
        if self.layout.size_of(block) != 1 or first > 32767:
            raise Refused(2)
        at = [bit for bit in range(first, 32768) if self.get((block, bit))[0] == value][:most]
        return word(len(at)) + b"".join(map(word, at))

    def done(self, operation: int, reader: Reader) -> bytes:
        """Does a request, and gives what stands behind the operation of its answer."""
        if operation == HELLO:
            version = reader.word()
            reader.end()
            return self.greeting(version)
        if operation == COMMIT:
            reader.word(1)
            parts = [reader.part() for _ in range(reader.word(MAX_PARTS))]
            reader.end()
            return self.commit(parts)
        if operation == READ:
            addresses = [reader.address() for _ in range(reader.word(MAX_ADDRESSES))]
            reader.end()
            return self.values(addresses)
        if operation == SCAN:
            (block, first), value, most = reader.address(), reader.word(1), reader.word()
            reader.end()
            return self.bits(block, first, value, most)
        reader.end()
        if operation == COUNTERS:
            return self.counters()
        if operation == STOP:
            raise Refused(70)
        return hyper(self.commits) * (2 if operation == STAT else 1)

    def answer(self, record: bytes) -> bytes:
        reader = Reader(record)
        try:
            operation = reader.word()
            if operation > LAST_OPERATION:
                raise Refused(66)
            with self.lock:
                return word(0) + word(operation) + self.done(operation, reader)
        except Malformed:
            return word(67)
        except Refused as why:
            return word(why.args[0])

    def serve(self, connection: socket.socket) -> None:
        try:
            self.serve_to_end(connection)
        except OSError:
            pass  # the client has gone

    def serve_to_end(self, connection: socket.socket) -> None:
        came = b""
        with connection:
            while piece := connection.recv(65536):
                came += piece
                while len(came) >= 4:
                    size = int.from_bytes(came[:4], "big")
                    if size > MAX_RECORD:
                        connection.sendall(word(4) + word(68))
                        return
                    if len(came) < 4 + size:
                        break
                    answer = self.answer(came[4 : 4 + size])
                    came = came[4 + size :]
                    connection.sendall(word(len(answer)) + answer)


def accept_all(port: Port, listener: socket.socket) -> None:
    while True:
        connection, _ = listener.accept()
        threading.Thread(target=port.serve, args=(connection,), daemon=True).start()


def listen(port: Port, path: str) -> None:
    with socket.socket(socket.AF_UNIX) as listener, socket.socket(socket.AF_INET) as tcp:
        listener.bind(path)
        listener.listen(64)
        tcp.bind(("127.0.0.1", 0))
        tcp.listen(64)
        threading.Thread(target=accept_all, args=(port, tcp), daemon=True).start()
        print(tcp.getsockname()[1], flush=True)
        accept_all(port, listener)


if __name__ == "__main__":
    path, *words = sys.argv[1:]
    listen(Port(Layout(int(words[0]), *words[1:])) if words else Port(), path)
