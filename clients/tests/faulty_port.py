"""A port in memory with faults, for the tests of the clients: faulty_port.py SOCKET.

It is port_in_memory.py, but a commit that writes one of these bits of block 514 meets a fault. What
the client's call must find stands behind it. The call after it must do well; for bits 0 and 13 that
is after a pause, as a client cannot see that a connection ends before it does.

    0   the commit is answered, and then the connection ended    done
    1   committed, not answered, and the connection ended        lost, one commit more
    2   not committed, not answered, and the connection ended    lost, no commit more
    3   half an answer, and the connection ended                 lost, one commit more
    4   an answer of 4294967295 bytes                            protocol
    5   an answer to another operation                           protocol
    6   status 200, which nothing has                            protocol
    7   the session has ended: all that follows is status 14     refused by 14
    8   status 65, with a place and commits                      unsure
    9   bytes behind the answer                                  protocol
    10  status 64 at each first three of four                    conflict; done after three more
    11  an answer in pieces of one byte                          done
    12  the answer, and one more that nobody asked for           done
    13  the next connection is answered another version          done; then refused; then done
    14  the commit is not answered, the connection stays         lost, by the client's timeout
    15  committed, and answered by a byte each fifth of a second lost, by the client's timeout

The first read of one of these bits after a commit that writes it:

    20  is answered with a byte behind its value that is no zero  protocol
    21  is answered with a value more than was asked              protocol
    22  is answered with a value of 5000 bytes                    protocol

A commit that writes nothing and compares one of these bits:

    30  status 64 at each first two of three                      conflict; done after two more
    31  is not answered, and the connection ended                 lost
    33  the session has ended: all that follows is status 14      refused by 14

A read of this bit, after a pause:

    32  is answered, and this connection and the next one ended   done; then there is no port
    34  is answered, the connection ended, and the opening is     done; then restarted, if a commit
        another from then on                                      before it did not wait; then done

SOCKET.silent takes connections and answers nothing. SOCKET.full has no room for a connection.
"""

import secrets
import socket
import struct
import sys
import time

from port_in_memory import COMMIT, HELLO, MAX_PARTS, READ, WRITE, Port, Reader, listen, word

BLOCK_OF_BITS = 514


def framed(answer: bytes) -> bytes:
    return word(len(answer)) + answer


class Ended(Exception):
    """The connection has to end."""


class Connection:
    """One connection, and the faults that it meets."""

    def __init__(self, port: "FaultyPort", peer: socket.socket):
        self.port = port
        self.peer = peer
        self.is_fenced = False

    def send(self, answer: bytes) -> None:
        self.peer.sendall(framed(answer))

    def end(self, *pieces: bytes) -> None:
        for piece in pieces:
            self.peer.sendall(piece)
        raise Ended

    def answer(self, record: bytes) -> None:
        operation = int.from_bytes(record[:4], "big")
        if self.is_fenced:
            return self.send(word(14))
        if operation == HELLO and self.port.speaks_other:
            self.port.speaks_other = False
            return self.send(word(0) + word(HELLO) + word(3) + struct.pack(">Q", 700))
        if operation == COMMIT:
            return self.commit(record)
        if operation == READ:
            return self.read(record)
        self.send(self.port.answer(record))

    def end_session(self) -> None:
        self.is_fenced = True
        self.send(word(14))

    def refuses_compares(self, bits: set) -> bool:
        """Whether a commit that compares these bits, and writes nothing, has met its fault."""
        if 31 in bits:
            self.end()
        if 33 in bits:
            self.end_session()
        if 30 in bits:
            self.port.compares += 1
            if self.port.compares % 3 != 0:
                self.send(word(64))
                return True
        return self.is_fenced

    def commit(self, record: bytes) -> None:
        if self.refuses_compares(bits_compared_alone(record)):
            return None
        fault = fault_of(record)
        if fault == 2:
            self.end()
        if fault == 7:
            return self.end_session()
        if fault == 10:
            self.port.conflicts += 1
            if self.port.conflicts % 4 != 0:
                return self.send(word(64))
        done = self.port.answer(record)
        if done[:4] != word(0):
            return self.send(done)
        if fault == 0:
            self.end(framed(done))
        if fault == 1:
            self.end()
        if fault == 3:
            self.end(framed(done)[:13])
        if fault in (11, 15):
            for byte in framed(done):
                self.peer.sendall(bytes([byte]))
                time.sleep(0.2 if fault == 15 else 0)
            return None
        if fault == 13:
            self.port.speaks_other = True
            self.end(framed(done))
        if fault == 14:
            return None
        if fault in (20, 21, 22):
            self.port.to_read.add(fault)
        self.peer.sendall(self.spelled(fault, done))
        return None

    def spelled(self, fault: int, done: bytes) -> bytes:
        other = {
            4: word(0xFFFFFFFF) + done,
            5: framed(word(0) + word(READ) + done[8:]),
            6: framed(word(200)),
            8: framed(word(65) + done[8:]),
            9: framed(done + bytes(4)),
            12: framed(done) * 2,
        }
        return other.get(fault, framed(done))

    def read(self, record: bytes) -> None:
        asked, bit = (int.from_bytes(record[i : i + 4], "big") for i in (4, 16))
        answer = self.port.answer(record)
        if record[8:16] == struct.pack(">Q", BLOCK_OF_BITS) and bit == 32:
            self.port.ends_next = True
            self.end(framed(answer))
        if record[8:16] == struct.pack(">Q", BLOCK_OF_BITS) and bit == 34:
            self.port.opening = secrets.randbits(64)
            self.end(framed(answer))
        if record[8:16] == struct.pack(">Q", BLOCK_OF_BITS) and bit in self.port.to_read:
            self.port.to_read.remove(bit)
            value = word(1) + b"\1\0\0\0"
            answer = answer[:8] + {
                20: word(1) + word(1) + b"\1\0\0\1",
                21: word(asked + 1) + value * (asked + 1),
                22: word(1) + word(5000) + bytes(5000),
            }[bit]
        self.send(answer)


def fault_of(record: bytes) -> int:
    """The bit of block 514 that the last part of a commit writes, or -1."""
    last = record[-24:]
    has_bit = last[4:12] == struct.pack(">Q", BLOCK_OF_BITS) and last[:4] == word(1)
    return int.from_bytes(last[12:16], "big") if has_bit else -1


def bits_compared_alone(record: bytes) -> set:
    """The bits of block 514 that a commit compares, where it writes nothing; else none."""
    reader = Reader(record[8:])
    parts = [reader.part() for _ in range(reader.word(MAX_PARTS))]
    if any(action == WRITE for action, _, _ in parts):
        return set()
    return {bit for _, (block, bit), _ in parts if block == BLOCK_OF_BITS}


class FaultyPort(Port):
    def __init__(self) -> None:
        super().__init__()
        self.conflicts = 0
        self.compares = 0
        self.ends_next = False
        self.speaks_other = False
        self.to_read: set = set()

    def serve_to_end(self, connection: socket.socket) -> None:
        met = Connection(self, connection)
        came = b""
        with connection:
            if self.ends_next:
                self.ends_next = False
                return
            while piece := connection.recv(65536):
                came += piece
                while len(came) >= 4 and len(came) >= 4 + int.from_bytes(came[:4], "big"):
                    size = int.from_bytes(came[:4], "big")
                    record, came = came[4 : 4 + size], came[4 + size :]
                    try:
                        met.answer(record)
                    except Ended:
                        return


def listener_without_a_port(path: str, room: int) -> socket.socket:
    listener = socket.socket(socket.AF_UNIX)
    listener.bind(path)
    listener.listen(room)
    return listener


def fill(path: str) -> list:
    """Connections that take all the room of a socket."""
    made = []
    while True:
        made.append(socket.socket(socket.AF_UNIX))
        made[-1].setblocking(False)
        try:
            made[-1].connect(path)
        except BlockingIOError:
            return made


if __name__ == "__main__":
    path = sys.argv[1]
    silent = listener_without_a_port(f"{path}.silent", 64)
    full = listener_without_a_port(f"{path}.full", 0)
    filling = fill(f"{path}.full")
    listen(FaultyPort(), path)
