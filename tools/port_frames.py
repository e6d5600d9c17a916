"""Frames for a port that mean no good, and what their answers must be.

The module of the step `fuzz` of check-clients.
"""

import errno
import socket
import struct
from typing import NamedTuple

HELLO, COMMIT, READ, FLUSH, STAT, STOP, COUNTERS, SCAN = range(8)
LONGEST = 2097152
MOST_BLOCKS = 128
# What docs/PROTOCOL.md says that a port answers. A disk that has not failed, in a session that has
# not ended, in a service that was not stopped, answers no other.
KNOWN = frozenset({0, 2, 3, 4, 64, 66, 67, 68, 69, 70})
TOO_LONG = 68
# How many bytes are behind an operation that was done, where that is always the same.
BYTES_DONE = {COMMIT: 16, FLUSH: 8, STAT: 16}
# The bytes of the answer to a hello in version 1, and in version 2 without its regions.
HELLO_BYTES, OPENING_BYTES = 12, 28
# How many items a list has at most, and the bytes of one.
LISTS = {COUNTERS: (256, 12), SCAN: (32768, 4)}
REGIONS = (8, 12)
# What a socket says whose peer has ended the connection.
ENDED = (errno.EPIPE, errno.ECONNRESET, errno.ENOTCONN)
MOST_IN_BATCH = 40
# The kinds of frames, and how often each is made.
OFTEN = {"good": 40, "mutated": 40, "random": 12, "wrong length": 8}
INTERESTING = (0, 1, 2, 5, 6, 7, 255, 4096, 4097, 32767, 32768, 1 << 31, (1 << 32) - 1)


class Unexpected(Exception):
    """The port answers what it must not."""


class Frame(NamedTuple):
    """Bytes, and whether they are a whole record, so that an answer is due."""

    sent: bytes
    is_whole: bool


def framed(body):
    return struct.pack(">I", len(body)) + body


class Maker:
    """Makes frames of a disk with so many blocks by random numbers."""

    def __init__(self, random, blocks):
        self.random = random
        self.blocks = blocks

    def frame(self):
        """A frame that is good, mutated, random, or of a wrong length."""
        (kind,) = self.random.choices(tuple(OFTEN), tuple(OFTEN.values()))
        body = self.good()
        if kind == "mutated":
            body = self.mutated(body)
        elif kind == "random":
            body = self.random.randbytes(self.random.choice((0, 1, 4, 8, 50, 2000)))
        elif kind == "wrong length":
            return Frame(struct.pack(">I", self.wrong_length(len(body))) + body, False)
        return Frame(framed(body), True)

    def wrong_length(self, right):
        """Not much more than there is, or far too much."""
        near = max(0, right + self.random.choice((-8, -4, -1, 1, 4, 40)))
        return self.random.choice((near, near, LONGEST, LONGEST + 1, (1 << 32) - 1))

    def good(self):
        """A request. One that ends the service is refused over TCP."""
        if self.is_rare(200):
            return struct.pack(">I", STOP)
        others = (self.hello, self.read, self.flush, self.stat, self.counters, self.scan)
        return self.random.choice((self.commit, self.commit, self.commit, *others))()

    def hello(self):
        return struct.pack(">II", HELLO, self.random.choice((1, 2)))

    def counters(self):
        return struct.pack(">I", COUNTERS)

    def scan(self):
        first, most = self.random.randrange(32768), self.random.choice((0, 1, 3, 100, 32768, (1 << 32) - 1))
        return struct.pack(">IQIII", SCAN, 514, first, self.random.randrange(2), most)

    def flush(self):
        return struct.pack(">I", FLUSH)

    def stat(self):
        return struct.pack(">I", STAT)

    def is_rare(self, often):
        """True once in so many times."""
        return self.random.randrange(often) == 0

    def address(self):
        """An object of the disk, and how many bytes its value has; or, rarely, no object."""
        if self.is_rare(60):
            return struct.pack(">QI", self.random.choice((0, 512, 515, self.blocks)), 1), 128
        kind = self.random.randrange(3)
        if kind == 0:
            return struct.pack(">QI", 514, self.random.randrange(32768)), 1
        if kind == 1:
            bit = 1024 * self.random.randrange(32)
            return struct.pack(">QI", self.random.randrange(515, 531), bit), 128
        return struct.pack(">QI", self.random.randrange(531, self.blocks), 0), 4096

    def read(self):
        count = self.random.choice((0, 1, 2, 17, 256))
        return struct.pack(">II", READ, count) + b"".join(self.address()[0] for _ in range(count))

    def part(self):
        address, size = self.address()
        size = self.random.choice((0, 1, 127, 128, 4095)) if self.is_rare(60) else size
        value = self.random.randbytes(size) if size > 1 else bytes([self.random.randrange(2)])
        value = b"\2" if value and self.is_rare(100) and size == 1 else value
        action = self.random.choices((0, 1), (1, 4))[0]
        value += bytes(-size % 4)
        return struct.pack(">I", action) + address + struct.pack(">I", size) + value

    def commit(self):
        if self.is_rare(300):
            return self.commit_of_many_blocks()
        count = self.random.choice((0, 1, 2, 3, 9))
        waits = self.random.random() < 0.05
        parts = b"".join(self.part() for _ in range(count))
        return struct.pack(">III", COMMIT, waits, count) + parts

    def commit_of_many_blocks(self):
        """A commit that writes to one block more than it may."""
        head = struct.pack(">III", COMMIT, 0, MOST_BLOCKS + 1)
        parts = [struct.pack(">IQII", 1, 531 + i, 0, 4096) for i in range(MOST_BLOCKS + 1)]
        return head + b"".join(part + bytes(4096) for part in parts)

    def mutated(self, body):
        """One to three words or bytes are others, or a piece is left out, doubled or cut off."""
        changed = bytearray(body)
        for _ in range(self.random.randrange(1, 4)):
            at = self.random.randrange(len(changed) + 1)
            act = self.random.randrange(5)
            if act == 0:
                word = at // 4 * 4
                changed[word : word + 4] = struct.pack(">I", self.random.choice(INTERESTING))
            elif act == 1:
                changed[at : at + 1] = self.random.randbytes(1)
            elif act == 2:
                del changed[at : at + self.random.choice((1, 4, 12))]
            elif act == 3:
                changed[at:at] = changed[at : at + self.random.choice((4, 20))]
            else:
                del changed[at:]
        return bytes(changed)

    def batch(self):
        """Frames up to the first one of a wrong length, behind which no record is where it seems,
        and how many of their bytes are sent."""
        frames = []
        for _ in range(self.random.randrange(1, MOST_IN_BATCH)):
            frames.append(self.frame())
            if not frames[-1].is_whole:
                break
        size = sum(len(frame.sent) for frame in frames)
        is_cut = self.random.random() < 0.1
        return frames, self.random.randrange(size) if is_cut else size


def check_answer(answer):
    """Wants an answer that the protocol has. Answers its status."""
    if len(answer) < 4:
        raise Unexpected(f"an answer of {len(answer)} bytes")
    status = int.from_bytes(answer[:4], "big")
    if status not in KNOWN:
        raise Unexpected(f"status {status}")
    operation = int.from_bytes(answer[4:8], "big") if status == 0 else None
    if operation is None and len(answer) != 4:
        raise Unexpected(f"{len(answer)} bytes behind status {status}")
    if operation is not None and (operation == STOP or operation > SCAN):
        raise Unexpected(f"operation {operation} was done")
    if operation is not None and not has_its_length(operation, answer[8:]):
        raise Unexpected(f"{len(answer)} bytes answer operation {operation}")
    return status


def has_its_length(operation, done):
    """Whether what stands behind an operation is as long as the protocol says. Of a read it is not known."""
    if operation in BYTES_DONE:
        return len(done) == BYTES_DONE[operation]
    if operation in LISTS:
        return is_list(done, *LISTS[operation])
    if operation == HELLO and done[:4] == b"\0\0\0\1":
        return len(done) == HELLO_BYTES
    return operation != HELLO or is_list(done[OPENING_BYTES:], *REGIONS)


def is_list(done, most, size):
    """Whether bytes are as many items of a size as they say, and no more than there may be."""
    count = int.from_bytes(done[:4], "big")
    return count <= most and len(done) == 4 + size * count


def answers_of(stream):
    """The answers in all that a port has sent."""
    at = 0
    while at < len(stream):
        size = int.from_bytes(stream[at : at + 4], "big")
        if len(stream) < at + 4 or len(stream) < at + 4 + size:
            raise Unexpected("the last answer is cut")
        yield stream[at + 4 : at + 4 + size]
        at += 4 + size


def check_answers(stream, whole, is_all_sent):
    """Wants one answer to each record that is whole. Behind a frame of a wrong length there may be
    more. Answers their statuses."""
    statuses = [check_answer(answer) for answer in answers_of(stream)]
    if TOO_LONG in statuses[:-1]:
        raise Unexpected("the port reads on behind a record that is too long")
    if len(statuses) < whole and TOO_LONG not in statuses:
        raise Unexpected(f"{len(statuses)} answers to {whole} records")
    if is_all_sent and len(statuses) > whole:
        raise Unexpected(f"{len(statuses)} answers to {whole} records")
    return statuses


def exchange(peer, sent):
    """All that the port sends to some bytes and their end, and whether it took all of them. Where
    it did not, the system may drop what it sent last."""
    found = bytearray()
    try:
        peer.sendall(sent)
        peer.shutdown(socket.SHUT_WR)
        while piece := peer.recv(65536):
            found += piece
    except OSError as fault:
        if fault.errno not in ENDED:
            raise
        return bytes(found), False
    return bytes(found), True


def try_batch(peer, maker):
    """Sends a batch of frames over a new connection. Answers how many these were, and the statuses
    of their answers."""
    frames, size = maker.batch()
    sent = b"".join(frame.sent for frame in frames)[:size]
    whole, at = 0, 0
    for frame in frames:
        at += len(frame.sent)
        whole += frame.is_whole and at <= size
    is_all_whole = all(frame.is_whole for frame in frames)
    stream, is_taken = exchange(peer, sent)
    if is_taken:
        return len(frames), check_answers(stream, whole, is_all_whole)
    if is_all_whole:
        raise Unexpected("the port ended the connection")
    return len(frames), []
