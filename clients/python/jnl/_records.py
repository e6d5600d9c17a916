"""Requests as they are spelled, answers as they are read, and what they say. No socket is here."""

import errno
import os
import socket
import struct
from typing import (
    Callable,
    Dict,
    Generic,
    List,
    NamedTuple,
    Optional,
    Sequence,
    Tuple,
    TypeVar,
)

FIRST_VERSION = 1
VERSION = 2
MAX_RECORD = 2097152
MAX_VALUE = 4096
MAX_PARTS = 4096
MAX_ADDRESSES = 256
MAX_REGIONS = 8
MAX_COUNTERS = 256
BLOCK_BITS = 32768
BLOCK_BYTES = 4096
# The bytes of a path that names a socket.
MAX_PATH = 107
LENGTH_BYTES = 4

HELLO, COMMIT, READ, FLUSH, STAT, STOP, COUNTERS, SCAN = range(8)
COMPARE, WRITE = range(2)
BAD_ADDRESS = 2
BAD_SIZE = 3
TOO_LARGE = 4
CONFLICT = 64
UNSURE = 65
OTHER_VERSION = 69
READ_ONLY = 71
# The session has ended: the next call begins another.
ENDED = (9, 10, 11, 14)

REASONS = {
    1: "memory was refused",
    BAD_ADDRESS: "an address names no object",
    BAD_SIZE: "a value's length is not its object's, or a bit's byte exceeds 1",
    TOO_LARGE: "too many blocks, parts or objects",
    6: "the disk failed",
    9: "the session has ended",
    10: "the session has ended",
    11: "the session has ended",
    13: "the journal was stopped",
    14: "the session has ended",
    CONFLICT: "a compared value is another",
    66: "no operation has the request's number",
    67: "the record is spelled as no request",
    68: "the record is too long",
    OTHER_VERSION: "the port's version of the protocol is another, and lacks the call",
    70: "this connection may not end the service",
    READ_ONLY: "the service only reads the disk",
}

Address = Tuple[int, int]
Part = Tuple[int, Address, bytes]
T = TypeVar("T")


class Refused(Exception):
    """Nothing was done. `status` says why. `address` is the object that 2 or 3 is said of, where the
    client has refused it, and None where the port has, which does not say which.

    What no record can hold is refused before anything is sent: by 3 a value of more than 4096
    bytes, and by 4 a read of more than 256 objects, and a commit of more than 4096 parts or 2 MiB.
    """

    def __init__(self, status: int, address: Optional[Address] = None):
        which = "" if address is None else f": block {address[0]}, bit {address[1]}"
        super().__init__(f"{status}: {REASONS.get(status, 'unknown')}{which}")
        self.status = status
        self.address = address


class Conflict(Refused):
    """Nothing was done, since a value that was read is another now."""

    def __init__(self) -> None:
        super().__init__(CONFLICT)


class Unsure(Exception):
    """The transaction stands, and is not known to be stable: a crash may take it back, whole."""

    def __init__(self, receipt: "Receipt"):
        super().__init__("the transaction is not known to be stable")
        self.receipt = receipt


class Lost(Exception):
    """No answer came. A commit was done whole, or not at all: read to find out.

    `__cause__` is the system's error. Nothing sends it again but the caller. The next call makes a
    new connection.
    """


class ProtocolError(Lost):
    """The port answers what the protocol does not have. The connection was closed."""


class Restarted(Exception):
    """The service was started again, and commits of this connection may be gone: those that did not
    wait, and that no flush, stat or waiting commit had told to be stable. Nothing was sent. It is
    raised once, by the first call after that which would send something. The next one goes on.
    """


class NoneFree(Exception):
    """No record of a pool is free. Nothing was done."""


class NoPort(OSError):
    """No port answers. Nothing was done. `errno` says why, as ENOENT or ETIMEDOUT do."""


class Full(Exception):
    """As many commits are in flight as may be, which is 16384. Nothing was done."""


def no_port(error: BaseException) -> NoPort:
    """What NoPort says of an error of the system, or of a greeting that was lost by one."""
    reason = error if isinstance(error, OSError) else error.__cause__
    number = getattr(reason, "errno", None)
    if isinstance(reason, (socket.timeout, BlockingIOError)):
        number = errno.ETIMEDOUT
    return NoPort(number, os.strerror(number) if number else str(error))


def lost(error: BaseException) -> Lost:
    """A loss that an error of the system has caused."""
    found = Lost(str(error))
    found.__cause__ = error
    return found


def ended_by_port() -> ConnectionResetError:
    """What a connection has met that the port has closed."""
    return ConnectionResetError(errno.ECONNRESET, "the port closed the connection")


class Receipt(NamedTuple):
    """Where a commit stands: its place in the history, and the commits up to it."""

    place: int
    commits: int


class Stat(NamedTuple):
    """How many commits there are, and how many of them are stable at least."""

    commits: int
    stable: int


class Region(NamedTuple):
    """The blocks from one on, to the one before the next region. Their objects have so many bits: 1
    is a bit, 64 to 16384 a record, 32768 the whole block."""

    first: int
    bits: int


class Disk(NamedTuple):
    """A disk that is served. `opening` is another number each time that its service is started, and
    `most_blocks` is how many distinct blocks a transaction may write. A port whose version of the
    protocol is 1 tells the blocks alone: all else is 0, and there are no regions."""

    version: int
    blocks: int
    opening: int = 0
    slots: int = 0
    most_blocks: int = 0
    regions: Tuple[Region, ...] = ()

    def check(self, address: Address, value: Optional[bytes] = None) -> None:
        """Raises Refused where an address names no object, or a value is none of its object's."""
        block, bit = address
        bits = self._bits_of(block)
        if bits == 0 or not 0 <= bit < BLOCK_BITS or bit % bits:
            raise Refused(BAD_ADDRESS, address)
        if value is not None and len(value) != (bits + 7) // 8:
            raise Refused(BAD_SIZE, address)
        if value is not None and bits == 1 and value[0] > 1:
            raise Refused(BAD_SIZE, address)

    def check_all(self, objects: Sequence[Tuple[Address, Optional[bytes]]]) -> None:
        """The same of many. A port that has told no regions is to refuse them itself."""
        if self.regions:
            for address, value in objects:
                self.check(address, value)

    def _bits_of(self, block: int) -> int:
        """How many bits the objects of a block have, or 0 where it has none."""
        if not 0 <= block < self.blocks:
            return 0
        return ([0] + [bits for first, bits in self.regions if first <= block])[-1]


class Promises:
    """What a client was told of commits of one opening after another."""

    def __init__(self) -> None:
        self.disk: Optional[Disk] = None
        # The commits up to the last one that was told, and did not wait or is not known to be
        # stable; and how many are known to be stable.
        self._told = 0
        self._stable = 0

    def note_commit(self, receipt: Receipt, is_stable: bool) -> None:
        if is_stable:
            self.note_stable(receipt.commits)
        else:
            self._told = max(self._told, receipt.commits)

    def note_stable(self, stable: int) -> None:
        self._stable = max(self._stable, stable)

    def note_stop(self) -> None:
        """Notes that a service has ended after a flush."""
        self.note_stable(self._told)

    def meet(self, disk: Disk) -> bool:
        """Notes the disk that a greeting has told. True, once, if it is another opening, and commits
        of the one before may be gone. Each start of a service of version 1 is taken for the same
        one, since it does not tell which it is."""
        before, self.disk = self.disk, disk
        if before is None or (before.version, before.opening) == (disk.version, disk.opening):
            return False
        may_be_gone = self._told > self._stable
        self._told = self._stable = 0
        return may_be_gone


class Reader:
    """Reads the items of a record, one behind another."""

    def __init__(self, record: bytes):
        self._record = record
        self._at = 0

    def take(self, size: int) -> bytes:
        end = self._at + size
        if end > len(self._record):
            raise ProtocolError("an answer is cut short")
        found = self._record[self._at : end]
        self._at = end
        return found

    def word(self) -> int:
        return int.from_bytes(self.take(4), "big")

    def hyper(self) -> int:
        return int.from_bytes(self.take(8), "big")

    def receipt(self) -> Receipt:
        return Receipt(self.hyper(), self.hyper())

    def value(self) -> bytes:
        size = self.word()
        if size > MAX_VALUE:
            raise ProtocolError("a value is too long")
        found = self.take(size)
        if any(self.take(-size % 4)):
            raise ProtocolError("bytes stand behind a value")
        return found

    def end(self) -> None:
        if self._at != len(self._record):
            raise ProtocolError("bytes stand behind an answer")


class Request(Generic[T]):
    """A record, with its length at the front, and how its answer is read."""

    def __init__(self, operation: int, body: bytes, decode: Callable[[Reader], T]):
        if len(body) + 4 > MAX_RECORD:
            raise Refused(TOO_LARGE)
        self.record = struct.pack(">II", len(body) + 4, operation) + body
        self._operation = operation
        self._decode = decode

    def result(self, answer: bytes) -> T:
        """What an answer gives. Raises what it refuses, and ProtocolError where it is none."""
        reader = Reader(answer)
        status = reader.word()
        if status == UNSURE and self._operation == COMMIT:
            receipt = reader.receipt()
            reader.end()
            raise Unsure(receipt)
        if status != 0:
            reader.end()
            raise refusal(status)
        if reader.word() != self._operation:
            raise ProtocolError("an answer to another request")
        found = self._decode(reader)
        reader.end()
        return found


def refusal(status: int) -> Exception:
    """What a status says that is neither 0 nor 65."""
    if status not in REASONS:
        return ProtocolError(f"no answer has the status {status}")
    return Conflict() if status == CONFLICT else Refused(status)


def ends_connection(error: BaseException) -> bool:
    """Whether a connection over which a call has ended so is of no more use."""
    if isinstance(error, Refused):
        return error.status in ENDED
    return not isinstance(error, Unsure)


def whole_answer(came: bytearray) -> Optional[bytes]:
    """Takes an answer from what came, once it is there whole, without its length."""
    if len(came) < LENGTH_BYTES:
        return None
    end = LENGTH_BYTES + int.from_bytes(came[:LENGTH_BYTES], "big")
    if end > LENGTH_BYTES + MAX_RECORD:
        raise ProtocolError("an answer is too long")
    if len(came) < end:
        return None
    answer = bytes(came[LENGTH_BYTES:end])
    del came[:end]
    return answer


def check_number(items: Sequence, most: int) -> None:
    if len(items) > most:
        raise Refused(TOO_LARGE)


def _address(address: Address) -> bytes:
    try:
        return struct.pack(">QI", *address)
    except struct.error:
        raise Refused(BAD_ADDRESS, address) from None


def _object(address: Address, value: bytes) -> bytes:
    spelled = _address(address)
    if len(value) > MAX_VALUE:
        raise Refused(BAD_SIZE, address)
    return spelled + struct.pack(">I", len(value)) + value + bytes(-len(value) % 4)


def _region(answer: Reader) -> Region:
    region = Region(answer.hyper(), answer.word())
    if region.bits != 1 and region.bits not in (64 << i for i in range(10)):
        raise ProtocolError("a region has no such objects")
    return region


def _list(answer: Reader, most: int, item: Callable[[Reader], T]) -> List[T]:
    count = answer.word()
    if count > most:
        raise ProtocolError("a list is too long")
    return [item(answer) for _ in range(count)]


def hello(version: int) -> Request[Disk]:
    """A greeting in a version. Its answer gives the disk."""

    def disk(answer: Reader) -> Disk:
        spoken, blocks = answer.word(), answer.hyper()
        if spoken != version:
            raise ProtocolError(f"the port speaks version {spoken}")
        if version == FIRST_VERSION:
            return Disk(version, blocks)
        opening, slots, most_blocks = answer.hyper(), answer.word(), answer.word()
        regions = _list(answer, MAX_REGIONS, _region)
        return Disk(version, blocks, opening, slots, most_blocks, tuple(regions))

    return Request(HELLO, struct.pack(">I", version), disk)


def read_of(addresses: Sequence[Address]) -> Request[List[bytes]]:
    """A read of objects. Its answer gives their values."""

    def values(answer: Reader) -> List[bytes]:
        if answer.word() != len(addresses):
            raise ProtocolError("there are not as many values as addresses")
        return [answer.value() for _ in addresses]

    check_number(addresses, MAX_ADDRESSES)
    body = struct.pack(">I", len(addresses)) + b"".join(map(_address, addresses))
    return Request(READ, body, values)


def commit_of(parts: Sequence[Part], wait: bool) -> Request[Receipt]:
    """A commit of parts, each of which compares or writes."""
    check_number(parts, MAX_PARTS)
    body = struct.pack(">II", wait, len(parts))
    body += b"".join(struct.pack(">I", act) + _object(a, v) for act, a, v in parts)
    return Request(COMMIT, body, Reader.receipt)


def flush() -> Request[int]:
    return Request(FLUSH, b"", Reader.hyper)


def stat() -> Request[Stat]:
    return Request(STAT, b"", lambda answer: Stat(answer.hyper(), answer.hyper()))


def counters() -> Request[Dict[int, int]]:
    """The counters. Its answer gives the value of each by its name."""

    def found(answer: Reader) -> Dict[int, int]:
        return dict(_list(answer, MAX_COUNTERS, lambda a: (a.word(), a.hyper())))

    return Request(COUNTERS, b"", found)


def scan(block: int, first: int, value: bool, most: int) -> Request[List[int]]:
    """A scan. Its answer gives the numbers of bits, which ascend."""
    most = max(0, min(most, BLOCK_BITS))

    def bits(answer: Reader) -> List[int]:
        count = answer.word()
        if count > most:
            raise ProtocolError("a list is too long")
        found = list(struct.unpack(f">{count}I", answer.take(4 * count)))
        if any(b <= a for a, b in zip([first - 1] + found, found)) or found[-1:] > [BLOCK_BITS - 1]:
            raise ProtocolError("bits do not ascend within their block")
        return found

    body = _address((block, first)) + struct.pack(">II", bool(value), most)
    return Request(SCAN, body, bits)


def stop() -> Request[None]:
    return Request(STOP, b"", lambda answer: None)


def _says_that_the_port_failed(error: Exception) -> bool:
    """And not that what was asked for is wrong, which may follow from reads of two moments."""
    if isinstance(error, Refused):
        return error.status not in (BAD_ADDRESS, BAD_SIZE, TOO_LARGE)
    return isinstance(error, (Lost, NoPort, Restarted, Unsure))


class Objects:
    """What a transaction has read and writes."""

    def __init__(self) -> None:
        self._requests = 0
        self._reads: Dict[Address, bytes] = {}
        self._writes: Dict[Address, bytes] = {}

    def write(self, block: int, bit: int, value: bytes) -> None:
        """Has the object overwritten by the commit."""
        self._writes[(block, bit)] = bytes(value)

    def has(self, block: int, bit: int) -> bool:
        """True if the transaction has read or overwritten the object."""
        return self._own((block, bit)) is not None

    def expect(self, block: int, bit: int, value: bytes) -> None:
        """Has the commit compare an object with a value that the caller knows, as if it had been
        read. Raises Conflict where the transaction has read another value."""
        if self._reads.setdefault((block, bit), bytes(value)) != value:
            raise Conflict()

    def _own(self, address: Address) -> Optional[bytes]:
        """What the transaction has of an object, or None."""
        return self._writes.get(address, self._reads.get(address))

    def _missing(self, addresses: Sequence[Address]) -> List[Address]:
        check_number(addresses, MAX_ADDRESSES)
        return [a for a in dict.fromkeys(addresses) if self._own(a) is None]

    def _keep(self, addresses: Sequence[Address], values: Sequence[bytes]) -> None:
        """Keeps what one request has read."""
        self._reads.update(zip(addresses, values))
        self._requests += 1

    def _compares(self) -> List[Part]:
        return [(COMPARE, a, v) for a, v in self._reads.items()]

    def _parts(self) -> List[Part]:
        return self._compares() + [(WRITE, a, v) for a, v in self._writes.items()]

    def _may_be_of_two_moments(self, error: Exception) -> bool:
        """Whether reads of two moments may have caused an error. One request reads one moment."""
        return self._requests > 1 and not _says_that_the_port_failed(error)


def longest_pause(attempt: int) -> float:
    """The most seconds before the try after this one, which is counted from 1."""
    return min(0.1, 0.0005 * 2 ** min(attempt, 8))


def check_place(path: Optional[str], port: Optional[int]) -> None:
    """Wants a path or a port, and a path that can name a socket."""
    if (path is None) == (port is None):
        raise ValueError("a path or a port")
    if path is not None and len(os.fsencode(path)) > MAX_PATH:
        raise NoPort(errno.ENAMETOOLONG, os.strerror(errno.ENAMETOOLONG))
