"""The journal over one connection, for one thread at a time."""

import contextlib
import random
import select
import socket
import struct
import time
from collections import deque
from typing import (
    Callable,
    Deque,
    Dict,
    Iterator,
    List,
    NamedTuple,
    Optional,
    Sequence,
    Tuple,
    Type,
    TypeVar,
)

from . import _records
from ._records import (
    Address,
    Conflict,
    Disk,
    Full,
    Lost,
    Objects,
    Part,
    Promises,
    ProtocolError,
    Receipt,
    Refused,
    Request,
    Restarted,
    Stat,
    Unsure,
)

MAX_IN_FLIGHT = 16384
# Submitted commits are held back up to so many bytes, to be sent by one call of the system.
HELD_BYTES = 32768
PIECE_BYTES = 65536

T = TypeVar("T")


class Answer(NamedTuple):
    """What became of a commit that was submitted under a tag: its receipt, or the error that the
    commit would have raised had it been waited for."""

    tag: object
    receipt: Optional[Receipt]
    error: Optional[Exception]

    def result(self) -> Receipt:
        """The receipt. Raises the error, where there is one."""
        if self.error is not None:
            raise self.error
        assert self.receipt is not None
        return self.receipt


class Transaction(Objects):
    """Reads and writes that are committed as one.

    It holds no lock. A commit compares what was read, and is refused where any of it is another by
    then.
    """

    def __init__(self, journal: "Journal"):
        super().__init__()
        self._journal = journal

    def read(self, block: int, bit: int = 0) -> bytes:
        """The object's value: what the transaction wrote there, or else what it read before, or
        else what the journal has now."""
        (value,) = self.read_many([(block, bit)])
        return value

    def read_many(self, addresses: Sequence[Address]) -> list:
        """The values of at most 256 objects, each as `read` gives it. One request reads those that
        the transaction does not have yet, as they are at one moment."""
        missing = self._missing(addresses)
        if missing:
            self._keep(missing, self._journal.read(missing))
        return [self._own(a) for a in addresses]

    def commit(self, wait: bool = False) -> Receipt:
        """Commits. With `wait` it is stable once this returns."""
        return self._journal.commit(self._parts(), wait)

    def submit(self, wait: bool = False, tag: object = None) -> None:
        """Puts the commit in flight, as `Journal.submit` does."""
        self._journal.submit(self._parts(), wait, tag)

    @contextlib.contextmanager
    def _judging(self, kind: Type[Exception]) -> Iterator[None]:
        """Raises Conflict in place of an exception that reads of two moments may have caused, where
        what was read was not so at one moment."""
        try:
            yield
        except kind as error:
            if self._may_be_of_two_moments(error):
                self._journal._commit(self._compares(), wait=False)
            raise


class Journal:
    """A connection to the port. `disk` is the disk, as the port told it when the connection was
    made last, and `blocks` is how many blocks it has. `last_receipt` is the receipt of the last
    commit that was done over it, as by `run`, or None; commits that were submitted have theirs in
    their answers."""

    def __init__(self, path: Optional[str], port: Optional[int], timeout: Optional[float]):
        self._path = path
        self._port = port
        self._timeout = timeout
        self._ends: Optional[float] = None
        self._socket: Optional[socket.socket] = None
        self._promises = Promises()
        self.last_receipt: Optional[Receipt] = None
        # Commits in flight: those without an answer, in the order of their submission, and the
        # answers that were not taken, all of commits before those.
        self._flights: Deque[Tuple[object, Request[Receipt], bool]] = deque()
        self._answers: Deque[Answer] = deque()
        self._has_lost = False
        # The session has ended: the next call makes another connection.
        self._is_over = False
        self._held = bytearray()
        self._came = bytearray()
        self._begin_call()
        self._connect()

    @property
    def disk(self) -> Disk:
        assert self._promises.disk is not None
        return self._promises.disk

    @property
    def blocks(self) -> int:
        return self.disk.blocks

    def __enter__(self) -> "Journal":
        return self

    def __exit__(self, *_: object) -> None:
        self.close()

    def close(self) -> None:
        """Closes the connection. Commits in flight are lost, but those that were held back are not
        done."""
        self._hang_up(Lost("the connection was closed"))

    # ---- the connection

    def _hang_up(self, reason: Exception) -> None:
        """Closes the connection. The first commit in flight without an answer has met the reason,
        and the later ones are lost."""
        if self._socket is not None:
            self._socket.close()
            self._socket = None
        self._is_over = False
        self._held.clear()
        self._came.clear()
        for tag, _, _ in self._flights:
            self._has_lost = True
            self._answers.append(Answer(tag, None, reason))
            reason = _records.lost(reason.__cause__ or reason)
        self._flights.clear()

    def _begin_call(self) -> None:
        """Notes when a call that begins now has waited enough."""
        self._ends = time.monotonic() + self._timeout if self._timeout else None

    def _left(self) -> Optional[float]:
        """The seconds that this call may still wait; None is for ever."""
        if self._ends is None:
            return None
        left = self._ends - time.monotonic()
        if left <= 0:
            raise socket.timeout("timed out")
        return left

    def _dial(self) -> None:
        if self._path is None:
            self._socket = socket.create_connection(("127.0.0.1", self._port), self._left())
            self._socket.setsockopt(socket.IPPROTO_TCP, socket.TCP_NODELAY, 1)
        else:
            self._socket = socket.socket(socket.AF_UNIX, socket.SOCK_STREAM)
            if self._ends is not None:
                # With a timeout of Python's it would not wait for its turn where many connect.
                microseconds = max(1, int(self._left() * 1000000))
                most = struct.pack("@ll", *divmod(microseconds, 1000000))
                self._socket.setsockopt(socket.SOL_SOCKET, socket.SO_SNDTIMEO, most)
            self._socket.connect(self._path)
        self._socket.setblocking(False)

    def _connect(self) -> None:
        try:
            _records.check_place(self._path, self._port)
            self._dial()
            disk = self._greet()
        except BaseException as error:
            self.close()
            if isinstance(error, (OSError, Lost)) and not isinstance(error, ProtocolError):
                raise _records.no_port(error) from error
            raise
        if self._promises.meet(disk):
            raise Restarted("the service was started again; commits that did not wait may be gone")

    def _greet(self) -> Disk:
        """Greets by the newest version that the port speaks."""
        try:
            return self._ask_connected(_records.hello(_records.VERSION))
        except Refused as error:
            if error.status != _records.OTHER_VERSION:
                raise
            return self._ask_connected(_records.hello(_records.FIRST_VERSION))

    def _await(self, events: int) -> int:
        """Waits for events of the socket."""
        poll = select.poll()
        poll.register(self._socket, events)
        left = self._left()
        found = poll.poll(None if left is None else max(1, left * 1000))
        if not found:
            raise socket.timeout("timed out")
        return found[0][1]

    def _is_quiet(self) -> bool:
        """Whether the port has ended neither connection nor session, and has sent nothing that
        nobody asked for."""
        poll = select.poll()
        poll.register(self._socket, select.POLLIN)
        return not self._is_over and not self._came and not poll.poll(0)

    def _receive(self) -> None:
        """Takes the bytes that have come, and the answers of commits in flight in them."""
        try:
            piece = self._socket.recv(PIECE_BYTES)
        except (BlockingIOError, InterruptedError):
            return
        if not piece:
            raise _records.ended_by_port()
        self._came += piece
        while self._flights:
            answer = _records.whole_answer(self._came)
            if answer is None:
                return
            self._settle(answer)

    def _settle(self, answer: bytes) -> None:
        """Gives an answer to the first commit in flight that has none."""
        tag, request, wait = self._flights[0]
        try:
            receipt = request.result(answer)
            found = Answer(tag, receipt, None)
            self._promises.note_commit(receipt, wait)
        except (Refused, Unsure) as error:
            found = Answer(tag, None, error)
            self._note_unsure(error)
            self._is_over = self._is_over or _records.ends_connection(error)
        self._flights.popleft()
        self._answers.append(found)

    def _note_unsure(self, error: Exception) -> None:
        """Notes a commit that stands, and is not known to be stable."""
        if isinstance(error, Unsure):
            self._promises.note_commit(error.receipt, False)

    def _send(self, record: bytes) -> None:
        """Sends bytes. While the socket takes none, answers are taken: a port that cannot be rid of
        them takes no further request."""
        rest = memoryview(record)
        while rest:
            try:
                rest = rest[self._socket.send(rest) :]
            except (BlockingIOError, InterruptedError):
                if self._await(select.POLLIN | select.POLLOUT) & select.POLLIN:
                    self._receive()
            except OSError:
                self._receive_last()
                raise

    def _receive_last(self) -> None:
        """Takes the answers that came before the end of a connection that takes no more bytes."""
        with contextlib.suppress(OSError):
            while self._flights and self._await(select.POLLIN):
                self._receive()

    def _send_held(self) -> None:
        held, self._held = self._held, bytearray()
        self._send(held)

    def _answer(self) -> bytes:
        """The answer of a request that was sent after all commits in flight. Theirs are taken as
        soon as they are whole, so a whole one that is there is this one's."""
        answer = _records.whole_answer(self._came)
        while answer is None:
            self._await(select.POLLIN)
            self._receive()
            answer = _records.whole_answer(self._came)
        return answer

    @contextlib.contextmanager
    def _losing(self) -> Iterator[None]:
        """Closes the connection where a call over it fails so that it is of no more use. Also where
        the call was interrupted: the next one must not read this one's answer."""
        try:
            try:
                yield
            except OSError as error:
                raise _records.lost(error) from error
        except BaseException as error:
            if _records.ends_connection(error):
                self._hang_up(error if isinstance(error, Lost) else _records.lost(error))
            raise

    def _ask_connected(self, request: Request[T]) -> T:
        with self._losing():
            self._send_held()
            self._send(request.record)
            return request.result(self._answer())

    def _begin_sending(self) -> None:
        """Begins a call that sends. A connection that the port ended since the last call is made
        again first: nothing was sent yet, so nothing is sent twice. After a loss nothing is sent
        until the answer of each commit that was lost is taken."""
        self._begin_call()
        if self._has_lost:
            raise Lost("commits in flight were lost: take their answers first")
        if self._socket is not None and not self._flights and not self._is_quiet():
            self.close()
        if self._socket is None:
            self._connect()

    def _ask(self, request: Request[T]) -> T:
        """Sends a request, and gives what its answer says."""
        self._begin_sending()
        return self._ask_connected(request)

    # ---- calls

    def read(self, addresses: Sequence[Address]) -> list:
        """The values of at most 256 objects, all at one place of the history."""
        request = _records.read_of(addresses)
        self._check([(address, None) for address in addresses])
        return self._ask(request)

    def commit(self, parts: Sequence[Part], wait: bool = False) -> Receipt:
        """Commits parts, each of which compares or writes."""
        self.last_receipt = self._commit(parts, wait)
        return self.last_receipt

    def _commit(self, parts: Sequence[Part], wait: bool) -> Receipt:
        request = _records.commit_of(parts, wait)
        self._check([(address, value) for _, address, value in parts])
        try:
            receipt = self._ask(request)
        except Unsure as error:
            self._note_unsure(error)
            raise
        self._promises.note_commit(receipt, wait)
        return receipt

    def _check(self, objects: Sequence[Tuple[Address, Optional[bytes]]]) -> None:
        """Refuses what the disk does not have, where the port has told its regions. A port that may
        be another by now is to say so itself."""
        try:
            self.disk.check_all(objects)
        except Refused:
            if self._socket is not None and (self._flights or self._is_quiet()):
                raise

    def submit(self, parts: Sequence[Part], wait: bool = False, tag: object = None) -> None:
        """Puts a commit in flight, and does not wait for its answer, which `next` gives. Commits
        are done in the order in which they were submitted.

        A commit may be held back, so that many are sent by one call of the system: until `next` has
        to wait, 32 KiB are held back, `push`, or any other call that sends.

        Up to 16384 commits may be in flight, and one more raises Full. While the socket takes no
        more, this call receives the answers that have come, and keeps them for `next`.

        All other calls work while commits are in flight. They are answered after those.

        Where the connection is lost, `next` gives Lost for each commit in flight that had no
        answer, in their order. Those that were done, if any, are the first ones of these. Until all
        answers are taken, each call that would send something sends nothing and raises Lost. An
        answer that the protocol does not have gives ProtocolError for its commit, and Lost for the
        later ones."""
        if self.in_flight >= MAX_IN_FLIGHT:
            raise Full("as many commits are in flight as may be")
        request = _records.commit_of(parts, wait)
        self._begin_sending()
        self._flights.append((tag, request, wait))
        self._held += request.record
        if len(self._held) >= HELD_BYTES:
            self.push()

    def push(self) -> None:
        """Sends what `submit` holds back. A loss is told by `next`."""
        self._begin_call()
        with contextlib.suppress(Lost), self._losing():
            self._send_held()

    def next(self) -> Optional[Answer]:
        """The answer of the commit that was submitted first, of those in flight, which it waits
        for; or None, where none is in flight. A limit of time is for one answer."""
        self._begin_call()
        if not self._answers and self._flights:
            with contextlib.suppress(Lost), self._losing():
                self._send_held()
                while not self._answers:
                    self._await(select.POLLIN)
                    self._receive()
        answer = self._answers.popleft() if self._answers else None
        self._has_lost = self._has_lost and self.in_flight > 0
        return answer

    def answers(self) -> Iterator[Answer]:
        """The answers of all commits in flight, in the order of their submission."""
        return iter(self.next, None)

    @property
    def in_flight(self) -> int:
        """How many commits are in flight: submitted, and their answers not taken."""
        return len(self._flights) + len(self._answers)

    def begin(self) -> Transaction:
        """A transaction that has done nothing yet."""
        return Transaction(self)

    def run(self, work: Callable[[Transaction], T], wait: bool = True, tries: int = 100) -> T:
        """Runs the work in a transaction and commits it, again after a pause where it meets a
        conflict. What the work raises ends it, with nothing done.

        Work that reads by more than one request may see two moments, and so objects that do not fit
        together. Where it raises an exception, or its commit is refused by 2, 3 or 4, `run` asks
        the port whether all that it read was so at one moment, by a commit that only compares. If
        not, the work is run again. If that request fails, its exception is raised, with the work's
        as its context. Nothing was done then. `Lost`, `NoPort`, `Restarted` and what else says that
        the port failed is raised at once.

        The work must end whatever it reads. `Transaction.read_many` reads objects of one moment."""
        for attempt in range(1, tries):
            try:
                return self._run_once(work, wait)
            except Conflict:
                time.sleep(random.uniform(0, _records.longest_pause(attempt)))
        return self._run_once(work, wait)

    def _run_once(self, work: Callable[[Transaction], T], wait: bool) -> T:
        transaction = self.begin()
        with transaction._judging(Exception):
            result = work(transaction)
        # Anything else leaves open whether the commit was done.
        with transaction._judging(Refused):
            transaction.commit(wait)
        return result

    def flush(self) -> int:
        """Makes all commits stable that were answered before. How many are stable of this opening.
        Where the service was started again since, so that some of this connection may be gone, it
        raises Restarted, as each call does."""
        stable = self._ask(_records.flush())
        self._promises.note_stable(stable)
        return stable

    def stat(self) -> Stat:
        """How many commits there are, and how many of them are stable at least."""
        found = self._ask(_records.stat())
        self._promises.note_stable(found.stable)
        return found

    def counters(self) -> Dict[int, int]:
        """What the service has counted since it opened the disk, by the names of docs/PROTOCOL.md.
        Refused by 69, and nothing is sent, where the port's version is 1."""
        return self._ask_second(_records.counters())

    def scan(
        self, block: int, first: int = 0, value: bool = False, most: int = _records.BLOCK_BITS
    ) -> List[int]:
        """The bits of a block that have a value, from a bit on, ascending, at most so many. All bits
        are as they are at one moment. Refused by 69, and nothing is sent, where the port's version
        is 1."""
        return self._ask_second(_records.scan(block, first, value, most))

    def _ask_second(self, request: Request[T]) -> T:
        """Asks what version 1 does not have."""
        self._begin_sending()
        if self.disk.version < _records.VERSION:
            raise Refused(_records.OTHER_VERSION)
        return self._ask_connected(request)

    def stop(self) -> None:
        """Ends the service, after a flush."""
        self._ask(_records.stop())
        self._promises.note_stop()
        self.close()


def connect(
    path: Optional[str] = None, *, port: Optional[int] = None, timeout: Optional[float] = None
) -> Journal:
    """Connects to the socket at a path, or to a port of this machine.

    `timeout` is the most seconds that this call, and each later one, waits for the port in all.
    None and 0 are for ever. When it is over this call raises NoPort. A later one raises Lost, or
    NoPort where it had to connect again."""
    return Journal(path, port, timeout)
