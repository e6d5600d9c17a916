"""The client of the journal for asyncio. Many tasks may call one Journal at once.

    async with await jnl.aio.connect("/run/disk.sock") as j:
        async def transfer(t):
            a, b = await t.read_many([(515, 0), (515, 1024)])
            t.write(515, 0, ..)
        await asyncio.gather(*(j.run(transfer) for _ in range(64)))

A call does not wait for the answers of others, so one connection has as many requests in flight as
there are calls. Commits are done in the order in which they were called. While the socket takes no
more, further calls wait, and answers are received.

Where the connection is lost, each call without an answer raises Lost, and so does one that begins
before the event loop has told those. Those commits that were done, if any, are the first ones of
these. A later call makes a new connection. So does one after the port has ended the connection, for
its silence or with the service, while no call was waiting.

A call that is cancelled is as one that is lost, but the connection goes on.
"""

import asyncio
import contextlib
import os
import random
import select
import socket
from collections import deque
from typing import (
    Any,
    AsyncIterator,
    Awaitable,
    Callable,
    Deque,
    Dict,
    List,
    Optional,
    Sequence,
    Tuple,
    Type,
    TypeVar,
)

from . import _records, pool
from ._records import (
    Address,
    Conflict,
    Disk,
    Lost,
    Objects,
    Part,
    Promises,
    ProtocolError,
    Receipt,
    Refused,
    Request,
    Restarted,
    Stat,
    Unsure,
)

# Before another try to connect where a socket has no room.
PAUSE_SECONDS = 0.001
PIECE_BYTES = 65536

T = TypeVar("T")


class _Connection(asyncio.Protocol):
    """A connection, and the calls that have no answer yet, in the order of their requests."""

    def __init__(self) -> None:
        # Set by connection_made, before any call.
        self._transport: Any = None
        self._calls: Deque[Tuple[Request, asyncio.Future]] = deque()
        self._came = bytearray()
        self._turn = asyncio.Lock()
        self._has_room = asyncio.Event()
        self._has_room.set()
        self._loss: Optional[Lost] = None
        # Calls were lost, and the event loop has not told all of them.
        self._is_untold = False
        # The session has ended: the next call makes another connection.
        self._is_over = False

    def connection_made(self, transport: asyncio.BaseTransport) -> None:
        self._transport = transport

    def connection_lost(self, error: Optional[Exception]) -> None:
        if self._loss is None and self._calls:
            self._receive_last()
        self.end(_records.lost(error or _records.ended_by_port()))

    def _receive_last(self) -> None:
        """Takes the answers that came before the end of a connection that takes no more bytes."""
        with contextlib.suppress(OSError):
            piece = b"."
            while piece:
                piece = os.read(self._number(), PIECE_BYTES)
                self.data_received(piece)

    def _number(self) -> int:
        """The socket's number of the system."""
        return self._transport.get_extra_info("socket").fileno()

    def pause_writing(self) -> None:
        self._has_room.clear()

    def resume_writing(self) -> None:
        self._has_room.set()

    def data_received(self, data: bytes) -> None:
        self._came += data
        try:
            answer = _records.whole_answer(self._came)
            while answer is not None:
                self._settle(answer)
                answer = _records.whole_answer(self._came)
        except Lost as error:
            self.end(error)

    def _settle(self, answer: bytes) -> None:
        """Gives an answer to the first call that has none."""
        if not self._calls:
            raise ProtocolError("an answer that nobody asked for")
        request, future = self._calls[0]
        try:
            found = request.result(answer)
        except (Refused, Unsure) as error:
            self._is_over = self._is_over or _records.ends_connection(error)
            _finish(future, error)
        else:
            if not future.done():
                future.set_result(found)
        self._calls.popleft()

    def end(self, reason: Lost) -> None:
        """Closes the connection. The first call without an answer has met the reason, and the later
        ones are lost."""
        if self._loss is None:
            self._loss = reason
        if self._transport is not None:
            self._transport.abort()
        if self._calls:
            self._is_untold = True
            asyncio.get_running_loop().call_soon(self._note_told)
        while self._calls:
            _finish(self._calls.popleft()[1], reason)
            reason = _records.lost(reason.__cause__ or reason)
        self._has_room.set()

    def _note_told(self) -> None:
        self._is_untold = False

    def is_usable(self) -> bool:
        """Whether a call may go over it. Raises Lost where it has ended and a call does not know so
        yet. One that owes no answer must be quiet: the port has ended neither it nor the session,
        and has sent nothing that nobody asked for."""
        has_ended = self._loss is not None or self._transport.is_closing()
        if self._is_untold or (has_ended and self._calls):
            raise _records.lost(self._cause())
        if has_ended:
            return False
        return bool(self._calls) or (not self._is_over and self._is_quiet())

    def _is_quiet(self) -> bool:
        poll = select.poll()
        poll.register(self._number(), select.POLLIN)
        return not self._came and not poll.poll(0)

    async def ask(self, request: Request[T]) -> T:
        """Sends a request once there is room, and gives what its answer says."""
        async with self._turn:
            await self._has_room.wait()
            if self._loss is not None:
                raise _records.lost(self._cause())
            future: asyncio.Future = asyncio.get_running_loop().create_future()
            self._calls.append((request, future))
            self._transport.write(request.record)
        return await future

    def _cause(self) -> BaseException:
        """What has ended the connection."""
        loss = self._loss or _records.lost(_records.ended_by_port())
        return loss.__cause__ or loss


def _finish(future: asyncio.Future, error: Exception) -> None:
    """Ends a call by an error, unless it was cancelled."""
    if not future.done():
        future.set_exception(error)


class Transaction(Objects):
    """Reads and writes that are committed as one, as `jnl.Transaction`."""

    def __init__(self, journal: "Journal"):
        super().__init__()
        self._journal = journal

    async def read(self, block: int, bit: int = 0) -> bytes:
        """The object's value: what the transaction wrote there, or else what it read before, or
        else what the journal has now."""
        (value,) = await self.read_many([(block, bit)])
        return value

    async def read_many(self, addresses: Sequence[Address]) -> list:
        """The values of at most 256 objects, each as `read` gives it. One request reads those that
        the transaction does not have yet, as they are at one moment."""
        missing = self._missing(addresses)
        if missing:
            self._keep(missing, await self._journal.read(missing))
        return [self._own(a) for a in addresses]

    async def commit(self, wait: bool = False) -> Receipt:
        """Commits. With `wait` it is stable once this returns."""
        return await self._journal.commit(self._parts(), wait)

    @contextlib.asynccontextmanager
    async def _judging(self, kind: Type[Exception]) -> AsyncIterator[None]:
        """Raises Conflict in place of an exception that reads of two moments may have caused, where
        what was read was not so at one moment."""
        try:
            yield
        except kind as error:
            if self._may_be_of_two_moments(error):
                await self._journal.commit(self._compares())
            raise


class Journal:
    """A connection to the port, for all tasks of one event loop. `disk` is the disk, as the port
    told it when the connection was made last, and `blocks` is how many blocks it has."""

    def __init__(self, path: Optional[str], port: Optional[int], timeout: Optional[float]):
        self._path = path
        self._port = port
        self._timeout = timeout or None
        self._connection: Optional[_Connection] = None
        self._connecting = asyncio.Lock()
        self._promises = Promises()
        # It is another opening, commits of the one before may be gone, and no call has told so.
        self._is_another = False

    @property
    def disk(self) -> Disk:
        assert self._promises.disk is not None
        return self._promises.disk

    @property
    def blocks(self) -> int:
        return self.disk.blocks

    async def __aenter__(self) -> "Journal":
        return self

    async def __aexit__(self, *_: object) -> None:
        await self.close()

    async def close(self) -> None:
        """Closes the connection. Calls that have no answer raise Lost."""
        connection, self._connection = self._connection, None
        if connection is not None:
            connection.end(Lost("the connection was closed"))
            await asyncio.sleep(0)

    async def _connected_socket(self) -> socket.socket:
        kind = socket.AF_INET if self._path is None else socket.AF_UNIX
        place = ("127.0.0.1", self._port) if self._path is None else self._path
        made = socket.socket(kind, socket.SOCK_STREAM)
        made.setblocking(False)
        try:
            while not await _has_connected(made, place):
                await asyncio.sleep(PAUSE_SECONDS)
        except BaseException:
            made.close()
            raise
        if self._path is None:
            made.setsockopt(socket.IPPROTO_TCP, socket.TCP_NODELAY, 1)
        return made

    async def _connect(self) -> _Connection:
        loop = asyncio.get_running_loop()
        connection = _Connection()
        try:
            _records.check_place(self._path, self._port)
            made = await self._connected_socket()
            await loop.connect_accepted_socket(lambda: connection, made)
            disk = await _greet(connection)
        except BaseException as error:
            connection.end(Lost("the connection was not made"))
            if isinstance(error, (OSError, Lost)) and not isinstance(error, ProtocolError):
                raise _records.no_port(error) from error
            raise
        # Where a call was cancelled before it could tell of an earlier one, that is to be told.
        self._is_another = self._promises.meet(disk) or self._is_another
        return connection

    async def _usable(self) -> _Connection:
        """The connection, which is made again first where it is of no more use. Nothing was sent
        yet, so nothing is sent twice."""
        async with self._connecting:
            if self._connection is None or not self._connection.is_usable():
                if self._connection is not None:
                    self._connection.end(Lost("the port ended the connection"))
                self._connection = None
                try:
                    self._connection = await asyncio.wait_for(self._connect(), self._timeout)
                except asyncio.TimeoutError as error:
                    raise _records.no_port(_timed_out()) from error
            if self._is_another:
                self._is_another = False
                raise Restarted(
                    "the service was started again; commits that did not wait may be gone"
                )
            return self._connection

    async def _ask(self, request: Request[T]) -> T:
        """Sends a request, and gives what its answer says."""
        connection = self._connection
        if connection is None or self._connecting.locked() or not connection.is_usable():
            connection = await self._usable()
        if self._timeout is None:
            return await connection.ask(request)
        late = _records.lost(_timed_out())
        limit = asyncio.get_running_loop().call_later(self._timeout, connection.end, late)
        try:
            return await connection.ask(request)
        finally:
            limit.cancel()

    async def read(self, addresses: Sequence[Address]) -> list:
        """The values of at most 256 objects, all at one place of the history."""
        request = _records.read_of(addresses)
        self._check([(address, None) for address in addresses])
        return await self._ask(request)

    async def commit(self, parts: Sequence[Part], wait: bool = False) -> Receipt:
        """Commits parts, each of which compares or writes."""
        request = _records.commit_of(parts, wait)
        self._check([(address, value) for _, address, value in parts])
        try:
            receipt = await self._ask(request)
        except Unsure as error:
            self._promises.note_commit(error.receipt, False)
            raise
        self._promises.note_commit(receipt, wait)
        return receipt

    def _check(self, objects: Sequence[Tuple[Address, Optional[bytes]]]) -> None:
        """Refuses what the disk does not have, where the port has told its regions. A port that may
        be another by now is to say so itself."""
        try:
            self.disk.check_all(objects)
        except Refused:
            if self._is_current():
                raise

    def _is_current(self) -> bool:
        """Whether the port has not ended the connection, so that the disk is as it was told."""
        with contextlib.suppress(Lost):
            return self._connection is not None and self._connection.is_usable()
        return False

    def begin(self) -> Transaction:
        """A transaction that has done nothing yet."""
        return Transaction(self)

    async def run(
        self, work: Callable[[Transaction], Awaitable[T]], wait: bool = True, tries: int = 100
    ) -> T:
        """Runs the work in a transaction and commits it, again after a pause where it meets a
        conflict, as `jnl.Journal.run` does. The work must end whatever it reads."""
        for attempt in range(1, tries):
            try:
                return await self._run_once(work, wait)
            except Conflict:
                await asyncio.sleep(random.uniform(0, _records.longest_pause(attempt)))
        return await self._run_once(work, wait)

    async def _run_once(self, work: Callable[[Transaction], Awaitable[T]], wait: bool) -> T:
        transaction = self.begin()
        async with transaction._judging(Exception):
            result = await work(transaction)
        # Anything else leaves open whether the commit was done.
        async with transaction._judging(Refused):
            await transaction.commit(wait)
        return result

    async def flush(self) -> int:
        """Makes all commits stable that were answered before, as `jnl.Journal.flush` does."""
        stable = await self._ask(_records.flush())
        self._promises.note_stable(stable)
        return stable

    async def stat(self) -> Stat:
        """How many commits there are, and how many of them are stable at least."""
        found = await self._ask(_records.stat())
        self._promises.note_stable(found.stable)
        return found

    async def counters(self) -> Dict[int, int]:
        """What the service has counted, as `jnl.Journal.counters`."""
        return await self._ask_second(_records.counters())

    async def scan(
        self, block: int, first: int = 0, value: bool = False, most: int = _records.BLOCK_BITS
    ) -> List[int]:
        """The bits of a block that have a value, as `jnl.Journal.scan`."""
        return await self._ask_second(_records.scan(block, first, value, most))

    async def _ask_second(self, request: Request[T]) -> T:
        """Asks what version 1 does not have."""
        await self._usable()
        if self.disk.version < _records.VERSION:
            raise Refused(_records.OTHER_VERSION)
        return await self._ask(request)

    async def stop(self) -> None:
        """Ends the service, after a flush."""
        await self._ask(_records.stop())
        self._promises.note_stop()
        await self.close()


class Pool(pool.Records):
    """Free records by the bits of a block, as `jnl.Pool`, for all tasks of one event loop."""

    def __init__(
        self, journal: Journal, block: int, records: range = range(_records.BLOCK_BITS)
    ):
        super().__init__(block, records)
        self._journal = journal
        self._looking = asyncio.Lock()

    async def take(self, transaction: Transaction) -> int:
        """Takes a record that is free, as `jnl.Pool.take` does."""
        async with self._looking:
            if not self._free:
                self._keep(await self._journal.scan(self._block, self._records.start, False))
            return self._take_found(transaction)

    async def give(self, transaction: Transaction, record: int) -> None:
        """Gives a record back, as `jnl.Pool.give` does."""
        self._check(record)
        self._give_back(transaction, record, await transaction.read(self._block, record))


async def _greet(connection: _Connection) -> Disk:
    """Greets by the newest version that the port speaks."""
    try:
        return await connection.ask(_records.hello(_records.VERSION))
    except Refused as error:
        if error.status != _records.OTHER_VERSION:
            raise
        return await connection.ask(_records.hello(_records.FIRST_VERSION))


def _timed_out() -> OSError:
    return socket.timeout("timed out")


async def _has_connected(made: socket.socket, place: object) -> bool:
    """Connects, unless a socket has no room now. asyncio takes that for a connection under way."""
    if made.family == socket.AF_INET:
        await asyncio.get_running_loop().sock_connect(made, place)
        return True
    try:
        made.connect(os.fspath(place))
    except BlockingIOError:
        return False
    return True


async def connect(
    path: Optional[str] = None, *, port: Optional[int] = None, timeout: Optional[float] = None
) -> Journal:
    """Connects to the socket at a path, or to a port of this machine.

    `timeout` is the most seconds that this call, and each later one, waits for the port. None and 0
    are for ever. When it is over this call raises NoPort. A later one raises Lost, and so do all
    others in flight then, or NoPort where it had to connect again."""
    journal = Journal(path, port, timeout)
    await journal._usable()
    return journal
