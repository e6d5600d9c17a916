"""A client of the journal, over its port. See docs/PROTOCOL.md for the bytes.

    with jnl.connect("/run/disk.sock") as j:
        def transfer(t):
            a = int.from_bytes(t.read(515, 0)[:8], "little")
            b = int.from_bytes(t.read(515, 1024)[:8], "little")
            t.write(515, 0, (a - 1).to_bytes(8, "little") + bytes(120))
            t.write(515, 1024, (b + 1).to_bytes(8, "little") + bytes(120))
        j.run(transfer)

One connection serves one thread at a time. One that the port has ended, for its silence or with the
service, is made again by the next call. Where the service was started again in between, and commits
of this connection may be gone, that call raises Restarted.

`Transaction.submit` puts a commit in flight without waiting for its answer, and `Journal.next`
gives the answers in order. `jnl.aio` has the same client for asyncio, whose calls may be made by
many tasks at once.
"""

from ._journal import Answer, Journal, Transaction, connect
from ._records import (
    COMPARE,
    WRITE,
    Address,
    Conflict,
    Disk,
    Full,
    Lost,
    NoneFree,
    NoPort,
    ProtocolError,
    Receipt,
    Refused,
    Region,
    Restarted,
    Stat,
    Unsure,
)
from .pool import Pool

__all__ = [
    "COMPARE",
    "WRITE",
    "Address",
    "Answer",
    "Conflict",
    "Disk",
    "Full",
    "Journal",
    "Lost",
    "NoPort",
    "NoneFree",
    "Pool",
    "ProtocolError",
    "Receipt",
    "Refused",
    "Region",
    "Restarted",
    "Stat",
    "Transaction",
    "Unsure",
    "connect",
]
