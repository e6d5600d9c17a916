"""Free records by the bits of a block.

    pool = jnl.Pool(j, block=514, records=range(4096))
    def insert(t):
        record = pool.take(t)
        t.write(515 + record // 32, record % 32 * 1024, ..)
        return record
    record = j.run(insert)

The bit of a record is 1 where it is in use. A pool looks once which records are free, and again when
it has handed all of them out. One pool is for one thread at a time, as its connection.
"""

import random
from typing import List

from ._journal import Journal, Transaction
from ._records import BAD_ADDRESS, BLOCK_BITS, NoneFree, Objects, Refused

FREE, USED = b"\0", b"\1"


class Records:
    """The records whose bits are these of a block, and those that were found free."""

    def __init__(self, block: int, records: range = range(BLOCK_BITS)):
        self._block = block
        self._records = records
        self._free: List[int] = []

    def _keep(self, found: List[int]) -> None:
        """Keeps what a scan has found free, and shuffles it: two programs take different ones."""
        self._free = [record for record in found if record in self._records]
        random.shuffle(self._free)

    def _take_found(self, transaction: Objects) -> int:
        """Takes one of those that were found free, but for those of the transaction."""
        while self._free:
            record = self._free.pop()
            if not transaction.has(self._block, record):
                transaction.expect(self._block, record, FREE)
                transaction.write(self._block, record, USED)
                return record
        raise NoneFree("no record is free")

    def _check(self, record: int) -> None:
        """Refuses a record that is none of these."""
        if record not in self._records:
            raise Refused(BAD_ADDRESS, (self._block, record))

    def _give_back(self, transaction: Objects, record: int, value: bytes) -> None:
        """Gives a record back whose bit has this value."""
        if value != USED:
            raise Refused(BAD_ADDRESS, (self._block, record))
        transaction.write(self._block, record, FREE)


class Pool(Records):
    """The records whose bits are these of a block."""

    def __init__(self, journal: Journal, block: int, records: range = range(BLOCK_BITS)):
        super().__init__(block, records)
        self._journal = journal

    def take(self, transaction: Transaction) -> int:
        """Takes a record that is free: the commit compares its bit with 0 and sets it. Where another
        one has it by then the commit raises Conflict, and the next try takes another record. Raises
        NoneFree where none is free."""
        if not self._free:
            self._keep(self._journal.scan(self._block, self._records.start, False))
        return self._take_found(transaction)

    def give(self, transaction: Transaction, record: int) -> None:
        """Gives a record back. Refused by 2 where it is not in use, or none of the pool."""
        self._check(record)
        self._give_back(transaction, record, transaction.read(self._block, record))
