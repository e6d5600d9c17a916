"""Tests of the client for asyncio, against a running port and against one with faults. See
test_jnl.py and test_faults.py for the names of their sockets.

    JNL_SOCKET=/tmp/disk.sock JNL_FAULTY_SOCKET=/tmp/faulty.sock \\
        python3 -m unittest discover -s tests
"""

import asyncio
import errno
import os
import sys
import time
import unittest
from typing import List, Optional

sys.path.insert(0, os.path.join(os.path.dirname(__file__), ".."))

import jnl  # noqa: E402
import jnl.aio  # noqa: E402

PATH = os.environ.get("JNL_SOCKET", "")
FAULTY_PATH = os.environ.get("JNL_FAULTY_SOCKET", "")
TCP_PORT = os.environ.get("JNL_TCP_PORT", "")

MANY, BEFORE, AFTER, SECONDS, SUMS = 10000, 20, 30, 60, 300
FREE_BIT = 202
ACCOUNTS = [(527, 1024 * i) for i in range(8)]


def number(value: bytes) -> int:
    return int.from_bytes(value[:8], "little")


def value_of(n: int) -> bytes:
    return n.to_bytes(8, "little") + bytes(120)


def parts(address: tuple, value: bytes) -> list:
    return [(jnl.WRITE, address, value)]


@unittest.skipUnless(PATH, "JNL_SOCKET names no socket")
class Done(unittest.IsolatedAsyncioTestCase):
    async def asyncSetUp(self) -> None:
        asyncio.get_running_loop().set_debug(False)
        self.journal = await jnl.aio.connect(PATH, timeout=SECONDS)
        self.before = (await self.journal.stat()).commits

    async def asyncTearDown(self) -> None:
        await self.journal.close()

    async def test_calls_are_answered_in_order(self) -> None:
        """More are called at once than the socket takes."""
        commits = [self.journal.commit(parts((527, 31744), value_of(i))) for i in range(MANY)]
        receipts = await asyncio.gather(*commits)
        found = [receipt.commits - self.before for receipt in receipts]
        self.assertTrue(found == list(range(1, MANY + 1)))
        self.assertEqual(await self.journal.read([(527, 31744)]), [value_of(MANY - 1)])

    async def test_long_records(self) -> None:
        async def write(i: int) -> None:
            t = self.journal.begin()
            for b in range(1 if i % 3 else 100):
                t.write(540 + b, 0, bytes([(i + b + 1) % 256]) * 4096)
            await t.commit()

        await asyncio.gather(*map(write, range(40)))
        self.assertEqual(await self.journal.read([(639, 0)]), [bytes([139]) * 4096])

    async def test_tasks_move_money_while_the_sum_is_read(self) -> None:
        async def move(i: int) -> None:
            async def work(t: jnl.aio.Transaction) -> None:
                for account, more in ((ACCOUNTS[i % 8], -1), (ACCOUNTS[(i + 3) % 8], 1)):
                    t.write(*account, value_of(number(await t.read(*account)) + more))

            await self.journal.run(work, wait=i % 50 == 0)

        async def look(_: int) -> None:
            async def work(t: jnl.aio.Transaction) -> int:
                found = sum([number(await t.read(*account)) for account in ACCOUNTS])
                if found != 800:
                    raise ValueError(found)
                return found

            self.assertEqual(await self.journal.run(work, tries=1000), 800)
            self.assertEqual(sum(map(number, await self.journal.read(ACCOUNTS))), 800)

        for account in ACCOUNTS:
            await self.journal.commit(parts(account, value_of(100)))
        await asyncio.gather(*map(move, range(SUMS)), *map(look, range(SUMS // 10)))

    async def test_what_is_refused(self) -> None:
        too_long = bytes(5000)
        wrong = [((3, 0), b"", 2), ((527, 0), b"", 3), ((527, 0), too_long, 3)]
        for address, value, status in wrong:
            with self.assertRaises(jnl.Refused) as caught:
                await self.journal.commit(parts(address, value))
            self.assertEqual(caught.exception.status, status)
        for call in (self.journal.read([(3, 0)]), self.journal.commit(parts((527, 0), b""))):
            with self.assertRaises(jnl.Refused) as caught:
                call.send(None)  # it waits for nothing
            self.assertIn(caught.exception.address, [(3, 0), (527, 0)])
        with self.assertRaises(jnl.Refused) as caught:
            await self.journal.read([(531, 0)] * 257)
        self.assertEqual(caught.exception.status, 4)
        self.assertEqual((await self.journal.stat()).commits, self.before)

    async def test_a_call_that_is_cancelled_leaves_the_others(self) -> None:
        tasks = [asyncio.ensure_future(self.journal.commit([])) for _ in range(10)]
        await asyncio.sleep(0)
        tasks[4].cancel()
        found = await asyncio.gather(*tasks, return_exceptions=True)
        self.assertIsInstance(found.pop(4), asyncio.CancelledError)
        self.assertEqual([r.commits - self.before for r in found], [1, 2, 3, 4, 6, 7, 8, 9, 10])

    @unittest.skipUnless(TCP_PORT, "JNL_TCP_PORT names no port")
    async def test_a_port(self) -> None:
        async with await jnl.aio.connect(port=int(TCP_PORT)) as j:
            self.assertEqual(j.blocks, self.journal.blocks)
            self.assertGreaterEqual(await j.flush(), self.before)
            with self.assertRaises(jnl.Refused):
                await j.stop()

    async def test_no_port(self) -> None:
        for path, reason in [
            ("/nowhere/at/all", errno.ENOENT),
            ("/dev/null", errno.ECONNREFUSED),
            ("/a" * 100, errno.ENAMETOOLONG),
        ]:
            with self.assertRaises(jnl.NoPort) as caught:
                await jnl.aio.connect(path)
            self.assertEqual(caught.exception.errno, reason)


@unittest.skipUnless(FAULTY_PATH, "JNL_FAULTY_SOCKET names no socket")
class Faults(unittest.IsolatedAsyncioTestCase):
    async def asyncSetUp(self) -> None:
        asyncio.get_running_loop().set_debug(False)
        self.journal = await jnl.aio.connect(FAULTY_PATH, timeout=SECONDS)

    async def asyncTearDown(self) -> None:
        await self.journal.close()

    async def commits(self) -> int:
        return (await self.journal.stat()).commits

    async def commits_at_rest(self) -> int:
        """The commits once a connection that this client has closed has none under way any more."""
        found = [await self.commits()]
        while len(found) < 4 or len(set(found[-4:])) > 1:
            await asyncio.sleep(0.02)
            found.append(await self.commits())
        return found[-1]

    async def ends_of(self, bits: List[int]) -> List[Optional[type]]:
        """How commits end that are called at once."""
        calls = [self.journal.commit(parts((514, bit), b"\1")) for bit in bits]
        found = await asyncio.gather(*calls, return_exceptions=True)
        return [type(end) if isinstance(end, Exception) else None for end in found]

    async def fault(
        self, bit: int, met: Optional[type], later: Optional[type], done: range
    ) -> None:
        """Commits before one that meets a fault, that one, and commits after it."""
        before = await self.commits()
        found = await self.ends_of([FREE_BIT] * BEFORE + [bit] + [FREE_BIT] * AFTER)
        self.assertEqual(found, [None] * BEFORE + [met] + [later] * AFTER, f"bit {bit}")
        self.assertIn(await self.commits_at_rest() - before, done)

    async def test_a_loss_is_told_of_each(self) -> None:
        one_more = range(BEFORE + 1, BEFORE + 2)
        await self.fault(0, None, jnl.Lost, one_more)
        await self.fault(1, jnl.Lost, jnl.Lost, one_more)
        await self.fault(2, jnl.Lost, jnl.Lost, range(BEFORE, BEFORE + 1))
        await self.fault(3, jnl.Lost, jnl.Lost, one_more)

    async def test_other_ends_of_one(self) -> None:
        for bit in (4, 5, 6, 9):
            done = range(BEFORE + 1, BEFORE + AFTER + 2)
            await self.fault(bit, jnl.ProtocolError, jnl.Lost, done)
        all_done = range(BEFORE + AFTER + 1, BEFORE + AFTER + 2)
        await self.fault(7, jnl.Refused, jnl.Refused, range(BEFORE, BEFORE + 1))
        await self.fault(8, jnl.Unsure, None, all_done)
        await self.fault(11, None, None, all_done)

    async def test_a_loss_while_more_is_sent(self) -> None:
        """A call that waits for room is lost too, so that those which are done are the first."""
        before = await self.commits()
        found = await self.ends_of([FREE_BIT, 1] + [FREE_BIT] * MANY)
        self.assertTrue(found == [None] + [jnl.Lost] * (MANY + 1))
        self.assertEqual(await self.commits(), before + 2)

    async def test_an_answer_that_nobody_asked_for(self) -> None:
        before = await self.commits()
        self.assertEqual(await self.ends_of([12]), [None])
        self.assertEqual(await self.commits(), before + 1)

    async def test_a_connection_that_was_ended_is_made_again(self) -> None:
        before = await self.commits()
        self.assertEqual(await self.ends_of([0]), [None])
        time.sleep(0.2)  # the event loop sees nothing of the end before the next call
        self.assertEqual(await self.commits(), before + 1)

    async def test_a_limit_of_time(self) -> None:
        before = await self.commits()
        async with await jnl.aio.connect(FAULTY_PATH, timeout=3) as j:
            calls = [j.commit(parts((514, bit), b"\1")) for bit in (FREE_BIT, 14, 14)]
            done, *lost = await asyncio.gather(*calls, return_exceptions=True)
            self.assertEqual(done.commits, before + 1)
            for error in lost:
                self.assertIsInstance(error, jnl.Lost)
                self.assertIsInstance(error.__cause__, OSError)
            self.assertEqual((await j.stat()).commits, before + 3)

    async def test_no_port_in_time(self) -> None:
        for kind in ("silent", "full"):
            begin = time.monotonic()
            with self.assertRaises(jnl.NoPort) as caught:
                await jnl.aio.connect(f"{FAULTY_PATH}.{kind}", timeout=0.2)
            self.assertEqual(caught.exception.errno, errno.ETIMEDOUT)
            self.assertTrue(0.2 <= time.monotonic() - begin < SECONDS)

    async def test_an_error_of_two_moments(self) -> None:
        """The compares are refused twice, and then hold."""
        runs = []

        async def work(t: jnl.aio.Transaction) -> None:
            runs.append(t)
            await t.read(514, FREE_BIT)
            await t.read(514, 30)
            raise ValueError("not as it should be")

        with self.assertRaises(ValueError):
            await self.journal.run(work)
        self.assertEqual(len(runs), 3)


if __name__ == "__main__":
    unittest.main()
