"""Tests of what version 2 of the protocol has, against a port and one with faults.

JNL_SOCKET is the port's socket and JNL_FAULTY_SOCKET that of clients/tests/faulty_port.py, which
lists the faults. JNL_OLD_SOCKET is that of a port of version 1.
"""

import asyncio
import os
import sys
import time
import unittest

sys.path.insert(0, os.path.join(os.path.dirname(__file__), ".."))
import jnl
import jnl.aio

PATH = os.environ.get("JNL_SOCKET", "")
FAULTY_PATH = os.environ.get("JNL_FAULTY_SOCKET", "")
OLD_PATH = os.environ.get("JNL_OLD_SOCKET", "")
BITS, RESTARTS = 514, 34
# Bits of the tests of this file.
FIRST = 28672


def restart(journal: jnl.Journal) -> None:
    """Has the port end the connection, and be another opening from then on."""
    journal.read([(BITS, RESTARTS)])
    time.sleep(0.1)


def set_bit(journal: jnl.Journal, bit: int, wait: bool = False) -> None:
    journal.commit([(jnl.WRITE, (BITS, bit), b"\1")], wait)


@unittest.skipUnless(FAULTY_PATH, "there is no port with faults")
class Restarts(unittest.TestCase):
    def setUp(self) -> None:
        self.journal = jnl.connect(FAULTY_PATH, timeout=30)
        self.addCleanup(self.journal.close)

    def test_a_lazy_commit_may_be_gone(self) -> None:
        set_bit(self.journal, 200)
        opening = self.journal.disk.opening
        restart(self.journal)
        self.assertRaises(jnl.Restarted, self.journal.flush)
        self.journal.flush()
        self.assertNotEqual(self.journal.disk.opening, opening)

    def test_it_is_told_once(self) -> None:
        set_bit(self.journal, 200)
        restart(self.journal)
        self.assertRaises(jnl.Restarted, self.journal.stat)
        restart(self.journal)
        self.journal.flush()

    def test_one_that_only_commits_lazily_is_told(self) -> None:
        set_bit(self.journal, 200)
        restart(self.journal)
        before = self.journal.stat  # not called: the commit is the next call
        self.assertRaises(jnl.Restarted, set_bit, self.journal, 201)
        self.assertGreater(before().commits, 0)

    def test_nothing_was_sent(self) -> None:
        set_bit(self.journal, 200)
        commits = self.journal.stat().commits
        set_bit(self.journal, 200)
        restart(self.journal)
        self.assertRaises(jnl.Restarted, set_bit, self.journal, 202)
        self.assertEqual(self.journal.stat().commits, commits + 1)

    def test_what_was_stable_is_not_told_of(self) -> None:
        for make_stable in (
            self.journal.flush,
            self.journal.stat,
            lambda: set_bit(self.journal, 203, wait=True),
        ):
            set_bit(self.journal, 200)
            make_stable()
            restart(self.journal)
            self.journal.flush()

    def test_run_hands_it_on(self) -> None:
        tries = []

        def work(t: jnl.Transaction) -> None:
            tries.append(t)
            t.write(BITS, 204, b"\1")

        set_bit(self.journal, 200)
        restart(self.journal)
        self.assertRaises(jnl.Restarted, self.journal.run, work)
        self.assertEqual(len(tries), 1)
        self.journal.run(work)

    def test_calls_in_flight_are_lost_first(self) -> None:
        set_bit(self.journal, 200)
        opening = self.journal.disk.opening
        with jnl.connect(FAULTY_PATH, timeout=30) as other:
            restart(other)
        self.journal.submit([(jnl.WRITE, (BITS, 1), b"\1")], tag=1)  # the port ends the connection
        answer = self.journal.next()
        assert answer is not None
        self.assertIsInstance(answer.error, jnl.Lost)
        self.assertRaises(jnl.Restarted, self.journal.flush)
        self.journal.flush()
        self.assertNotEqual(self.journal.disk.opening, opening)

    def test_commits_in_flight_are_told_of(self) -> None:
        self.journal.submit([(jnl.WRITE, (BITS, 200), b"\1")], tag=1)
        for answer in self.journal.answers():
            answer.result()
        restart(self.journal)
        self.assertRaises(jnl.Restarted, self.journal.submit, [], tag=2)
        self.assertIsNone(self.journal.next())

    def test_an_unsure_commit_is_told_of(self) -> None:
        self.assertRaises(jnl.Unsure, set_bit, self.journal, 8)
        restart(self.journal)
        self.assertRaises(jnl.Restarted, self.journal.stat)


@unittest.skipUnless(FAULTY_PATH, "there is no port with faults")
class RestartsOfTasks(unittest.IsolatedAsyncioTestCase):
    async def test_one_task_is_told(self) -> None:
        async with await jnl.aio.connect(FAULTY_PATH, timeout=30) as j:
            await j.commit([(jnl.WRITE, (BITS, 200), b"\1")])
            await j.read([(BITS, RESTARTS)])
            time.sleep(0.1)
            with self.assertRaises(jnl.Restarted):
                await j.flush()
            await j.flush()


@unittest.skipUnless(PATH, "there is no port")
class Finds(unittest.TestCase):
    def setUp(self) -> None:
        self.journal = jnl.connect(PATH, timeout=30)
        self.addCleanup(self.journal.close)

    def clear(self, *set_bits: int) -> None:
        """Clears 64 bits but for these."""
        bits = range(FIRST, FIRST + 64)
        parts = [(jnl.WRITE, (BITS, bit), bytes([bit in set_bits])) for bit in bits]
        self.journal.commit(parts)

    def test_scans(self) -> None:
        self.clear(FIRST + 2)
        found = self.journal.scan(BITS, FIRST, False, 3)
        self.assertEqual(found, [FIRST, FIRST + 1, FIRST + 3])
        self.assertEqual(self.journal.scan(BITS, FIRST, True, 1), [FIRST + 2])
        self.assertEqual(self.journal.scan(BITS, FIRST, True, 0), [])
        self.assertEqual(len(self.journal.scan(BITS) + self.journal.scan(BITS, 0, True)), 32768)
        self.assertIn(32767, self.journal.scan(BITS, 32767) + self.journal.scan(BITS, 32767, True))

    def test_scans_that_are_refused(self) -> None:
        for block, first in ((BITS, 32768), (BITS + 1, 0), (3, 0), (1 << 60, 0), (BITS, 1 << 31)):
            with self.assertRaises(jnl.Refused) as caught:
                self.journal.scan(block, first)
            self.assertEqual(caught.exception.status, 2)

    def test_a_pool(self) -> None:
        records = range(FIRST, FIRST + 64)
        self.clear(FIRST, FIRST + 63)
        pool = jnl.Pool(self.journal, BITS, records)
        taken = [self.journal.run(pool.take, wait=False) for _ in range(62)]
        self.assertEqual(sorted(taken), list(records)[1:-1])
        self.assertRaises(jnl.NoneFree, self.journal.run, pool.take)
        self.journal.run(lambda t: pool.give(t, FIRST + 9))
        self.assertEqual(self.journal.run(pool.take), FIRST + 9)
        with self.assertRaises(jnl.Refused):
            self.journal.run(lambda t: pool.give(t, FIRST + 64))

    def test_two_pools_share(self) -> None:
        self.clear()
        with jnl.connect(PATH, timeout=30) as other:
            pools = [(j, jnl.Pool(j, BITS, range(FIRST, FIRST + 64))) for j in (self.journal, other)]
            taken = [j.run(pool.take, wait=False) for _ in range(32) for j, pool in pools]
        self.assertEqual(len(set(taken)), 64)

    def test_a_pool_takes_two_in_one_transaction(self) -> None:
        self.clear(*range(FIRST, FIRST + 62))
        pool = jnl.Pool(self.journal, BITS, range(FIRST, FIRST + 64))
        both = self.journal.run(lambda t: [pool.take(t), pool.take(t)])
        self.assertEqual(sorted(both), [FIRST + 62, FIRST + 63])

    def test_counters(self) -> None:
        before = self.journal.counters()
        self.clear()
        after = self.journal.counters()
        self.assertGreater(after[1], before[1])
        self.assertLessEqual(after[2], after[1])
        self.assertEqual(list(after), sorted(after))

    def test_addresses(self) -> None:
        regions = [region.first for region in self.journal.disk.regions]
        self.assertEqual(regions, [513, 514, 515, 531])
        for address in ((3, 0), (BITS, 32768), (515, 1), (self.journal.blocks, 0)):
            with self.assertRaises(jnl.Refused) as caught:
                self.journal.read([(515, 0), address])
            self.assertEqual((caught.exception.status, caught.exception.address), (2, address))

    def test_which_object_is_refused(self) -> None:
        wrong = [((BITS, 40000), b"\1", 2), ((BITS, 7), b"\2", 3), ((515, 0), bytes(4097), 3)]
        for address, value, status in wrong:
            t = self.journal.begin()
            for block, bit, of in ((515, 1024, bytes(128)), (*address, value), (516, 1024, b"")):
                t.write(block, bit, of)
            with self.assertRaises(jnl.Refused) as caught:
                t.commit()
            self.assertEqual((caught.exception.status, caught.exception.address), (status, address))

    def test_expected_values(self) -> None:
        self.clear(FIRST + 1)
        t = self.journal.begin()
        t.expect(BITS, FIRST, b"\1")
        self.assertRaises(jnl.Conflict, t.commit)
        self.assertRaises(jnl.Conflict, t.expect, BITS, FIRST, b"\0")


@unittest.skipUnless(PATH, "there is no port")
class FindsOfTasks(unittest.IsolatedAsyncioTestCase):
    async def test_many_tasks_take_from_a_pool(self) -> None:
        async with await jnl.aio.connect(PATH, timeout=30) as j:
            bits = range(FIRST, FIRST + 64)
            await j.commit([(jnl.WRITE, (BITS, bit), b"\0") for bit in bits])
            pool = jnl.aio.Pool(j, BITS, bits)
            taken = await asyncio.gather(*(j.run(pool.take, wait=False) for _ in bits))
            self.assertEqual(sorted(taken), list(bits))
            with self.assertRaises(jnl.NoneFree):
                await j.run(pool.take)
            await j.run(lambda t: pool.give(t, FIRST + 9))
            self.assertEqual(await j.run(pool.take), FIRST + 9)
            with self.assertRaises(jnl.Refused):
                await j.run(lambda t: pool.give(t, FIRST + 64))


@unittest.skipUnless(OLD_PATH, "there is no port of version 1")
class Old(unittest.TestCase):
    def test_a_port_of_version_1(self) -> None:
        with jnl.connect(OLD_PATH, timeout=30) as j:
            self.assertEqual(j.disk.version, 1)
            self.assertEqual(j.disk.regions, ())
            set_bit(j, FIRST)
            self.assertEqual(j.read([(BITS, FIRST)]), [b"\1"])
            commits = j.stat().commits
            for call in (j.counters, lambda: j.scan(BITS)):
                with self.assertRaises(jnl.Refused) as caught:
                    call()
                self.assertEqual(caught.exception.status, 69)
            self.assertEqual(j.stat().commits, commits)
            with self.assertRaises(jnl.Refused) as caught:
                j.read([(3, 0)])
            self.assertEqual((caught.exception.status, caught.exception.address), (2, None))


@unittest.skipUnless(OLD_PATH, "there is no port of version 1")
class OldOfTasks(unittest.IsolatedAsyncioTestCase):
    async def test_a_port_of_version_1(self) -> None:
        async with await jnl.aio.connect(OLD_PATH, timeout=30) as j:
            self.assertEqual(j.disk.version, 1)
            with self.assertRaises(jnl.Refused) as caught:
                await j.scan(BITS)
            self.assertEqual(caught.exception.status, 69)
            with self.assertRaises(jnl.Refused) as caught:
                await j.read([(3, 0)])
            self.assertEqual((caught.exception.status, caught.exception.address), (2, None))
            await j.flush()


if __name__ == "__main__":
    unittest.main()
