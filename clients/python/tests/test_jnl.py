"""Tests of the client against a running port: JNL_SOCKET names its socket, and JNL_TCP_PORT
its TCP port, if it has one.

    JNL_SOCKET=/tmp/disk.sock python3 -m unittest discover -s tests
"""

import os
import random
import socket
import struct
import sys
import threading
import time
import unittest
from typing import Callable

sys.path.insert(0, os.path.join(os.path.dirname(__file__), ".."))

import jnl  # noqa: E402

PATH = os.environ.get("JNL_SOCKET", "")
TCP_PORT = os.environ.get("JNL_TCP_PORT", "")

SUMS, SECONDS_OF_SUMS = 5000, 30
ACCOUNTS = [(515 + i // 32, 1024 * (i % 32)) for i in range(8)]


def number(value: bytes) -> int:
    return int.from_bytes(value[:8], "little")


def value_of(n: int) -> bytes:
    return n.to_bytes(8, "little") + bytes(120)


def exchange(records: bytes) -> bytes:
    """What the port answers to some bytes, up to its end of the connection."""
    with socket.socket(socket.AF_UNIX, socket.SOCK_STREAM) as s:
        s.settimeout(10)
        s.connect(PATH)
        s.sendall(records)
        s.shutdown(socket.SHUT_WR)
        found = b""
        while piece := s.recv(65536):
            found += piece
        return found


@unittest.skipUnless(PATH, "JNL_SOCKET names no socket")
class Journal(unittest.TestCase):
    def setUp(self) -> None:
        self.journal = jnl.connect(PATH, timeout=30)
        self.addCleanup(self.journal.close)

    def test_a_value_is_read_as_it_was_written(self) -> None:
        block = bytes(range(256)) * 16
        t = self.journal.begin()
        t.write(531, 0, block)
        t.write(514, 3, b"\1")
        t.write(516, 1024, value_of(7))
        receipt = t.commit(wait=True)
        found = self.journal.read([(531, 0), (514, 3), (516, 1024)])
        self.assertEqual(found, [block, b"\1", value_of(7)])
        self.assertGreaterEqual(self.journal.stat().stable, receipt.commits)

    def test_a_transaction_reads_what_it_wrote(self) -> None:
        t = self.journal.begin()
        t.write(516, 2048, value_of(5))
        self.assertEqual(number(t.read(516, 2048)), 5)
        t.commit()

    def test_many_are_read_at_once(self) -> None:
        one, other, written = (516, 4096), (516, 5120), (516, 6144)
        self.journal.run(lambda t: t.write(*one, value_of(1)))
        t = self.journal.begin()
        t.write(*written, value_of(3))
        self.assertEqual(t.read_many([]), [])
        with self.assertRaises(jnl.Refused):
            t.read_many([one, (3, 0)])
        found = t.read_many([other, one, written, one])
        self.assertEqual(found, [t.read(*other), value_of(1), value_of(3), value_of(1)])
        self.journal.run(lambda t: t.write(*one, value_of(2)))
        self.assertEqual(t.read_many([one]), [value_of(1)])
        with self.assertRaises(jnl.Conflict):
            t.commit()

    def test_a_conflict_changes_nothing(self) -> None:
        self.journal.run(lambda t: t.write(516, 3072, value_of(1)))
        late = self.journal.begin()
        late.read(516, 3072)
        self.journal.run(lambda t: t.write(516, 3072, value_of(2)))
        late.write(516, 3072, value_of(9))
        with self.assertRaises(jnl.Conflict):
            late.commit()
        self.assertEqual(self.journal.read([(516, 3072)]), [value_of(2)])

    def test_work_that_gives_up_changes_nothing(self) -> None:
        (before,) = self.journal.read([(516, 9216)])

        def work(t: jnl.Transaction) -> None:
            t.read(516, 9216)
            t.read(516, 10240)
            t.write(516, 9216, value_of(99))
            raise ValueError

        with self.assertRaises(ValueError):
            self.journal.run(work)
        self.assertEqual(self.journal.read([(516, 9216)]), [before])

    def test_run_leaves_its_receipt(self) -> None:
        self.assertIsNone(self.journal.last_receipt)
        self.journal.run(lambda t: t.write(516, 7168, value_of(1)))
        receipt, stat = self.journal.last_receipt, self.journal.stat()
        self.assertTrue(0 < receipt.commits <= stat.stable)

        def fail(t: jnl.Transaction) -> None:
            t.read(516, 7168)
            t.read(516, 8192)
            raise ValueError

        with self.assertRaises(ValueError):
            self.journal.run(fail)
        self.assertEqual(self.journal.last_receipt, receipt)

    def test_refusals(self) -> None:
        for block, bit, value, status in [
            (3, 0, bytes(4096), 2),
            (514, 0, b"\2", 3),
            (515, 1024, bytes(127), 3),
        ]:
            t = self.journal.begin()
            t.write(block, bit, value)
            with self.assertRaises(jnl.Refused) as caught:
                t.commit()
            self.assertEqual(caught.exception.status, status)

    def want_refused(self, status: int, call: Callable[[], object]) -> None:
        with self.assertRaises(jnl.Refused) as caught:
            call()
        self.assertEqual(caught.exception.status, status)

    def test_what_no_record_holds(self) -> None:
        before = self.journal.stat().commits
        many = [(514, bit) for bit in range(8192, 8192 + 4097)]
        self.want_refused(4, lambda: self.journal.read(many[:257]))
        self.want_refused(4, lambda: self.journal.begin().read_many(many[:257]))
        self.want_refused(4, lambda: self.journal.commit([(1, a, b"\1") for a in many]))
        blocks = [(1, (531, 0), bytes(4096))] * 510
        self.want_refused(4, lambda: self.journal.commit(blocks))
        self.want_refused(3, lambda: self.journal.commit([(1, (531, 0), bytes(4097))]))
        self.assertEqual(self.journal.stat().commits, before)
        self.assertEqual(len(self.journal.read(many[:256])), 256)
        self.journal.commit([(0, a, b"\0") for a in many[:4096]])

    def test_many_distinct_blocks(self) -> None:
        if self.journal.blocks < 531 + 129:
            self.skipTest("the disk is too small")
        t = self.journal.begin()
        for block in range(531, 531 + 129):
            t.write(block, 0, bytes(4096))
        with self.assertRaises(jnl.Refused) as caught:
            t.commit()
        self.assertEqual(caught.exception.status, 4)

    def test_transfers_keep_the_sum(self) -> None:
        def begin(t: jnl.Transaction) -> None:
            for account in ACCOUNTS:
                t.write(*account, value_of(100))

        self.journal.run(begin)

        def transfer(seed: int) -> None:
            with jnl.connect(PATH, timeout=60) as j:
                for i in range(50):
                    a, b = ACCOUNTS[(seed + i) % 8], ACCOUNTS[(seed + 3 * i + 1) % 8]

                    def move(t: jnl.Transaction) -> None:
                        if a != b and number(t.read(*a)) > 0:
                            t.write(*a, value_of(number(t.read(*a)) - 1))
                            t.write(*b, value_of(number(t.read(*b)) + 1))

                    j.run(move, wait=False)

        threads = [threading.Thread(target=transfer, args=(n,)) for n in range(4)]
        for thread in threads:
            thread.start()
        for thread in threads:
            thread.join()
        self.assertEqual(sum(map(number, self.journal.read(ACCOUNTS))), 800)

    def test_run_raises_nothing_that_two_moments_caused(self) -> None:
        places, ends = [(518, 0), (518, 1024)], time.monotonic() + SECONDS_OF_SUMS
        self.journal.run(lambda t: [t.write(*place, value_of(50)) for place in places])
        is_over = threading.Event()

        def move() -> None:
            with jnl.connect(PATH, timeout=60) as j:

                def one_step(t: jnl.Transaction) -> None:
                    a, b = map(number, t.read_many(places))
                    step = random.randint(-b, a)
                    t.write(*places[0], value_of(a - step))
                    t.write(*places[1], value_of(b + step))

                while not is_over.wait(0.0005):
                    j.run(one_step, wait=False)

        def want_the_sum(t: jnl.Transaction) -> None:
            a, b = (number(t.read(*place)) for place in places)
            if a + b != 100:
                raise ValueError(f"{a} + {b}")

        threads = [threading.Thread(target=move) for _ in range(2)]
        for thread in threads:
            thread.start()
        try:
            for _ in range(SUMS):
                self.journal.run(want_the_sum, wait=False)
                if time.monotonic() > ends:
                    break
        finally:
            is_over.set()
            for thread in threads:
                thread.join()

    @unittest.skipUnless(TCP_PORT, "JNL_TCP_PORT names no port")
    def test_tcp(self) -> None:
        with jnl.connect(port=int(TCP_PORT), timeout=30) as j:
            j.run(lambda t: t.write(517, 0, value_of(3)))
            with self.assertRaises(jnl.Refused) as caught:
                j.stop()
            self.assertEqual(caught.exception.status, 70)
        self.assertEqual(self.journal.read([(517, 0)]), [value_of(3)])

    def test_the_examples_of_the_page(self) -> None:
        hello = bytes.fromhex("00000008 00000000 00000001")
        answer = exchange(hello)
        self.assertEqual(answer[:16], bytes.fromhex("00000014 00000000 00000000 00000001"))
        self.assertEqual(int.from_bytes(answer[16:], "big"), self.journal.blocks)

    def test_records_that_are_none(self) -> None:
        def record(*words: int) -> bytes:
            return struct.pack(f">{len(words) + 1}I", 4 * len(words), *words)

        records = [record(8), record(3, 0), record(0, 9), record(), record(4, 1)]
        found = exchange(b"".join(records) + struct.pack(">I", 2097153))
        statuses = [int.from_bytes(found[i + 4 : i + 8], "big") for i in range(0, len(found), 8)]
        self.assertEqual(statuses, [66, 67, 69, 67, 67, 68])

    def test_a_record_in_pieces(self) -> None:
        with socket.socket(socket.AF_UNIX, socket.SOCK_STREAM) as s:
            s.settimeout(10)
            s.connect(PATH)
            for byte in bytes.fromhex("00000008 00000000 00000001 00000004 00000004"):
                s.sendall(bytes([byte]))
            found = b""
            while len(found) < 24 + 28:
                found += s.recv(65536)
            self.assertEqual(found[24:36], bytes.fromhex("00000018 00000000 00000004"))


if __name__ == "__main__":
    unittest.main()
