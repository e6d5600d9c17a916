"""Tests of many commits in flight, against a running port and against one with faults. See
test_jnl.py and test_faults.py for the names of their sockets.

    JNL_SOCKET=/tmp/disk.sock JNL_FAULTY_SOCKET=/tmp/faulty.sock \\
        python3 -m unittest discover -s tests
"""

import os
import sys
import time
import unittest
from typing import Optional, Type

sys.path.insert(0, os.path.join(os.path.dirname(__file__), ".."))

import jnl  # noqa: E402

PATH = os.environ.get("JNL_SOCKET", "")
FAULTY_PATH = os.environ.get("JNL_FAULTY_SOCKET", "")

MANY, MOST, BEFORE, AFTER, SECONDS = 10000, 16384, 20, 30, 60
FREE_BIT = 201


def value_of(n: int) -> bytes:
    return n.to_bytes(8, "little") + bytes(120)


class Flights(unittest.TestCase):
    def open(self, path: str, timeout: float) -> None:
        self.journal = jnl.connect(path, timeout=timeout)
        self.addCleanup(self.journal.close)
        self.before = self.journal.stat().commits

    def submit(self, address: tuple, value: bytes, tag: object, wait: bool = False) -> None:
        t = self.journal.begin()
        t.write(*address, value)
        t.submit(wait, tag)

    def take(self, tag: object, error: Optional[Type[Exception]] = None) -> jnl.Answer:
        """Takes an answer, and wants it to be this one's."""
        answer = self.journal.next()
        self.assertIsNotNone(answer)
        self.assertEqual((answer.tag, type(answer.error)), (tag, error or type(None)))
        return answer

    def take_none(self) -> None:
        self.assertEqual(self.journal.in_flight, 0)
        self.assertIsNone(self.journal.next())


@unittest.skipUnless(PATH, "JNL_SOCKET names no socket")
class Done(Flights):
    def setUp(self) -> None:
        self.open(PATH, SECONDS)

    def test_answers_come_in_order(self) -> None:
        self.take_none()
        for i in range(MANY):
            self.submit((525, 3072), value_of(i), i, wait=i % 500 == 0)
        self.assertEqual(self.journal.in_flight, MANY)
        for i in range(MANY):
            self.assertEqual(self.take(i).receipt.commits, self.before + i + 1)
        self.take_none()

    def test_a_conflict_is_refused_alone(self) -> None:
        late = []
        for i in range(10):
            late.append(self.journal.begin())
            late[i].read(525, 4096 if i % 2 else 5120)
            late[i].write(525, 6144, value_of(i))
        self.submit((525, 5120), value_of(self.before + 1), "first")
        for i, t in enumerate(late):
            t.submit(tag=i)
        self.take("first")
        for i in range(10):
            self.take(i, None if i % 2 else jnl.Conflict)
        self.assertEqual(self.journal.stat().commits, self.before + 6)

    def test_a_refusal_is_of_one_alone(self) -> None:
        self.submit((525, 7168), value_of(1), 1)
        self.submit((3, 0), b"", 2)
        self.submit((525, 7168), value_of(3), 3, wait=True)
        self.take(1)
        answer = self.take(2, jnl.Refused)
        with self.assertRaises(jnl.Refused) as caught:
            answer.result()
        self.assertEqual(caught.exception.status, 2)
        self.assertEqual(self.take(3).result().commits, self.before + 2)

    def test_other_calls_are_answered_after_those_in_flight(self) -> None:
        for i in range(40):
            self.submit((525, 8192), value_of(i + 1), i)
            if i % 8 == 0:
                self.assertEqual(self.journal.read([(525, 8192)]), [value_of(i + 1)])
                self.assertEqual(self.journal.stat().commits, self.before + i + 1)
                self.journal.flush()
        found = [answer.result().commits for answer in self.journal.answers()]
        self.assertEqual(found, [self.before + i + 1 for i in range(40)])
        self.take_none()

    def test_long_records(self) -> None:
        for i in range(40):
            t = self.journal.begin()
            for b in range(1 if i % 3 else 100):
                t.write(540 + b, 0, bytes([(i + b + 1) % 256]) * 4096)
            t.submit(tag=i)
        for i in range(40):
            self.take(i)
        self.assertEqual(self.journal.read([(639, 0)]), [bytes([139]) * 4096])

    def test_as_many_as_may_be(self) -> None:
        for i in range(MOST):
            self.journal.submit([], tag=i)
        with self.assertRaises(jnl.Full):
            self.journal.submit([])
        self.take(0)
        self.journal.submit([], tag=MOST)
        for i in range(1, MOST + 1):
            self.take(i)
        self.take_none()

    def test_what_is_held_back_is_pushed(self) -> None:
        with jnl.connect(PATH, timeout=SECONDS) as other:
            self.submit((525, 9216), value_of(1), 1)
            self.journal.push()
            while other.stat().commits == self.before:
                pass
            self.take(1)


@unittest.skipUnless(FAULTY_PATH, "JNL_FAULTY_SOCKET names no socket")
class Faults(Flights):
    def setUp(self) -> None:
        self.open(FAULTY_PATH, SECONDS)

    def submit_bit(self, bit: int, tag: object) -> None:
        self.submit((514, bit), b"\1", tag)

    def nothing_is_sent(self) -> None:
        """While answers of a lost connection are not taken."""
        with self.assertRaises(jnl.Lost):
            self.submit_bit(FREE_BIT, None)
        with self.assertRaises(jnl.Lost):
            self.journal.flush()

    def commits_at_rest(self) -> int:
        """The commits once a connection that this client has closed has none under way any more."""
        found = [self.journal.stat().commits]
        while len(found) < 4 or len(set(found[-4:])) > 1:
            time.sleep(0.02)
            found.append(self.journal.stat().commits)
        return found[-1]

    def fault(self, bit: int, met: Optional[type], later: Optional[type], done: range) -> None:
        """Commits before one that meets a fault, that one, and commits after it. So many are done,
        and those are answered so that the fault meets and that come later."""
        before = self.journal.stat().commits
        tags = range(BEFORE + 1 + AFTER)
        for i in tags:
            self.submit_bit(bit if i == BEFORE else FREE_BIT, i)
        for i in tags[:BEFORE]:
            self.take(i)
        self.take(BEFORE, met)
        for i in tags[BEFORE + 1 :]:
            self.take(i, later)
            if later is jnl.Lost and i != tags[-1]:
                self.nothing_is_sent()
        self.take_none()
        self.assertIn(self.commits_at_rest() - before, done)

    def test_a_loss_is_told_of_each_in_order(self) -> None:
        self.fault(0, None, jnl.Lost, range(BEFORE + 1, BEFORE + 2))
        self.fault(1, jnl.Lost, jnl.Lost, range(BEFORE + 1, BEFORE + 2))
        self.fault(2, jnl.Lost, jnl.Lost, range(BEFORE, BEFORE + 1))
        self.fault(3, jnl.Lost, jnl.Lost, range(BEFORE + 1, BEFORE + 2))

    def test_answers_that_are_none(self) -> None:
        for bit in (4, 5, 6, 9):
            done = range(BEFORE + 1, BEFORE + AFTER + 2)
            self.fault(bit, jnl.ProtocolError, jnl.Lost, done)

    def test_other_ends_of_one(self) -> None:
        self.fault(7, jnl.Refused, jnl.Refused, range(BEFORE, BEFORE + 1))
        self.fault(8, jnl.Unsure, None, range(BEFORE + AFTER + 1, BEFORE + AFTER + 2))
        self.fault(11, None, None, range(BEFORE + AFTER + 1, BEFORE + AFTER + 2))

    def test_a_loss_while_more_is_sent(self) -> None:
        self.submit_bit(FREE_BIT, 0)
        self.submit_bit(1, 1)
        submitted = 2
        with self.assertRaises(jnl.Lost):
            for submitted in range(2, MANY):
                self.submit_bit(FREE_BIT, submitted)
        self.assertEqual(self.journal.in_flight, submitted)
        self.take(0)
        for i in range(1, submitted):
            self.take(i, jnl.Lost)
        self.take_none()
        self.assertEqual(self.journal.stat().commits, self.before + 2)

    def test_another_call_is_lost(self) -> None:
        for i in range(BEFORE):
            self.submit_bit(FREE_BIT if i < BEFORE - 1 else 0, i)
        with self.assertRaises(jnl.Lost):
            self.journal.stat()
        self.journal.stat()  # none in flight was lost, so the next call goes on
        for i in range(BEFORE):
            self.take(i)
        self.take_none()

    def test_another_call_after_an_answer_in_pieces(self) -> None:
        self.submit_bit(11, 1)
        self.assertEqual(self.journal.stat().commits, self.before + 1)
        self.take(1)

    def test_a_limit_of_time(self) -> None:
        self.open(FAULTY_PATH, 1)
        for i, bit in enumerate((FREE_BIT, 14, 14)):
            self.submit_bit(bit, i)
        self.take(0)
        for i in (1, 2):
            self.assertIsInstance(self.take(i, jnl.Lost).error.__cause__, OSError)
        self.assertEqual(self.journal.stat().commits, self.before + 3)

    def test_a_connection_that_is_closed(self) -> None:
        self.submit_bit(FREE_BIT, 0)
        self.submit_bit(14, 1)
        self.take(0)
        self.journal.close()
        self.take(1, jnl.Lost)
        self.take_none()


if __name__ == "__main__":
    unittest.main()
