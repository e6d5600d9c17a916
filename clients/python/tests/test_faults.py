"""Tests of the client against a port with faults: JNL_FAULTY_SOCKET names the socket of
clients/tests/faulty_port.py, which lists the faults.

    JNL_FAULTY_SOCKET=/tmp/faulty.sock python3 -m unittest discover -s tests
"""

import errno
import os
import sys
import time
import unittest

sys.path.insert(0, os.path.join(os.path.dirname(__file__), ".."))

import jnl  # noqa: E402

PATH = os.environ.get("JNL_FAULTY_SOCKET", "")
# The most seconds that a call with a limit may take where the machine has other work.
PATIENCE = 20


@unittest.skipUnless(PATH, "JNL_FAULTY_SOCKET names no socket")
class Faults(unittest.TestCase):
    def setUp(self) -> None:
        self.journal = jnl.connect(PATH, timeout=30)
        self.addCleanup(self.journal.close)
        self.before = self.journal.stat().commits

    def commit(self, bit: int) -> None:
        t = self.journal.begin()
        t.write(514, bit, b"\1")
        t.commit()
        if bit in (0, 13):
            time.sleep(0.2)  # the port ends the connection behind its answer

    def want_commits(self, more: int) -> None:
        """The next call does well, and the commit was done so many times."""
        self.assertEqual(self.journal.stat().commits, self.before + more)

    def test_a_connection_that_was_ended_is_made_again(self) -> None:
        self.commit(0)
        self.want_commits(1)

    def test_a_commit_without_an_answer_is_not_sent_again(self) -> None:
        for bit, commits in [(1, 1), (2, 1), (3, 2)]:
            with self.assertRaises(jnl.Lost):
                self.commit(bit)
            self.want_commits(commits)

    def test_run_does_not_send_it_again(self) -> None:
        with self.assertRaises(jnl.Lost):
            self.journal.run(lambda t: t.write(514, 1, b"\1"))
        self.want_commits(1)

    def test_answers_that_are_none(self) -> None:
        for bit in (4, 5, 6, 9):
            with self.assertRaises(jnl.ProtocolError):
                self.commit(bit)
            self.journal.stat()

    def test_a_session_that_has_ended_is_begun_again(self) -> None:
        with self.assertRaises(jnl.Refused) as caught:
            self.commit(7)
        self.assertEqual(caught.exception.status, 14)
        self.want_commits(0)

    def test_unsure(self) -> None:
        with self.assertRaises(jnl.Unsure) as caught:
            self.commit(8)
        self.assertEqual(caught.exception.receipt.commits, self.before + 1)
        self.want_commits(1)

    def test_a_conflict_is_run_again(self) -> None:
        tries = []
        self.journal.run(lambda t: tries.append(t.write(514, 10, b"\1")))
        self.assertEqual(len(tries), 4)
        self.want_commits(1)

    def test_tries_have_an_end(self) -> None:
        with self.assertRaises(jnl.Conflict):
            self.journal.run(lambda t: t.write(514, 10, b"\1"), tries=3)
        self.journal.run(lambda t: t.write(514, 10, b"\1"), tries=1)
        self.want_commits(1)

    def fail_after(self, *reads: tuple, **how: int) -> tuple:
        """Runs work that reads objects one by one, waits and fails. What `run` raises, and how
        often the work was run."""
        runs = []

        def work(t: jnl.Transaction) -> None:
            runs.append(t)
            for address in reads:
                t.read(*address)
            time.sleep(0.2 if (514, 32) in reads else 0)
            raise ValueError("not as it should be")

        try:
            self.journal.run(work, **how)
        except Exception as error:
            return error, len(runs)
        return None, len(runs)

    def test_an_error_is_handed_on_where_what_was_read_still_holds(self) -> None:
        error, runs = self.fail_after((514, 100), (514, 30))
        self.assertEqual((type(error), runs), (ValueError, 3))
        self.want_commits(1)

    def test_an_error_of_two_moments_is_a_conflict_in_the_end(self) -> None:
        error, runs = self.fail_after((514, 100), (514, 30), tries=2)
        self.assertEqual((type(error), runs), (jnl.Conflict, 2))
        self.assertIsInstance(error.__context__, ValueError)
        error, runs = self.fail_after((514, 100), (514, 30), tries=1)
        self.assertEqual((type(error), runs), (ValueError, 1))

    def test_an_error_while_the_port_does_not_answer(self) -> None:
        for bit, wanted in [(31, jnl.Lost), (32, jnl.NoPort), (33, jnl.Refused)]:
            error, runs = self.fail_after((514, 100), (514, bit))
            self.assertEqual((type(error), runs), (wanted, 1))
            while error and not isinstance(error, ValueError):
                error = error.__context__
            self.assertIsInstance(error, ValueError, f"bit {bit}: what the work has raised")
            self.want_commits(0)

    def test_an_error_after_one_request_asks_nothing(self) -> None:
        error, runs = self.fail_after((514, 31))
        self.assertEqual((type(error), runs), (ValueError, 1))

        def work(t: jnl.Transaction) -> None:
            t.read_many([(514, 100), (514, 31)])
            t.read(514, 31)
            raise ValueError

        with self.assertRaises(ValueError):
            self.journal.run(work)
        self.want_commits(0)

    def test_a_refused_address_is_judged_as_an_error_of_the_work(self) -> None:
        error, runs = self.fail_after((514, 100), (514, 30), (3, 0))
        self.assertEqual((error.status, runs), (2, 3))

    def test_a_refused_commit_is_judged_as_an_error_of_the_work(self) -> None:
        for address in ((3, 0), (-1, 0)):
            runs = []

            def work(t: jnl.Transaction) -> None:
                runs.append((t.read(514, 100), t.read(514, 30)))
                t.write(*address, bytes(4096))

            with self.assertRaises(jnl.Refused) as caught:
                self.journal.run(work)
            self.assertEqual((caught.exception.status, len(runs)), (2, 3))
        self.want_commits(2)

    def test_a_failure_of_the_port_is_handed_on_at_once(self) -> None:
        self.commit(20)
        error, runs = self.fail_after((514, 100), (514, 31), (514, 20))
        self.assertEqual((type(error), runs), (jnl.ProtocolError, 1))
        self.want_commits(1)

    def test_an_answer_in_pieces(self) -> None:
        self.commit(11)
        self.want_commits(1)

    def test_an_answer_that_nobody_asked_for(self) -> None:
        self.commit(12)
        self.want_commits(1)

    def test_another_version(self) -> None:
        self.commit(13)
        with self.assertRaises(jnl.ProtocolError):
            self.journal.stat()
        self.want_commits(1)

    def test_a_port_that_does_not_answer(self) -> None:
        with jnl.connect(PATH, timeout=2) as j:
            t = j.begin()
            t.write(514, 14, b"\1")
            with self.assertRaises(jnl.Lost):
                t.commit()
            self.assertEqual(j.stat().commits, self.before + 1)

    def test_values_that_are_none(self) -> None:
        for bit in (20, 21, 22):
            self.commit(bit)
            with self.assertRaises(jnl.ProtocolError):
                self.journal.read([(514, bit)])
            self.assertEqual(self.journal.read([(514, bit)]), [b"\1"])

    def test_a_limit_is_of_the_whole_call(self) -> None:
        with jnl.connect(PATH, timeout=2) as j:
            t, begin = j.begin(), time.monotonic()
            t.write(514, 15, b"\1")
            with self.assertRaises(jnl.Lost):
                t.commit()
            self.assertLess(time.monotonic() - begin, PATIENCE)

    def test_no_port(self) -> None:
        for path, reason in [
            ("/nowhere/at/all", errno.ENOENT),
            ("/dev/null", errno.ECONNREFUSED),
            ("/a" * 100, errno.ENAMETOOLONG),
        ]:
            with self.assertRaises(jnl.NoPort) as caught:
                jnl.connect(path)
            self.assertEqual(caught.exception.errno, reason)

    def test_no_port_in_time(self) -> None:
        for kind in ("silent", "full"):
            begin = time.monotonic()
            with self.assertRaises(jnl.NoPort) as caught:
                jnl.connect(f"{PATH}.{kind}", timeout=0.2)
            self.assertEqual(caught.exception.errno, errno.ETIMEDOUT)
            self.assertTrue(0.2 <= time.monotonic() - begin < PATIENCE)


if __name__ == "__main__":
    unittest.main()
