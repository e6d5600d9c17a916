"""A test of the client against a running port of a disk with a layout of its own:
JNL_LAYOUT_SOCKET names its socket. Its regions are 513:block, 514:bit and 515:record64.
"""

import os
import sys
import unittest

sys.path.insert(0, os.path.join(os.path.dirname(__file__), ".."))

import jnl  # noqa: E402

PATH = os.environ.get("JNL_LAYOUT_SOCKET", "")

HEAD = b"TEST 513:block 514:bit 515:record64".ljust(4096, b"\0")
RECORD_BITS = 512


@unittest.skipUnless(PATH, "JNL_LAYOUT_SOCKET names no socket")
class Layout(unittest.TestCase):
    def setUp(self) -> None:
        self.journal = jnl.connect(PATH, timeout=30)
        self.addCleanup(self.journal.close)
        self.last = self.journal.blocks - 1

    def test_objects_are_of_the_kinds_of_their_regions(self) -> None:
        bit, record = (514, 32767), (self.last, 63 * RECORD_BITS)
        value = bytes(range(64))

        def work(t: jnl.Transaction) -> None:
            self.assertIn(t.read(513, 0), (bytes(4096), HEAD))
            t.write(513, 0, HEAD)
            t.write(*bit, b"\1")
            t.write(*record, value)

        self.journal.run(work)
        found = self.journal.read([(513, 0), bit, record, (self.last, 0)])
        self.assertEqual(found, [HEAD, b"\1", value, bytes(64)])

    def test_what_no_region_has_is_refused(self) -> None:
        for block, bit, value, status in [
            (self.last + 1, 0, bytes(64), 2),
            (515, RECORD_BITS // 2, bytes(64), 2),
            (515, 0, bytes(128), 3),
            (531, 0, bytes(4096), 3),
        ]:
            t = self.journal.begin()
            t.write(block, bit, value)
            with self.assertRaises(jnl.Refused) as caught:
                t.commit()
            self.assertEqual(caught.exception.status, status)


if __name__ == "__main__":
    unittest.main()
