"""Counts as clients/c/tests/counter.c does, by a client that speaks version 1 of the protocol alone.

    old_counter.py SOCKET INDEX TIMES

It is the client in Python, which is told that the newest version is 1. It prints each count that it
was told to be stable.
"""

import sys
from pathlib import Path

sys.path.insert(0, str(Path(__file__).resolve().parent.parent / "python"))
import jnl
from jnl import _records

_records.VERSION = _records.FIRST_VERSION
OF_ALL = (530, 0)
SECONDS = 60


def add_one(t, index):
    """Adds one to each of three objects. Answers the count of the first one."""
    places = [(528, 1024 * index), (529, 1024 * index), OF_ALL]
    counts = [int.from_bytes(t.read(*place)[:8], "little") + 1 for place in places]
    for place, count in zip(places, counts):
        t.write(*place, count.to_bytes(8, "little") + bytes(120))
    return counts[0]


def main():
    path, index, times = sys.argv[1], int(sys.argv[2]), int(sys.argv[3])
    with jnl.connect(path, timeout=SECONDS) as j:
        if j.disk.version != 1:
            sys.exit("the client speaks another version")
        for _ in range(times):
            print(j.run(lambda t: add_one(t, index)), flush=True)


if __name__ == "__main__":
    main()
