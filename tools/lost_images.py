"""Images that losses of power leave of a disk, one after another, made in one file.

A module: `lose-tree` uses it. What was done to the disk is in a trace (`trace_disk.c`), which may be
larger than the memory. An image is made of a moment of it: what was written before the last sync
began that had ended by then, and of each later write its whole block or nothing, at random. The file
is sparse, and from one image to the next only blocks are written that differ. So an image of a disk
with a file of a GiB takes no longer than what is done with it.
"""

import array
import contextlib
import os
import subprocess
from typing import NamedTuple

from traced_disk import BLOCK, HEAD, SYNC, WRITE


class Head(NamedTuple):
    """What is noted of something that happened, without the bytes of a write: their place is that in
    the trace."""

    kind: int
    number: int
    size: int
    place: int


class Trace:
    """The heads of a trace, but for one at its end that a kill cut off."""

    def __init__(self, path):
        self.file = os.open(path, os.O_RDONLY)
        self.columns = array.array("B"), array.array("Q"), array.array("I"), array.array("Q")
        self.read_heads(path.stat().st_size)

    def read_heads(self, length):
        place = 0
        while place + HEAD.size <= length:
            kind, size, number = HEAD.unpack(os.pread(self.file, HEAD.size, place))
            place += HEAD.size
            if place + size <= length:
                for column, value in zip(self.columns, (kind, number, size, place)):
                    column.append(value)
            place += size

    def __len__(self):
        return len(self.columns[0])

    def __getitem__(self, place):
        return Head(*(column[place] for column in self.columns))

    def __iter__(self):
        return (Head(*values) for values in zip(*self.columns))

    def count(self, kind):
        return self.columns[0].count(kind)

    def bytes_at(self, place, size):
        return os.pread(self.file, size, place)

    def close(self):
        os.close(self.file)


class LostImages:
    """The file of the images. It goes from moment to moment, and not back. It needs the disk as it
    was before the trace only when it is made."""

    def __init__(self, base, trace, path):
        subprocess.run(["cp", "--sparse=always", base, path], check=True)
        self.trace, self.path = trace, path
        self.file = os.open(path, os.O_RDWR)
        self.moment, self.writes = 0, 0
        # Of each block its writes that no sync covers, the oldest first: each with its number, and the
        # place of its bytes in the trace.
        self.pending = {}

    def go_on(self, moment):
        for head in map(self.trace.__getitem__, range(self.moment, moment)):
            if head.kind == WRITE:
                self.write(head)
            elif head.kind == SYNC:
                self.sync(head.number)
        self.moment = moment

    def write(self, head):
        if head.number % BLOCK or head.size % BLOCK:
            raise OSError(f"a write of {head.size} bytes at byte {head.number}: not of whole blocks")
        for start in range(0, head.size, BLOCK):
            waiting = self.pending.setdefault((head.number + start) // BLOCK, [])
            waiting.append((self.writes, head.place + start))
        self.writes += 1

    def sync(self, begun):
        """A sync before which so many writes had begun."""
        for block, waiting in list(self.pending.items()):
            covered = [place for number, place in waiting if number < begun]
            if covered:
                self.put(block, self.trace.bytes_at(covered[-1], BLOCK))
            self.pending[block] = waiting[len(covered) :]
            if not self.pending[block]:
                del self.pending[block]

    def put(self, block, data):
        os.pwrite(self.file, data, BLOCK * block)

    @contextlib.contextmanager
    def lost(self, choice, keep, changes):
        """The file as a loss of power leaves it, each write that no sync covers with the chance `keep`.
        Afterwards it is as it was before: what was done to it meanwhile is in the file `changes`, by
        `trace_disk.c` with KEEP_OLD."""
        before = {block: os.pread(self.file, BLOCK, BLOCK * block) for block in self.pending}
        for block, waiting in self.pending.items():
            kept = [place for _, place in waiting if choice.random() < keep]
            if kept:
                self.put(block, self.trace.bytes_at(kept[-1], BLOCK))
        changes.write_bytes(b"")
        yield self.path
        self.undo(changes)
        for block, data in before.items():
            self.put(block, data)

    def undo(self, changes):
        """Takes back what was done to the file, the last first."""
        done = Trace(changes)
        for head in reversed(list(done)):
            if head.kind == WRITE:
                os.pwrite(self.file, done.bytes_at(head.place, head.size), head.number)
        done.close()

    def close(self):
        os.close(self.file)
        self.trace.close()
