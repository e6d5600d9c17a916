"""What tools need that lose power: a run of `jnl serve` under trace_disk.c, what was noted of it, and the device.

The file of the disk is what the system's memory has of it, which reads give. The device is what a loss of power leaves. A write
is pending until a sync, begun after it, has succeeded. Each block of the device is whole: what it held when it was last synced,
or a pending write.
"""

import os
import struct
import subprocess
import sys
import time
from pathlib import Path
from typing import NamedTuple

TOP = Path(__file__).resolve().parent.parent
sys.path.insert(0, str(TOP / "clients" / "python"))
import jnl

BLOCK = 4096
SECONDS = 20
HEAD = struct.Struct("=IIQ")
# What trace_disk.c notes, and what a tool notes of its clients in the same file.
WRITE, SYNC, ANSWER, SENT, FAILED_SYNC = 1, 2, 3, 4, 5


class Wrong(Exception):
    """What was tried does not hold."""


class Ended(Wrong):
    """The service ended before it listened."""


class Record(NamedTuple):
    """What happened: its kind, its number, the bytes of a write, and the byte of the trace at which it is noted."""

    kind: int
    number: int
    data: bytes
    place: int


def build(source, folder):
    """Builds a library that is preloaded under a program, of a source beside this module."""
    library = (folder / source).with_suffix(".so")
    words = ["cc", "-O2", "-Wall", "-shared", "-fPIC", "-pthread", TOP / "tools" / source, "-o", library, "-ldl"]
    subprocess.run(words, check=True)
    return library


def traced(library, disk, trace, fails=None, keeps_old=False):
    """The environment of a program whose writes and syncs of the disk are noted, with what a write replaces if that is
    asked for. FAIL_SYNC is as `fails` says."""
    more = {"LD_PRELOAD": str(library), "TRACE": str(trace), "DISK": str(disk)}
    if keeps_old:
        more["KEEP_OLD"] = "yes"
    if fails:
        more["FAIL_SYNC"] = fails
    return dict(os.environ, **more)


def note(trace, kind, number):
    """Notes in the trace what a client did."""
    os.write(trace, HEAD.pack(kind, 0, number))


def read_trace(path):
    """Each record of a trace but one at its end that a kill cut off."""
    data, place, records = path.read_bytes(), 0, []
    while place + HEAD.size <= len(data):
        kind, size, number = HEAD.unpack_from(data, place)
        end = place + HEAD.size + size
        if end <= len(data):
            records.append(Record(kind, number, data[end - size : end], place))
        place = end
    return records


class Service:
    """A run of `jnl serve` over a disk."""

    def __init__(self, jnl, disk, folder, env=None):
        self.socket = folder / "traced.sock"
        words = [jnl, "serve", disk, "--socket", self.socket]
        self.run = subprocess.Popen(words, env=env, stdout=subprocess.DEVNULL, stderr=subprocess.PIPE, text=True)

    def connect(self):
        """A connection, once the service listens."""
        end = time.monotonic() + SECONDS
        while time.monotonic() < end:
            if self.run.poll() is not None:
                raise Ended(f"the service ended: {self.run.stderr.read().strip()}")
            try:
                return jnl.connect(str(self.socket), timeout=SECONDS)
            except (jnl.NoPort, OSError):
                time.sleep(0.002)
        raise Wrong("the service does not answer")

    def kill(self):
        self.run.kill()
        self.run.wait()
        self.run.stderr.close()
        self.socket.unlink(missing_ok=True)


class Device:
    """The blocks of a device, and the writes to them that are pending."""

    def __init__(self, content):
        self.content = bytearray(content)
        # Of each block its pending writes, the oldest first, each with its number in the run; -1 for those of an earlier run.
        self.pending = {}
        # Blocks of which the system's memory has what a failed sync dropped.
        self.dropped = set()

    def follow(self, records, choice=None, keep=0.5):
        """Takes what a run did. Of the writes that a failed sync drops, each reached the device with the chance `keep`."""
        writes = 0
        self.pending = {block: [(-1, data) for _, data in waiting] for block, waiting in self.pending.items()}
        for kind, number, data, _ in records:
            if kind == WRITE:
                self.write(number, writes, data)
                writes += 1
            elif kind == SYNC:
                self.sync(number)
            elif kind == FAILED_SYNC:
                self.fail_sync(number, choice, keep)

    def forget_unmade(self, file):
        """Drops what was noted and not written: a kill may come between the two. The file has the last write of each block."""
        for block, waiting in list(self.pending.items()):
            content = file[block * BLOCK : block * BLOCK + BLOCK]
            while waiting and waiting[-1][1] != content:
                waiting.pop()
            if not waiting:
                del self.pending[block]

    def write(self, at, number, data):
        """A write of the run, of one block or more. Each block of it reaches the device by itself."""
        if at % BLOCK or len(data) % BLOCK:
            raise Wrong(f"a write of {len(data)} bytes at byte {at}: not of whole blocks")
        for start in range(0, len(data), BLOCK):
            self.pending.setdefault((at + start) // BLOCK, []).append((number, data[start : start + BLOCK]))

    def sync(self, begun):
        """A sync before which so many writes of the run had begun."""
        for block, covered in self.take_covered(begun):
            self.put(block, covered[-1])
            self.dropped.discard(block)

    def fail_sync(self, begun, choice, keep):
        """The same where it fails: afterwards the writes count as done, though some never reached the device."""
        for block, covered in self.take_covered(begun):
            if self.reach(block, covered, choice, keep):
                self.dropped.discard(block)
            else:
                self.dropped.add(block)

    def take_covered(self, begun):
        """The blocks with pending writes that began before a sync, and these writes, which are no longer pending."""
        for block, waiting in list(self.pending.items()):
            covered = [data for number, data in waiting if number < begun]
            later = waiting[len(covered) :]
            if later:
                self.pending[block] = later
            else:
                del self.pending[block]
            if covered:
                yield block, covered

    def put(self, block, data):
        self.content[block * BLOCK : block * BLOCK + BLOCK] = data

    def reach(self, block, waiting, choice, keep):
        """Each of these writes of the block reached the device with the chance `keep`. Answers whether the last did."""
        reached = False
        for data in waiting:
            reached = choice.random() < keep
            if reached:
                self.put(block, data)
        return reached

    def lose_power(self, choice, keep):
        """The system's memory is lost, and the pending writes that did not reach the device by then."""
        for block, waiting in self.pending.items():
            self.reach(block, [data for _, data in waiting], choice, keep)
        self.pending = {}
        self.dropped = set()
