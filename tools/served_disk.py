"""Runs of `jnl serve`, for the tools that try it. A module: `take-over`, `stop-serve`,
`backup-serve` and `fill-disk` use it.

Each service that is started by itself ends with the tool, however that ends (by `setpriv` of
util-linux).
"""

import os
import signal
import struct
import subprocess
import sys
import time
from pathlib import Path

TOP = Path(__file__).resolve().parent.parent
sys.path.insert(0, str(TOP / "clients" / "python"))
import jnl

SECONDS = 60
RECORD_BYTES = 128
NUMBER = struct.Struct("<Q")


class Wrong(Exception):
    """What was tried does not hold."""


def value_of(number):
    """A record that has the number."""
    return NUMBER.pack(number).ljust(RECORD_BYTES, b"\0")


def number_in(value):
    """The number that a record has."""
    return NUMBER.unpack_from(value)[0]


def are_right(words):
    """Whether the words are JNL, FOLDER and perhaps a number of rounds."""
    return len(words) in (2, 3) and all(word.isdecimal() and int(word) for word in words[2:])


def run(*words):
    """A program's run to its end: its status, and what it printed on both outputs."""
    words = [str(word) for word in words]
    return subprocess.run(words, capture_output=True, text=True, timeout=SECONDS)


def must(*words):
    """What a program prints that must end well."""
    ended = run(*words)
    if ended.returncode:
        line = " ".join(map(str, words))
        raise Wrong(f"{line}: status {ended.returncode}: {ended.stderr.strip()}")
    return ended.stdout


class Service:
    """A run of `jnl serve` over a disk, with more words, or of a program that runs it (`by`)."""

    def __init__(self, jnl, disk, socket, by=(), words=()):
        self.jnl, self.socket = jnl, Path(socket)
        line = ["setpriv", "--pdeathsig", "KILL", *by, jnl, "serve", disk, "--socket", socket]
        line = [str(word) for word in [*line, *words]]
        # A session of its own, so that a program by which it is run can be killed together with it.
        self.process = subprocess.Popen(
            line,
            stdout=subprocess.DEVNULL,
            stderr=subprocess.PIPE,
            text=True,
            start_new_session=True,
        )

    def __enter__(self):
        return self

    def __exit__(self, *_):
        self.kill()

    def connect(self):
        """A connection to the service, once it listens."""
        end = time.monotonic() + SECONDS
        while time.monotonic() < end:
            if self.process.poll() is not None:
                raise Wrong(f"the service ended: {self.faults() or self.process.returncode}")
            try:
                return jnl.connect(str(self.socket), timeout=SECONDS)
            except (jnl.NoPort, OSError):
                time.sleep(0.002)
        raise Wrong("the service does not answer")

    def signal(self, number):
        self.process.send_signal(number)

    def wait(self):
        """The status by which the process ended."""
        return self.process.wait(SECONDS)

    def stop(self):
        """Ends the service as its user would, and waits until it is gone."""
        must(self.jnl, "stop", "--socket", self.socket)
        self.wait()

    def kill(self):
        """Ends the service as a crash does, unless it has ended."""
        if self.process.poll() is None:
            os.killpg(self.process.pid, signal.SIGKILL)
            self.wait()
            self.socket.unlink(missing_ok=True)

    def faults(self):
        """What the process that has ended printed on standard error."""
        return self.process.stderr.read().strip()
