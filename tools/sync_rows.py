"""How the programs sync their disks, by rows that are quick enough for the gate. `refuse-syncs` runs them.

Each row is a run of a program over a disk of 600 blocks. Each of its syncs fails in turn, and last none: as many as the row says,
so a program that leaves one out is found out. In the run in which none fails the writes and syncs of the disk are noted:

- Who opens a disk to write it writes blocks 0 to 512, and the home blocks that the log names, as they read, and makes a sync, before
  anything else. A process that was killed, or whose sync failed, may have left there what only the system's memory has.
- At the end, and where a service says that it listens, nothing is pending.
- Who only reads a disk writes nothing.
"""

import re
import struct
import subprocess
import sys
from enum import Enum
from pathlib import Path
from typing import NamedTuple, Optional

from traced_disk import BLOCK, SYNC, TOP, WRITE, Device, Ended, Service, Wrong, build, jnl, read_trace, traced

sys.path.insert(0, str(TOP / "examples"))
import nfs_client
import tree_calls

BLOCKS = 600
TREE_BLOCKS = 645
LOG_BLOCKS = 513
LOG_POSITIONS = 511
SEALED = 1 << 63
SUPERBLOCK = 513
FIRST_DATA = 531
INODE_BYTES = 128
SECONDS = 30
DEVICE_FAILED = 6

NOTHING = ""
LISTENING = r"listening (on 127\.0\.0\.1:)?[0-9]+\n"
# On standard error, of jtool or of the others.
CANNOT_USE = r"(jnl(fs)?: )?cannot use {disk}(: .+)?\n"
REFUSED = r"(refused|jnl(fs)?: {disk} is refused:) J6 DeviceFailed\n"
FAILED = r"jnl(fs)?: {disk} has failed: Input/output error \(os error 5\)\n"


class How(Enum):
    """What a run does to the disk."""

    READS = "reads it"
    MAKES = "makes it"
    OPENS = "opens it to write it"


class Row(NamedTuple):
    """A run: its words, the disk before it, and what it prints where none of its syncs fails, and where each of them does: on
    standard output and on standard error, as patterns."""

    how: How
    words: str
    disk: Optional[bytes]
    printed: str
    refused: list


def jtool_rows(new, old):
    """The runs of jtool, over a new disk of version 2 and over one of version 1."""
    return [
        # The room of the log, the folder, and the disk.
        Row(How.MAKES, "format {disk} 600", None, NOTHING, [(NOTHING, CANNOT_USE), (NOTHING, CANNOT_USE), (NOTHING, REFUSED)]),
        Row(How.READS, "check {disk}", new, r"sound version 2 files 0\n", [(NOTHING, CANNOT_USE)]),
        Row(How.OPENS, "serve {disk} 0 0", new, LISTENING + r"served 0\n", [(NOTHING, CANNOT_USE), (LISTENING, CANNOT_USE)]),
        Row(How.OPENS, "migrate {disk}", new, r"version 2\n", [(NOTHING, CANNOT_USE), (NOTHING, CANNOT_USE)]),
        # The opening, the log block, block 0, and the end.
        Row(
            How.OPENS,
            "migrate {disk}",
            old,
            r"version 2\n",
            [(NOTHING, CANNOT_USE), (NOTHING, REFUSED), (NOTHING, REFUSED), (NOTHING, CANNOT_USE)],
        ),
    ]


def jnl_rows(sealed, plain):
    """The runs of jnl, over disks with updates in a log of each form."""
    # The opening, the blocks that come home, block 1, and block 0.
    changes = [(NOTHING, CANNOT_USE), (NOTHING, REFUSED), (NOTHING, REFUSED), (NOTHING, REFUSED)]
    return [
        Row(How.MAKES, "create {disk} --blocks 600", None, NOTHING, [(NOTHING, CANNOT_USE), (NOTHING, CANNOT_USE), (NOTHING, REFUSED)]),
        Row(How.READS, "info {disk}", sealed, r"blocks 600\n(?s:.*)", [(NOTHING, CANNOT_USE)]),
        Row(How.READS, "check {disk}", sealed, r"log well formed\n", [(NOTHING, CANNOT_USE)]),
        Row(How.OPENS, "seal {disk}", sealed, r"sealed already\n", [(NOTHING, CANNOT_USE)]),
        Row(How.OPENS, "seal {disk}", plain, r"sealed\n", changes),
        Row(How.OPENS, "seal {disk} --undo", sealed, r"plain\n", changes),
        # The opening, and the label. Between them a disk that grows makes its longer file stable.
        Row(How.OPENS, "label {disk} --again", sealed, r"blocks 600\nregions .+\n", [(NOTHING, CANNOT_USE)] * 2),
        Row(How.OPENS, "grow {disk} --blocks 700", sealed, r"blocks 700\nregions .+\n", [(NOTHING, CANNOT_USE)] * 3),
    ]


def jnlfs_rows(new, old, tree, grown):
    """The runs of jnlfs, over a new disk of version 2, over one of version 1, over a new tree, and over one that grew."""
    # The room of the log, the folder, the files, and the form of the log.
    makes = [(NOTHING, CANNOT_USE), (NOTHING, CANNOT_USE), (NOTHING, FAILED), (NOTHING, FAILED)]
    # The opening, the log block, block 0, and the end.
    migrates = [(NOTHING, CANNOT_USE), (NOTHING, REFUSED), (NOTHING, REFUSED), (NOTHING, CANNOT_USE)]
    return [
        Row(How.MAKES, "make {disk} --blocks 600 --format 2", None, NOTHING, makes),
        Row(How.MAKES, f"make {{disk}} --blocks {TREE_BLOCKS}", None, NOTHING, makes),
        Row(How.READS, "check {disk}", new, r"sound version 2 files 0\n", [(NOTHING, CANNOT_USE)]),
        Row(How.READS, "check {disk}", tree, r"sound version 3 nodes 1\n", [(NOTHING, CANNOT_USE)]),
        Row(How.OPENS, "migrate {disk}", new, r"version 2\n", [(NOTHING, CANNOT_USE)] * 2),
        Row(How.OPENS, "migrate {disk}", old, r"version 2\n", migrates),
        # The opening, the longer file, and the label.
        Row(How.OPENS, "grow {disk} --blocks 700", tree, r"blocks 700\n", [(NOTHING, CANNOT_USE)] * 3),
        # The same and a second opening. Then the log's other form, its form, the records that are copied, and the label.
        Row(How.OPENS, "grow {disk} --blocks 900", grown, r"blocks 900\n", [(NOTHING, CANNOT_USE)] * 4 + [(NOTHING, FAILED)] * 4),
    ]


class Runs:
    """Runs of a program over disks in a folder."""

    def __init__(self, program, folder):
        self.program, self.folder = program, Path(folder)
        self.disk, self.trace = self.folder / "disk", self.folder / "trace"
        self.refuse, self.note = build("refuse_sync.c", self.folder), build("trace_disk.c", self.folder)

    def lay(self, disk):
        """Puts the disk into its file, or removes that."""
        self.trace.write_bytes(b"")
        self.disk.unlink(missing_ok=True)
        if disk is not None:
            self.disk.write_bytes(disk)

    def environment(self, refused):
        """In which the writes and syncs are noted, and the sync of this number fails."""
        more = {"LD_PRELOAD": f"{self.refuse}:{self.note}", "REFUSE_SYNC": str(refused)}
        return dict(traced(self.note, self.disk, self.trace), **more)

    def run(self, words, refused):
        """What a run prints on standard output and on standard error, and its status."""
        try:
            ended = subprocess.run(words, capture_output=True, text=True, timeout=SECONDS, env=self.environment(refused))
        except subprocess.TimeoutExpired:
            raise Wrong(f"{told(words, refused)}: it goes on") from None
        return ended.stdout, ended.stderr, ended.returncode

    def want(self, words, refused, output, fault):
        """Wants that a run prints this where that sync fails, and ends with status 1, or 0 where it prints no fault."""
        printed, fault_printed, status = self.run(words, refused)
        fault = fault.format(disk=re.escape(str(self.disk)))
        is_right = re.fullmatch(output, printed) and re.fullmatch(fault, fault_printed)
        if not is_right or status != (1 if fault else 0):
            raise Wrong(f"{told(words, refused)}: {printed!r}, {fault_printed!r}, status {status}")

    def made(self, words):
        """The disk that a run leaves."""
        subprocess.run([self.program, *words], check=True, stdout=subprocess.DEVNULL, timeout=SECONDS)
        return self.disk.read_bytes()

    def try_row(self, row):
        words = [self.program, *row.words.format(disk=self.disk).split()]
        for number, (output, fault) in enumerate([*row.refused, (row.printed, NOTHING)], 1):
            self.lay(row.disk)
            self.want(words, number, output, fault)
        self.want_order(row.how, row.disk, words)

    def want_order(self, how, disk, words):
        """Wants of the run that was noted last what is said above."""
        records = read_trace(self.trace)
        if how is How.READS and any(record.kind == WRITE for record in records):
            raise Wrong(f"{told(words)}: it writes to the disk")
        if how is How.OPENS:
            want_opening(records, disk, words)
        want_nothing_pending(records, words)

    def want_end(self, run, words):
        """Wants that a service whose second sync has failed ends by itself with status 1, and says why."""
        status, faults = run.wait(SECONDS), run.stderr.read()
        if status != 1 or not re.fullmatch(FAILED.format(disk=re.escape(str(self.disk))), faults):
            raise Wrong(f"{told(words, 2)}: {faults!r}, status {status}")


class JtoolRuns(Runs):
    """Runs of jtool."""

    def try_all(self):
        for row in jtool_rows(disk_of_files(2), disk_of_files(1)):
            self.try_row(row)
        self.serve_files()

    def serve_files(self):
        """`serve`, to a client that makes a file."""
        words = [self.program, "serve", self.disk, "0", "1"]
        self.lay(disk_of_files(2))
        with subprocess.Popen(words, stdout=subprocess.PIPE, text=True, env=self.environment(0)) as run:
            try:
                port = int(run.stdout.readline().split()[1])
                self.want_order(How.OPENS, disk_of_files(2), words)
                client = nfs_client.Service(port)
                nfs_client.put(client, "f002", "text")
                client.stream.close()
                client.socket.close()
                if run.wait(SECONDS) != 0:
                    raise Wrong(f"{told(words)}: status {run.returncode}")
            finally:
                run.kill()
        want_nothing_pending(read_trace(self.trace), words)


class JnlfsRuns(Runs):
    """Runs of jnlfs."""

    def try_all(self):
        self.lay(None)
        tree = self.made(["make", self.disk, "--blocks", str(TREE_BLOCKS)])
        grown = self.made(["grow", self.disk, "--blocks", str(TREE_BLOCKS + 2)])
        for row in jnlfs_rows(disk_of_files(2), disk_of_files(1), tree, grown):
            self.try_row(row)
        self.mount_files(disk_of_files(2), put_flat_file)
        self.mount_files(tree, put_in_tree)

    def mount_files(self, disk, put):
        """`serve`: the sync of the opening fails, then that of a call; then none, up to the line that says that it listens."""
        words = [self.program, "serve", self.disk, "--port", "0"]
        self.lay(disk)
        self.want(words, 1, NOTHING, CANNOT_USE)
        self.lay(disk)
        self.fail_call(words, put)
        self.lay(disk)
        with subprocess.Popen(words, stdout=subprocess.PIPE, text=True, env=self.environment(0)) as run:
            try:
                run.stdout.readline()
                self.want_order(How.OPENS, disk, words)
            finally:
                run.kill()

    def fail_call(self, words, put):
        """Wants that a call is not answered as done where its sync fails, and that the service ends."""
        pipes = {"stdout": subprocess.PIPE, "stderr": subprocess.PIPE, "text": True}
        with subprocess.Popen(words, **pipes, env=self.environment(2)) as run:
            try:
                put(int(run.stdout.readline().split()[1]))
                raise Wrong(f"{told(words, 2)}: the call is answered as done")
            except (nfs_client.Refused, tree_calls.Refused, OSError):
                self.want_end(run, words)
            finally:
                run.kill()


def put_flat_file(port):
    nfs_client.put(nfs_client.Service(port), "f002", "text")


def put_in_tree(port):
    """Makes a file in a tree."""
    with tree_calls.Connection(port) as connection:
        name = tree_calls.entry(connection.root(), b"file")
        connection.must(tree_calls.CREATE, name + tree_calls.words(tree_calls.GUARDED) + tree_calls.settings())


class JnlRuns(Runs):
    """Runs of jnl."""

    def try_all(self):
        self.lay(None)
        sealed = self.made(["create", self.disk, "--blocks", str(BLOCKS)])
        plain = self.made(["seal", self.disk, "--undo"])
        for row in jnl_rows(self.with_updates(sealed), self.with_updates(plain)):
            self.try_row(row)
        for disk in sealed, plain:
            self.serve_objects(disk)

    def with_updates(self, disk):
        """The disk with a commit in its log."""
        self.lay(disk)
        service = Service(self.program, self.disk, self.folder)
        try:
            with service.connect() as connection:
                commit(connection, True)
        finally:
            service.kill()
        return self.disk.read_bytes()

    def serve_objects(self, disk):
        """`serve`: the sync of the opening fails, then that of a commit, then none."""
        words = [self.program, "serve", self.disk, "--socket", self.folder / "traced.sock"]
        self.lay(disk)
        self.want(words, 1, NOTHING, CANNOT_USE)
        self.lay(disk)
        self.fail_commit(words)
        self.lay(disk)
        self.stop_service(disk, words)
        self.want_values(words)

    def fail_commit(self, words):
        """Wants that neither a commit nor the end of the service is answered as done where the commit's sync fails. The service then
        ends by itself."""
        service = Service(self.program, self.disk, self.folder, self.environment(2))
        try:
            with service.connect() as connection:
                if commit(connection, True):
                    raise Wrong(f"{told(words, 2)}: the commit is answered as stable")
            if self.stop() == 0:
                raise Wrong(f"{told(words, 2)}: stop says that all is stable")
            self.want_end(service.run, words)
        except Ended as why:
            raise Wrong(f"{told(words, 2)}: {why}") from None
        finally:
            service.kill()

    def stop_service(self, disk, words):
        """Ends a service after a commit that nobody waits for, and leaves what the device then has."""
        service = Service(self.program, self.disk, self.folder, self.environment(0))
        try:
            with service.connect() as connection:
                self.want_order(How.OPENS, disk, words)
                commit(connection, False)
            if self.stop() != 0 or service.run.wait(SECONDS) != 0:
                raise Wrong(f"{told(words)}: it is not ended")
        finally:
            service.kill()
        records = read_trace(self.trace)
        want_nothing_pending(records, words)
        device = Device(disk)
        device.follow(records)
        self.disk.write_bytes(device.content)

    def want_values(self, words):
        """Wants that the disk has what was committed."""
        service = Service(self.program, self.disk, self.folder)
        try:
            with service.connect() as connection:
                if connection.read(list(VALUES)) != list(VALUES.values()):
                    raise Wrong(f"{told(words)}: what was committed before the end is not on the device")
        finally:
            service.kill()

    def stop(self):
        words = [self.program, "stop", "--socket", self.folder / "traced.sock"]
        return subprocess.run(words, stderr=subprocess.DEVNULL, timeout=SECONDS).returncode


def disk_of_files(version):
    """A new disk of the file service, by docs/FORMATS.md."""
    disk = bytearray(BLOCKS * BLOCK)
    head = bytes.fromhex("474a4e4c44534b31") + struct.pack("<2Q", version, BLOCKS)
    taken = (1 << 8 * BLOCK) - (1 << BLOCKS - FIRST_DATA)
    for at, data in (
        (SUPERBLOCK * BLOCK, head),
        ((SUPERBLOCK + 1) * BLOCK, taken.to_bytes(BLOCK, "little")),
        ((SUPERBLOCK + 2) * BLOCK + INODE_BYTES, struct.pack("<2I", 1, 1)),
    ):
        disk[at : at + len(data)] = data
    return bytes(disk)


# Objects of three blocks, and what a commit writes there.
VALUES = {(515, 0): bytes([7]) * 128, (531, 0): bytes([8]) * BLOCK, (532, 0): bytes([9]) * BLOCK}


def commit(connection, waits):
    """Whether a commit is answered as done."""
    transaction = connection.begin()
    for address, value in VALUES.items():
        transaction.write(*address, value)
    try:
        transaction.commit(wait=waits)
    except jnl.Unsure:
        return False
    except jnl.Refused as why:
        if why.status != DEVICE_FAILED:
            raise Wrong(f"a commit is answered {why}") from None
        return False
    return True


def number_at(disk, at):
    return struct.unpack_from("<Q", disk, at)[0]


def named_homes(disk):
    """The home blocks that the log of the disk names, by docs/FORMATS.md."""

    def word(position):
        return number_at(disk, 8 + 8 * (position % LOG_POSITIONS))

    def is_there(position):
        return disk[(2 + position % LOG_POSITIONS) * BLOCK] == word(position) >> 48 & 0xFF

    end, start = number_at(disk, 0), number_at(disk, BLOCK)
    if end < SEALED:
        return {word(position) for position in range(start, end)}
    group = range(end - SEALED, end - SEALED + (word(end - SEALED) >> 40 & 0xFF))
    end = group.stop if all(map(is_there, group)) else group.start
    return {word(position) & (1 << 40) - 1 for position in range(start, end)}


def want_opening(records, disk, words):
    """Wants that blocks 0 to 512 and the home blocks that the log names, and no block otherwise than it was, were written and synced
    before anything else."""
    wanted = {*range(LOG_BLOCKS), *named_homes(disk)}
    written, writes = set(), 0
    for kind, number, data, _ in records:
        if kind == SYNC:
            if number != writes or not written >= wanted:
                raise Wrong(f"{told(words)}: its first sync does not come after all blocks of the log and those that it names")
            return
        if kind == WRITE:
            if disk[number : number + len(data)] != data:
                raise Wrong(f"{told(words)}: it changes block {number // BLOCK} before its first sync")
            written.update(range(number // BLOCK, (number + len(data)) // BLOCK))
            writes += 1
    raise Wrong(f"{told(words)}: it makes no sync before it goes on")


def want_nothing_pending(records, words):
    """Wants that each write was followed by a sync."""
    writes = sum(record.kind == WRITE for record in records)
    synced = max((record.number for record in records if record.kind == SYNC), default=0)
    if synced != writes:
        raise Wrong(f"{told(words)}: {writes - synced} of {writes} writes are pending")


def told(words, refused=None):
    """The run, in a few words: the program's name, what it is to do, and which sync fails."""
    where = f", sync {refused} fails" if refused else ""
    return f"{Path(words[0]).name} {words[1]}{where}"
