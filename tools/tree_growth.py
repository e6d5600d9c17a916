"""What `jnlfs grow` leaves of a tree: its files, their handles and their attributes, and room for
more; and the same where it is killed, or the power fails, at any of its writes.

A module: `tree_vectors.py` takes its groups. How a disk is cut once it grew is written down here from
docs/FORMATS.md.
"""

import hashlib
import random
import shutil
import subprocess
import time

from traced_disk import WRITE as WRITE_RECORD
from traced_disk import SYNC, Device, build, read_trace, traced
from tree_asking import *

MADE_BLOCKS = 660
RECORDS = 512  # that a block has
LABEL = 1  # its block
FIRST_LOGGED = 2  # block of the log
SHARE = 0.05
FLAT = "is a disk of the file service: a tree grows by jnlfs grow, and flat files move to a larger tree by jnlfs migrate"
# What is free is counted at most once in so many seconds.
COUNTED_AFTER = 1.1


def data_end(made, blocks):
    """The first block after the data of a disk that was made with so many blocks, and now has these."""
    later = blocks - made
    return made + later - -(-later // (RECORDS + 1))


def run(jnlfs, *words, **more):
    """What a run prints on standard output and on standard error, and its status."""
    ended = subprocess.run([jnlfs, *map(str, words)], capture_output=True, text=True, **more)
    return ended.stdout, ended.stderr, ended.returncode


def has_sealed_log(path):
    """True if the log of the disk is sealed: the first number of block 0 is 2^63 or more."""
    with open(path, "rb") as file:
        return int.from_bytes(file.read(8), "little") >= 1 << 63


def grow(jnlfs, path, blocks):
    """Gives the disk so many blocks. Its log has the same form then."""
    is_sealed = has_sealed_log(path)
    ended = run(jnlfs, "grow", path, "--blocks", blocks)
    if ended != (f"blocks {blocks}\n", "", 0):
        raise Differs(f"grow to {blocks} blocks: {ended}")
    if has_sealed_log(path) != is_sealed:
        raise Differs(f"the form of the log after a growth to {blocks} blocks")


def checked(jnlfs, path):
    """How many nodes the disk has, which must be sound."""
    output, faults, status = run(jnlfs, "check", path)
    found = re.fullmatch(r"sound version 3 nodes (\d+)\n", output)
    if not found or faults or status:
        raise Differs(f"check of a disk that grew: {output!r} {faults!r} {status}")
    return int(found[1])


def fill(v, handle, first):
    """Writes blocks into a file until there is no room, and answers how many the file then has."""
    number = first
    for count in (TRANSFER // BLOCK, 1):
        while v.ask("WRITE", WRITE, written(handle, BLOCK * number, blocks_of(number, count)))[0] == OK:
            number += count
    v.refuses("WRITE to a full disk", NOSPC, WRITE, written(handle, BLOCK * number, b"x"))
    return number


def blocks_of(first, count):
    """The bytes of blocks of a file, which their places decide."""
    return b"".join(number.to_bytes(4, "big") * (BLOCK // 4) for number in range(first, first + count))


def index_blocks(blocks):
    """How many blocks with numbers a file of so many blocks has."""
    further = max(blocks - 48, 0)
    return -(-further // 1024) + (further > 0)


def has_filled(v, handle, blocks):
    """The file has just these blocks."""
    v.equal("how many bytes the file has", v.attributes(handle).size, BLOCK * blocks)
    v.holds("the bytes of the file", v.content(handle) == blocks_of(0, blocks))


def a_tree_that_grows(jnlfs, folder):
    """Three growths of a full disk: all files stay, and the new blocks are filled."""
    disk = Disk(jnlfs, folder, "grows.disk", MADE_BLOCKS)
    first_data, compared = MADE_BLOCKS - disk.data_blocks, 0
    handles, filled, nodes = None, 0, 3
    for blocks in (MADE_BLOCKS, MADE_BLOCKS + 40, 2100, 2100, 5000):
        if blocks > MADE_BLOCKS:
            grow(jnlfs, disk.path, blocks)
        if checked(jnlfs, disk.path) != (nodes if handles else 1):
            raise Differs("the number of nodes after a growth")
        with disk.serve() as service:
            v = disk.vectors(service)
            if handles is None:
                handles = v.make(v.root, b"file"), v.folder(v.root, b"folder")
                before = v.attributes(handles[1])
            has_filled(v, handles[0], filled)
            v.equal("a folder's attributes", v.attributes(handles[1]), before)
            data = data_end(MADE_BLOCKS, blocks) - first_data
            v.equal("FSSTAT of all blocks", v.does("FSSTAT", FSSTAT, opaque(v.root)).total_bytes, BLOCK * data)
            filled = fill(v, handles[0], filled)
            # The root's names take one block.
            v.equal("blocks in use", filled + index_blocks(filled) + 1, data)
            time.sleep(COUNTED_AFTER)
            v.equal("FSSTAT of a full disk", v.does("FSSTAT", FSSTAT, opaque(v.root)).free_bytes, 0)
            compared += v.compared
    return compared


def growths_that_are_refused(jnlfs, folder):
    """A refusal leaves all bytes of the file."""
    disk = Disk(jnlfs, folder, "refused.disk", 2000)
    flat = folder / "flat.disk"
    subprocess.run([jnlfs, "make", flat, "--blocks", "600", "--format", "2"], check=True)
    few = "so few blocks have no room for the records of later blocks: jnlfs grow --help says how many a growth takes"
    cases = [
        (disk.path, 1999, f"{disk.path} has 2000 blocks, and a disk never gets fewer", 1),
        (disk.path, 2001, few, 2),
        (flat, 700, f"{flat} {FLAT}", 1),
    ]
    for path, blocks, why, status in cases:
        before = path.read_bytes()
        ended = run(jnlfs, "grow", path, "--blocks", blocks)
        if ended != ("", f"jnlfs: {why}\n", status) or path.read_bytes() != before:
            raise Differs(f"grow to {blocks} blocks: {ended}")
    return len(cases) + refused_while_served(jnlfs, disk) + refused_after_a_growth(jnlfs, disk, few)


def refused_while_served(jnlfs, disk):
    with disk.serve():
        ended = run(jnlfs, "grow", disk.path, "--blocks", 3000)
    if ended != ("", f"jnlfs: {disk.path} is used by another program\n", 1):
        raise Differs(f"grow of a disk that is served: {ended}")
    return 1


def refused_after_a_growth(jnlfs, disk, few):
    """The records of 1536 blocks take three blocks, and must move by as many."""
    grow(jnlfs, disk.path, 2000 + 3 * 513)
    before = disk.path.read_bytes()
    ended = run(jnlfs, "grow", disk.path, "--blocks", 2000 + 3 * 513 + 2)
    if ended != ("", f"jnlfs: {few}\n", 2) or disk.path.read_bytes() != before:
        raise Differs(f"grow by fewer blocks than the records have: {ended}")
    grow(jnlfs, disk.path, 2000 + 3 * 513 + 4)
    return 2


# ---- where it is stopped


class Growth:
    """A disk that grew, with a file, and the writes of a further growth."""

    def __init__(self, jnlfs, folder, *sizes):
        self.jnlfs, self.folder, self.choice = jnlfs, folder, random.Random(1)
        self.disk = Disk(jnlfs, folder, "stopped.disk", MADE_BLOCKS)
        for blocks in sizes[:-1]:
            grow(jnlfs, self.disk.path, blocks)
        self.blocks = sizes[-1]
        with self.disk.serve() as service:
            v = self.disk.vectors(service)
            self.file = v.make(v.root, b"file")
            self.filled = fill(v, self.file, 0)
        self.before = self.disk.path.read_bytes()
        self.records = self.trace()

    def trace(self):
        """Grows a copy of the disk, and notes what it writes."""
        copy, trace = self.folder / "traced.disk", self.folder / "trace"
        shutil.copyfile(self.disk.path, copy)
        library = build("trace_disk.c", self.folder)
        ended = run(self.jnlfs, "grow", copy, "--blocks", self.blocks, env=traced(library, copy, trace))
        if ended != (f"blocks {self.blocks}\n", "", 0):
            raise Differs(f"grow to {self.blocks} blocks: {ended}")
        return read_trace(trace)

    def images(self):
        """After writes that change a block, what a kill leaves, and what a loss of power may leave."""
        killed = bytearray(self.before.ljust(self.blocks * BLOCK, b"\0"))
        device, writes = Device(killed), 0
        yield killed
        for kind, at, data, _ in self.records:
            if kind == SYNC:
                device.sync(at)
            elif kind == WRITE_RECORD:
                device.write(at, writes, data)
                writes += 1
                is_new = killed[at : at + len(data)] != data
                killed[at : at + len(data)] = data
                if is_new and self.is_tried(at):
                    yield killed
                    yield self.after_power(device)
                    yield with_write_alone(device, at, data)
        if device.pending:
            raise Differs(f"a growth that ended leaves writes pending, of the blocks {sorted(device.pending)}")

    def is_tried(self, at):
        """Each write of the log's headers, of the label and after the disk; and some that bring the log's updates home."""
        return at < FIRST_LOGGED * BLOCK or at >= len(self.before) or self.choice.random() < SHARE

    def after_power(self, device):
        """What the device has, with some of the writes that are pending."""
        image = bytearray(device.content)
        for block, waiting in device.pending.items():
            if self.choice.random() < 0.5:
                image[block * BLOCK : block * BLOCK + BLOCK] = self.choice.choice(waiting)[1]
        return image

    def try_image(self, image):
        """The disk is sound, has the file, and grows again."""
        path = self.disk.path
        path.write_bytes(image)
        if checked(self.jnlfs, path) != 2:
            raise Differs("the number of nodes after a growth that was stopped")
        grow(self.jnlfs, path, self.blocks)
        if checked(self.jnlfs, path) != 2:
            raise Differs("the number of nodes after the growth was made again")

    def has_file(self):
        """The file is as it was, and the new blocks can be filled."""
        with self.disk.serve() as service:
            v = self.disk.vectors(service)
            has_filled(v, self.file, self.filled)
            more = fill(v, self.file, self.filled)
            v.holds("more blocks", more > self.filled)
            has_filled(v, self.file, more)


def with_write_alone(device, at, data):
    """What the device has where of all that is pending the last write alone has reached it."""
    image = bytearray(device.content)
    image[at : at + len(data)] = data
    return image


def stopped(jnlfs, folder, *sizes):
    """Tries each image. Some are alike: a loss of power may leave what a kill leaves."""
    growth, tried = Growth(jnlfs, folder, *sizes), set()
    for image in growth.images():
        digest = hashlib.sha256(image).digest()
        if digest not in tried:
            tried.add(digest)
            growth.try_image(image)
    growth.has_file()
    return len(tried)


def a_first_growth_that_is_stopped(jnlfs, folder):
    return stopped(jnlfs, folder, 900)


def a_further_growth_that_is_stopped(jnlfs, folder):
    return stopped(jnlfs, folder, 1400, 1500)


GROUPS = ()
DISKS = (a_tree_that_grows, growths_that_are_refused, a_first_growth_that_is_stopped, a_further_growth_that_is_stopped)
