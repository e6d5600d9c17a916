"""What RFC 1813 asks for of READ, WRITE, SETATTR and REMOVE of files whose blocks have index blocks,
beyond what `tree_vectors.py` asks of them.

A module: `tree_vectors.py` takes its groups. The first 48 blocks of a file need no index. Those after
them need one index block for each 1024, and one block with the numbers of these (docs/FORMATS.md).
So it is asked around the places where another one is needed, and what is free is counted there.
"""

import random
import time

from tree_asking import *
from tree_content import EMPTY, pieces

FIRST_BLOCKS, INDEXED_BLOCKS = 48, 1024
LAST_BLOCK = LARGEST_FILE // BLOCK - 1
# What is free is counted at most once in so many seconds.
COUNTED_AFTER = 1.1
ACTS = 160
# As many blocks as a WRITE may take, with index blocks.
MOST_TAKEN = 22


def first_of(index):
    """The first block that needs this index block."""
    return FIRST_BLOCKS + INDEXED_BLOCKS * index


# Where a file's bytes are found in another way than those before them, and its end.
EDGES = tuple(BLOCK * first_of(index) for index in (0, 1, 2, 500, 1023)) + (0, LARGEST_FILE)


class Model:
    """A file's bytes, and the index blocks that its blocks need."""

    def __init__(self):
        self.content, self.indexes = EMPTY, set()

    def write(self, offset, data):
        self.content = self.content.overlaid(offset, data)
        places = (place for place, _, _ in pieces(offset, data) if place >= FIRST_BLOCKS)
        self.indexes |= {(place - FIRST_BLOCKS) // INDEXED_BLOCKS for place in places}

    def resize(self, size):
        self.content = self.content.resized(size)
        self.indexes = {index for index in self.indexes if BLOCK * first_of(index) < size}

    def taken(self):
        """How many blocks it has, with its index blocks and the one of their numbers."""
        return len(self.content.blocks) + len(self.indexes) + bool(self.indexes)


class Large:
    """A file of a service and its model."""

    def __init__(self, v, directory, name):
        self.v, self.handle, self.model = v, v.make(directory, name), Model()

    def write(self, offset, data):
        before = self.v.attributes(self.handle)
        self.model.write(offset, data)
        wrote = self.v.does(f"WRITE {len(data)} at {offset}", WRITE, written(self.handle, offset, data, UNSTABLE))
        self.check_change(f"WRITE {len(data)} at {offset}", wrote.change, before)

    def resize(self, size):
        before = self.v.attributes(self.handle)
        self.model.resize(size)
        self.check_change(f"SETATTR of size {size}", self.v.set(self.handle, size=size), before)

    def check_change(self, what, change, before):
        self.v.changes(what, change, before, self.handle)
        self.v.looks(what, change.after, size=self.model.content.size, mtime=change.after.ctime)

    def check(self, offset, count=TRANSFER):
        """What READ tells of these bytes."""
        wanted = self.model.content.part(offset, count)
        portion = self.v.does(f"READ {count} at {offset}", READ, at_place(self.handle, offset, count))
        self.v.holds(f"READ {count} at {offset}: the bytes", portion.data == wanted)
        reaches = offset + len(wanted) >= self.model.content.size
        self.v.equal(f"READ {count} at {offset}: count and end", portion[1:3], (len(wanted), reaches))

    def check_all(self):
        for place in sorted(self.model.content.blocks):
            self.check(BLOCK * place, 2 * BLOCK)
        for edge in EDGES:
            self.check(max(edge - TRANSFER // 2, 0))

    def refuses(self, offset, data):
        """A WRITE without room changes nothing."""
        before = self.v.attributes(self.handle)
        self.v.refuses(f"WRITE {len(data)} at {offset}", NOSPC, WRITE, written(self.handle, offset, data))
        self.v.equal(f"WRITE {len(data)} at {offset} is refused", self.v.attributes(self.handle), before)


def free_blocks(v):
    """How many are free, once they were counted again."""
    time.sleep(COUNTED_AFTER)
    return v.does("FSSTAT", FSSTAT, opaque(v.root)).free_bytes // BLOCK


def takes(v, what, free, *files):
    """As many blocks are taken as the files need."""
    v.equal(f"{what}: free blocks", free_blocks(v), free - sum(file.model.taken() for file in files))


# ---- beside a model


def near(choice):
    """A place near an edge."""
    return min(max(choice.choice(EDGES) + choice.randint(-3 * BLOCK, 3 * BLOCK), 0), LARGEST_FILE)


def large_files_beside_a_model(v):
    """Random WRITEs, sizes and READs around the edges of two files."""
    choice, folder = random.Random(11), v.folder(v.root, b"large")
    files = [Large(v, folder, b"one"), Large(v, folder, b"two")]
    free = free_blocks(v)
    room = free - MOST_TAKEN
    for _ in range(ACTS):
        file, place = choice.choice(files), near(choice)
        size = min(choice.choice((1, 100, BLOCK, BLOCK + 1, 9000, 65536)), LARGEST_FILE - place)
        if choice.random() < 0.2:
            file.resize(choice.choice((place, near(choice), LARGEST_FILE)))
        elif size and choice.random() < 0.6 and sum(it.model.taken() for it in files) < room:
            file.write(place, choice.randbytes(size))
        file.check(max(place - choice.choice((0, BLOCK, TRANSFER // 2)), 0))
    for file in files:
        file.check_all()
    takes(v, "at the end", free, *files)
    for file in files:
        file.resize(0)
    takes(v, "once both are empty", free)


def blocks_of_large_files(v):
    """What the blocks at the edges take, and what each size gives back."""
    folder = v.folder(v.root, b"blocks")
    file = Large(v, folder, b"file")
    free = free_blocks(v)
    for index in (0, 1, 1023):
        for place in (first_of(index) - 1, first_of(index), min(first_of(index) + 1, LAST_BLOCK)):
            file.write(BLOCK * place, b"x")
    file.write(LARGEST_FILE - 1, b"x")
    takes(v, "blocks at the edges", free, file)
    for size in (LARGEST_FILE - BLOCK, BLOCK * first_of(1023), BLOCK * first_of(1) + 1, BLOCK * first_of(1), BLOCK * first_of(0) + 1, BLOCK * first_of(0)):
        file.resize(size)
        file.check_all()
        takes(v, f"size {size}", free, file)
    file.resize(LARGEST_FILE)
    file.check_all()
    takes(v, "a hole to the greatest size", free, file)
    removals_of_large_files(v, folder, file, free)


def removals_of_large_files(v, folder, file, free):
    """REMOVE, and a RENAME onto it, give all blocks back."""
    for place in (10, first_of(0), first_of(700), LAST_BLOCK):
        file.write(BLOCK * place, b"y" * BLOCK)
    takes(v, "a file with holes", free, file)
    v.does("REMOVE", REMOVE, entry(folder, b"file"))
    takes(v, "a REMOVE", free)
    for place in (first_of(0), first_of(5)):
        Large(v, folder, b"old%d" % place).write(BLOCK * place, b"z")
        v.make(folder, b"new")
        v.does("RENAME", RENAME, entry(folder, b"new") + entry(folder, b"old%d" % place))
    takes(v, "RENAMEs onto files", free)


GROUPS = (large_files_beside_a_model, blocks_of_large_files)


# ---- groups that need a disk of their own


def large_files_without_room(jnlfs, folder):
    """A WRITE takes its block and its index blocks, or nothing. What had other bytes before is zeros
    in a new file, and names no blocks in an index."""
    disk = Disk(jnlfs, folder, "large_room.disk", 662)
    with disk.serve() as service:
        v = disk.vectors(service)
        file, other = Large(v, v.root, b"file"), Large(v, v.root, b"other")
        # The root's names take one block.
        left = disk.data_blocks - 1
        for place in range(left - 5):
            file.write(BLOCK * place, b"\xff" * BLOCK)
        file.write(BLOCK * first_of(0), b"\xff" * BLOCK)
        file.write(BLOCK * first_of(0) + BLOCK, b"\xff" * BLOCK)
        other.refuses(BLOCK * first_of(0), b"x")
        file.refuses(BLOCK * first_of(1), b"x")
        file.write(BLOCK * first_of(0) + 2 * BLOCK, b"\xff" * BLOCK)
        file.refuses(BLOCK * first_of(0) + 3 * BLOCK, b"x")
        takes(v, "a full disk", left, file, other)
        file.resize(BLOCK * first_of(0))
        other.write(BLOCK * first_of(0) + 1, b"x")
        other.refuses(BLOCK * first_of(0) - 1, b"xxx" * BLOCK)
        other.write(BLOCK * LAST_BLOCK, b"x")
        other.check_all()
        other.refuses(BLOCK, b"x")
        takes(v, "a full disk again", left, file, other)
        dirty_blocks(v, file, other, left)
        return v.compared


def dirty_blocks(v, file, other, left):
    file.resize(1)
    other.resize(0)
    for place in (first_of(0) + 7, first_of(3) + 1, LAST_BLOCK - 1):
        other.write(BLOCK * place + 5, b"x")
    other.resize(LARGEST_FILE)
    other.check_all()
    for place in (first_of(0), first_of(0) + 6, first_of(0) + 8, first_of(3), first_of(3) + 2, LAST_BLOCK):
        other.check(BLOCK * place, BLOCK)
    takes(v, "blocks that had other bytes", left, file, other)


def large_files_in_another_run(jnlfs, folder):
    """The bytes of large files are there after a kill, and the disk is sound."""
    disk = Disk(jnlfs, folder, "large_runs.disk", 2000)
    with disk.serve() as service:
        v = disk.vectors(service)
        file, compared = Large(v, v.root, b"file"), 0
        for edge in EDGES:
            start = min(max(edge - 3000, 0), LARGEST_FILE - 6000)
            file.write(start, bytes([start % 251 + 1]) * 6000)
        v.does("COMMIT", COMMIT, at_place(file.handle, 0, 0))
        compared = v.compared
    for number in range(2):
        with disk.serve() as service:
            v = file.v = disk.vectors(service)
            file.check_all()
            file.write(BLOCK * first_of(9 + number), b"more")
            v.does("COMMIT", COMMIT, at_place(file.handle, 0, 0))
            compared += v.compared
    told = subprocess.run([jnlfs, "check", disk.path], capture_output=True, text=True)
    if told.returncode:
        raise Differs(f"check: {told.stderr.strip()}")
    return compared


DISKS = (large_files_without_room, large_files_in_another_run)
