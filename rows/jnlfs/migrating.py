"""The flat files of a disk are written to a new disk with a tree. The flat disks are made by hand (docs/FORMATS.md)."""

import os
import signal
import struct
import subprocess
import time

from program_rows import SECONDS, Ended, kill, wants, wants_run
from traced_disk import build
from tree_calls import Connection

BLOCK, FIRST_DATA, INODES, BITMAP, SUPERBLOCK = 4096, 531, 515, 514, 513
FULL = 49152
TREE_FILE = 1
# How many syncs a migration has at least, and fewer than how many: those of a disk that is made, of its opening, of its log, of
# its end, and of its name.
FEWEST_SYNCS, MOST_SYNCS = 8, 60
# After how many seconds a migration is killed.
MOMENTS = (0.02, 0.05, 0.1, 0.2, 0.4, 0.8)
# Of each version: names and bytes of files. Sizes at the bounds of blocks, and no bytes at all.
SIZES = {1: [0, 1, 4095, 4096], 2: [0, 1, 4095, 4096, 4097, 8192, 8193, 40961, FULL - 1, FULL]}


def bytes_of(number, size):
    """Bytes of a file that are like no other file's."""
    return bytes((number * 31 + place // 256 + place) % 251 for place in range(size))


def files_of(version, count=None):
    """Files by number: when each last changed, and its bytes."""
    sizes = SIZES[version]
    numbers = range(2, 2 + (count or 2 * len(sizes)))
    return {n: ((1_000_000_000 + n, 999_999_999 - n), bytes_of(n, sizes[n % len(sizes)])) for n in numbers}


def inode(size, moment, blocks):
    """The bytes of a file's inode."""
    first, *others = blocks
    fields = struct.pack("<IIQQII", 2, 1, size, first, *moment)
    return (fields + b"".join(struct.pack("<Q", block) for block in others)).ljust(128, b"\0")


def make_flat(room, version, files, blocks):
    """A flat disk that has these files."""
    wants_run(room.run(["jnlfs", "make", "old", "--format", "2", "--blocks", str(blocks)]), Ended(b"", b"", 0))
    taken = FIRST_DATA
    with open(room.path("old"), "r+b") as disk:
        # The bits of no block are set.
        bits = bytearray(os.pread(disk.fileno(), BLOCK, BITMAP * BLOCK))
        for number, (moment, data) in files.items():
            own = list(range(taken, taken + max(1, -(-len(data) // BLOCK))))
            taken += len(own)
            for block in own:
                bits[(block - FIRST_DATA) // 8] |= 1 << (block - FIRST_DATA) % 8
            os.pwrite(disk.fileno(), inode(len(data), moment, own), INODES * BLOCK + 128 * number)
            os.pwrite(disk.fileno(), data, own[0] * BLOCK)
        os.pwrite(disk.fileno(), bytes(bits), BITMAP * BLOCK)
        os.pwrite(disk.fileno(), bytes([version]), SUPERBLOCK * BLOCK + 8)
    said = f"sound version {version} files {len(files)}\n".encode()
    wants_run(room.run(["jnlfs", "check", "old"]), Ended(said, b"", 0))


def tree_of(room, disk):
    """All of the tree of a disk but its root: kind, mode, user, group, moment and bytes of each name."""
    service = room.start(["jnlfs", "serve", disk, "--port", "0", "--read-only", "--control", "s"])
    with Connection(service.port) as client:
        lines = client.list_all(client.root())
        nodes = [(line, line.attributes) for line in lines]
        found = {
            line.name: (node.kind, node.mode, node.user, node.group, tuple(node.mtime), client.read_all(line.handle))
            for line, node in nodes
        }
    wants_run(room.run(["jnlfs", "stop", "--control", "s"]), Ended(b"", b"", 0))
    wants_run(service.ended(), Ended(b"stopped\n", b"", 0))
    return found


def wants_tree(room, files):
    """Wants exactly these files in the tree of `new`."""
    said = f"sound version 3 nodes {len(files) + 1}\n".encode()
    wants_run(room.run(["jnlfs", "check", "new"]), Ended(said, b"", 0))
    wanted = {b"f%03d" % n: (TREE_FILE, 0o644, 0, 0, moment, data) for n, (moment, data) in files.items()}
    found = tree_of(room, "new")
    wants("the names", sorted(found), sorted(wanted))
    for name, node in wanted.items():
        wants(f"{name}, but for its bytes", found[name][:-1], node[:-1])
        wants(f"the bytes of {name}", found[name][-1], node[-1])


def migrate(room, files, *words):
    """Migrates, and wants that `old` stays as it was, and that nothing is left beside `new`."""
    before, changed = room.path("old").read_bytes(), room.path("old").stat().st_mtime_ns
    said = f"version 3 files {len(files)}\n".encode()
    wants_run(room.run(["jnlfs", "migrate", "old", "new", *words]), Ended(said, b"", 0))
    wants("whether the old disk has other bytes", room.path("old").read_bytes() == before, True)
    wants("when the old disk was written", room.path("old").stat().st_mtime_ns, changed)
    wants("what is there", sorted(os.listdir(room.folder)), ["new", "old"])
    wants("who may use the new disk", room.path("new").stat().st_mode & 0o777, 0o600)


# Of `jnlfs::migrating::migrate_to_tree`: the tree has exactly the files, each with its bytes and its
# time.
def flat_files_of_version_2_become_a_tree(room):
    files = files_of(2)
    make_flat(room, 2, files, 1200)
    migrate(room, files)
    wants("the size of the new disk", room.path("new").stat().st_size, 1354 * BLOCK)
    wants_tree(room, files)


# Of `jnlfs::migrating::migrate_to_tree`.
def flat_files_of_version_1_become_a_tree(room):
    files = files_of(1)
    make_flat(room, 1, files, 700)
    migrate(room, files)
    wants_tree(room, files)


# Of `jnlfs::migrating::migrate_to_tree`.
def a_disk_without_files_becomes_an_empty_tree(room):
    make_flat(room, 2, {}, 532)
    migrate(room, {}, "--blocks", "700", "--inodes", "1024")
    wants("the size of the new disk", room.path("new").stat().st_size, 700 * BLOCK)
    wants_tree(room, {})


# Of `jnlfs::migrating::migrate_to_tree`: the flat disk need not be writable.
def a_flat_disk_that_may_only_be_read_becomes_a_tree(room):
    files = files_of(2, 4)
    make_flat(room, 2, files, 600)
    room.path("old").chmod(0o444)
    room.folder.chmod(0o777)
    room.is_nobody = os.getuid() == 0
    migrate(room, files)
    wants_tree(room, files)


# All names, each with a file that has all its bytes: as much as a flat disk can have.
# Of `jnlfs::migrating::migrate_to_tree`.
def the_fullest_disk_becomes_a_tree(room):
    files = {n: ((n, n), bytes_of(n, 64) * (FULL // 64)) for n in range(2, 512)}
    make_flat(room, 2, files, 6651)
    migrate(room, files)
    wants_tree(room, files)


# Of each disk the tree has room for as much by default: here no block is free.
# Of `jnlfs::migrating::migrate_to_tree`.
def full_disks_of_each_size_fit_by_default(room):
    for blocks in (532, 533, 600, 1041):
        files = {n: ((n, n), b"%d" % n) for n in range(2, 2 + min(510, blocks - FIRST_DATA))}
        make_flat(room, 2, files, blocks)
        migrate(room, files)
        wants_run(
            room.run(["jnlfs", "check", "new"]), Ended(b"sound version 3 nodes %d\n" % (len(files) + 1), b"", 0)
        )
        room.path("old").unlink()
        room.path("new").unlink()


# Of `jnlfs::migrating::migrate_to_tree`: where not all files fit, nothing is made.
def a_tree_that_is_too_small_is_not_made(room):
    files = {n: ((n, n), b"a") for n in range(2, 70)}
    make_flat(room, 2, files, 600)
    why = b"jnlfs: new has too few blocks or inodes for all files, and was not made: see --blocks and --inodes\n"
    wants_run(room.run(["jnlfs", "migrate", "old", "new", "--blocks", "700"]), Ended(b"", why, 1))
    wants("what is there", os.listdir(room.folder), ["old"])
    migrate(room, files, "--blocks", "713")
    wants_tree(room, files)


# What a service that was killed left in the log is read from there, and nothing is written to the
# old disk.
# Of `jnlfs::migrating::migrate_to_tree`.
def a_disk_of_a_killed_service_is_only_read(room):
    make_flat(room, 2, {}, 600)
    service = room.start(["jnlfs", "serve", "old", "--port", "0"])
    handle = struct.pack(">III", 0x4A4E4C31, 1, 1)
    name = struct.pack(">I4s", 4, b"f007")
    create = struct.pack(">I12s", 12, handle) + name + struct.pack(">IIIIIII", 0, 0, 0, 0, 0, 0, 0)
    service.send(struct.pack(">10I", 1, 0, 2, 100003, 3, 8, 0, 0, 0, 0) + create)
    made = service.connection.receive()
    wants("how CREATE is answered", made[24:28], bytes(4))
    kill(service.process)
    before = room.path("old").read_bytes()
    wants_run(room.run(["jnlfs", "migrate", "old", "new"]), Ended(b"version 3 files 1\n", b"", 0))
    wants("whether the old disk has other bytes", room.path("old").read_bytes() == before, True)
    wants("the names", sorted(tree_of(room, "new")), [b"f007"])


# Wherever it is killed, a new disk that has its name has all files. What it left is named by the next
# run, and can be removed.
# Of `jnlfs::migrating::migrate_to_tree`.
def a_migration_that_is_killed_leaves_no_half_of_a_tree(room):
    files = {n: ((n, n), bytes_of(n, 5000)) for n in range(2, 402)}
    make_flat(room, 2, files, 1400)
    new, part = room.path("new"), room.path("new.part")
    why = b"jnlfs: new.part is there: another migration makes it, or one was stopped, and it can be removed\n"
    for moment in MOMENTS:
        process = room.popen(["jnlfs", "migrate", "old", "new"], stdout=subprocess.DEVNULL)
        time.sleep(moment)
        kill(process)
        if new.exists():
            wants_run(room.run(["jnlfs", "check", "new"]), Ended(b"sound version 3 nodes 401\n", b"", 0))
            new.unlink()
        elif part.exists():
            wants_run(room.run(["jnlfs", "migrate", "old", "new"]), Ended(b"", why, 1))
        part.unlink(missing_ok=True)
    migrate(room, files)
    wants_tree(room, files)


# Else a service of the flat disk could write what the tree lacks.
# Of `jnlfs::migrating::migrate_to_tree`: no program writes the flat disk until the tree is there.
def a_flat_disk_is_locked_until_its_tree_is_there(room):
    files = {n: ((n, n), bytes_of(n, 5000)) for n in range(2, 402)}
    make_flat(room, 2, files, 1400)
    process = room.popen(["jnlfs", "migrate", "old", "new"], stdout=subprocess.DEVNULL)
    try:
        while process.poll() is None and not room.path("new.part").exists():
            time.sleep(MOMENTS[0])
        process.send_signal(signal.SIGSTOP)
        refused = Ended(b"", b"jnlfs: old is used by another program\n", 1)
        wants_run(room.run(["jnlfs", "serve", "old", "--port", "0"]), refused)
        process.send_signal(signal.SIGCONT)
        wants("the status of the migration", process.wait(SECONDS), 0)
    finally:
        kill(process)
    wants_tree(room, files)


# A sync that fails ends a migration, and no half of a tree has the name: only after the last one, that
# of the folder, it may be there.
# Of `jnlfs::migrating::migrate_to_tree`.
def each_sync_of_a_migration_fails_in_turn(room):
    files, new = files_of(2, 4), room.path("new")
    make_flat(room, 2, files, 600)
    refuse, refused = build("refuse_sync.c", room.folder), 0
    for number in range(1, MOST_SYNCS):
        environment = dict(os.environ, LD_PRELOAD=str(refuse), REFUSE_SYNC=str(number))
        ended = room.run(["jnlfs", "migrate", "old", "new"], env=environment)
        wants("whether a part is left", room.path("new.part").exists(), False)
        if ended.status == 0:
            break
        wants("the status and the output", (ended.status, ended.output), (1, b""))
        refused += 1
        if new.exists():
            wants_run(room.run(["jnlfs", "check", "new"]), Ended(b"sound version 3 nodes 5\n", b"", 0))
            new.unlink()
    wants("whether each call of the making, the log and the names is synced", refused >= FEWEST_SYNCS, True)
    wants_tree(room, files)
