"""The file of a new disk: who may use it, and the room that it takes."""

import os
import stat

from program_rows import Ended, wants, wants_run

BLOCKS = 600
BLOCK = 4096
# The log, and what describes the disk.
FIRST_BLOCKS = 531
# What st_blocks counts.
UNIT = 512


def make(room, *words):
    """A new disk of a user whose new files everybody may use, and what the system says of it."""
    line = ["jnl", "create", "disk", "--blocks", str(BLOCKS), *words]
    wants_run(room.run(line, preexec_fn=lambda: os.umask(0)), Ended(b"", b"", 0))
    return room.path("disk").stat()


def wants_mode(name, found):
    wants(f"who may use {name}", stat.S_IMODE(found.st_mode), 0o600)


# Of `journal_program::create_labeled_disk`: a new disk, and a backup, may be used by its owner
# alone; all its blocks have their room where that is asked for.
def a_new_disk_is_its_owners_alone(room):
    wants_mode("disk", make(room))
    line = ["jnl", "backup", "disk", "copy"]
    output = b"copy is a copy of disk: 600 blocks, log well formed\n"
    wants_run(room.run(line, preexec_fn=lambda: os.umask(0)), Ended(output, b"", 0))
    wants_mode("copy", room.path("copy").stat())


# Of `journal_program::create_labeled_disk`.
def a_new_disk_takes_its_room_where_it_is_asked_to(room):
    """Of 600 blocks, 531 have theirs in any case."""
    taken = make(room).st_blocks * UNIT // BLOCK
    wants("that some blocks have no room", FIRST_BLOCKS <= taken < BLOCKS, True)
    room.path("disk").unlink()
    found = make(room, "--allocate")
    wants("that all blocks have room", found.st_blocks * UNIT >= BLOCKS * BLOCK, True)
    wants("the size of the disk", found.st_size, BLOCKS * BLOCK)
