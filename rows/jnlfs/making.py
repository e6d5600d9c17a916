"""The file of a new disk of files: who may use it, and the room that it takes."""

import os
import resource
import signal
import stat

from program_rows import Ended, wants, wants_run

BLOCKS = 600
BLOCK = 4096
# What st_blocks counts.
UNIT = 512


def make(room, *words):
    """A new disk of a user whose new files everybody may use, and what the system says of it."""
    line = ["jnlfs", "make", "disk", "--format", "2", "--blocks", str(BLOCKS), *words]
    wants_run(room.run(line, preexec_fn=lambda: os.umask(0)), Ended(b"", b"", 0))
    return room.path("disk").stat()


# Of `journal_service::make`.
def a_new_disk_is_its_owners_alone(room):
    wants("who may use disk", stat.S_IMODE(make(room).st_mode), 0o600)


# Of `journal_service::make`.
def a_new_disk_takes_its_room_where_it_is_asked_to(room):
    found = make(room, "--allocate")
    wants("that all blocks have room", found.st_blocks * UNIT >= BLOCKS * BLOCK, True)
    wants("the size of the disk", found.st_size, BLOCKS * BLOCK)


def limit_files():
    """EFBIG for what would make a file longer, as ENOSPC on a full file system."""
    signal.signal(signal.SIGXFSZ, signal.SIG_IGN)
    resource.setrlimit(resource.RLIMIT_FSIZE, (BLOCK, BLOCK))


# Of `journal_service::make`.
def no_file_is_left_where_it_cannot_be_so_long(room):
    line = ["jnlfs", "make", "disk", "--format", "2", "--blocks", str(BLOCKS)]
    ended = room.run(line, preexec_fn=limit_files, restore_signals=False)
    wants_run(ended, Ended(b"", b"jnlfs: cannot use disk: File too large (os error 27)\n", 1))
    room.do_absent("disk")


# The description of a disk with a tree, and where its number of its own lies in it.
DESCRIPTION = 513 * BLOCK
NUMBER = slice(32, 40)


def number_of(room, disk):
    """The number of a new disk with a tree."""
    wants_run(room.run(["jnlfs", "make", disk, "--blocks", "645"]), Ended(b"", b"", 0))
    return room.path(disk).read_bytes()[DESCRIPTION:][NUMBER]


# Of `jnlfs::making::make`: a disk with a tree has a number of its own, which its handles have.
def two_disks_have_different_numbers(room):
    wants("that the numbers differ", number_of(room, "one") != number_of(room, "other"), True)
