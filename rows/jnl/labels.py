"""A service that is stopped again and again, and a file that the system does not let be longer."""

import resource
import signal

from program_rows import Ended, record_of, wants, wants_run

ROUNDS = 40
BLOCKS = 600
MORE_BLOCKS = 700
BLOCK = 4096
REGIONS = b"513:block 514:bit 515:record128 531:block"

# A commit that nobody waits for, of the first bit, and how its answer begins (docs/PROTOCOL.md).
COMMIT = record_of("1 0 1 1 0 514 0 1 0x01000000", {})
DONE = record_of("0 1", {})


def done(output=b""):
    """A run that was done, with this output."""
    return Ended(output, b"", 0)


# Of `jnl::stopping::stop`: a disk is closed and unlocked once `stop` has ended.
def a_disk_is_free_as_soon_as_stop_has_ended(room):
    """With a commit that is to become stable, and in some rounds with an open connection.

    A service that has one needs half a second to end.
    """
    wants_run(room.run(["jnl", "create", "disk", "--blocks", str(BLOCKS)]), done())
    for number in range(ROUNDS):
        service = room.start(["jnl", "serve", "disk", "--socket", "s"])
        service.send(COMMIT)
        wants("the answer to a commit", service.connection.receive()[:8], DONE)
        if number % 10:
            service.hang_up()
        wants_run(room.run(["jnl", "stop", "--socket", "s"]), done())
        wants_run(room.run(["jnl", "check", "disk"]), done(b"log well formed\n"))
        room.do_absent("s")
        wants_run(service.ended(), done(b"stopped\n"))


def limit_files():
    """No file of this process gets more blocks than these. A longer one is refused."""
    signal.signal(signal.SIGXFSZ, signal.SIG_IGN)
    resource.setrlimit(resource.RLIMIT_FSIZE, (MORE_BLOCKS * BLOCK, MORE_BLOCKS * BLOCK))


def grow(room, blocks):
    """A growth where files are limited so."""
    words = ["jnl", "grow", "disk", "--blocks", str(blocks)]
    return room.run(words, preexec_fn=limit_files, restore_signals=False)


# Of `journal_program::DiskToLabel::grow`.
def a_disk_stays_where_its_file_cannot_be_longer(room):
    """EFBIG, as of a file system that takes no file of such a length."""
    wants_run(room.run(["jnl", "create", "disk", "--blocks", str(BLOCKS)]), done())
    room.do_keep("disk")
    refused = b"jnl: cannot use disk: File too large (os error 27)\n"
    wants_run(grow(room, MORE_BLOCKS + 1), Ended(b"", refused, 1))
    room.do_kept("disk")
    wants_run(grow(room, MORE_BLOCKS), done(b"blocks 700\nregions %s\n" % REGIONS))


# Of `jnl::disks::create`.
def no_file_is_left_where_it_cannot_be_so_long(room):
    words = ["jnl", "create", "disk", "--blocks", str(MORE_BLOCKS + 1)]
    refused = b"jnl: cannot use disk: File too large (os error 27)\n"
    ended = room.run(words, preexec_fn=limit_files, restore_signals=False)
    wants_run(ended, Ended(b"", refused, 1))
    room.do_absent("disk")
