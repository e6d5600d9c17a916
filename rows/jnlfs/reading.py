"""Services that only read the files of a disk."""

import resource
import signal
import time
from pathlib import Path

from program_rows import Ended, Wrong, read_words, record_of, wants, wants_run

NAMES = read_words(Path(__file__).parent.parent / "words")
# LOOKUP of f002 in the root, which NFS3ERR_NOENT answers (docs/FORMATS.md).
LOOKUP = record_of("1 0 2 0x186a3 3 3 0 0 0 0 12 0x4a4e4c31 1 1 4 0x66303032", {})
NO_ENTRY = record_of("1 1 0 0 0 0 2 0", {})

# A file is made, all of a block of it is written and made stable, and its first word is read.
CREATE, WRITE, READ = "CREATE ROOT f002 0 NOTHING", "WRITE FILE 0 0 4096 2 4096 %d*1024", "READ FILE 0 0 4"
BLOCK = 4096
# No file gets more than these: the blocks before those of the bytes of files.
BLOCKS_WITH_ROOM = 531
# More changes than the log takes before it brings blocks home.
CHANGES = 300
FULL = b"jnlfs: disk has failed: File too large (os error 27)\n"
# How long what is not to come is waited for.
SECONDS = 0.5


def two_services_read_the_same_files(room):
    wants_run(room.run(["jnlfs", "make", "disk", "--format", "2", "--blocks", "532"]), Ended(b"", b"", 0))
    words = ["jnlfs", "serve", "disk", "--port", "0", "--read-only", "--control"]
    services = [room.start([*words, socket]) for socket in ("s", "t")]
    for service in services:
        service.send(LOOKUP)
    for service in services:
        wants("a lookup", service.connection.receive(), NO_ENTRY)
    for socket, service in zip(("s", "t"), services):
        wants_run(room.run(["jnlfs", "stop", "--control", socket]), Ended(b"", b"", 0))
        wants_run(service.ended(), Ended(b"stopped\n", b"", 0))


def limit_files():
    """EFBIG for what would make a file longer, as ENOSPC on a full file system."""
    signal.signal(signal.SIGXFSZ, signal.SIG_IGN)
    resource.setrlimit(resource.RLIMIT_FSIZE, (BLOCKS_WITH_ROOM * BLOCK, BLOCKS_WITH_ROOM * BLOCK))


def ask(service, text):
    """The status of a call, and the last word of its reply."""
    service.send(record_of(text, NAMES))
    reply = service.connection.receive()
    return int.from_bytes(reply[24:28], "big"), int.from_bytes(reply[-4:], "big")


def is_done(service, text):
    """True if a call is done, and false where it is refused or the service has ended."""
    try:
        return ask(service, text)[0] == 0
    except (Wrong, OSError):
        return False


def write_until_none_comes_home(room, words):
    """The last number that was written to a file, and is stable: then a block had no room at home."""
    service = room.start(words, preexec_fn=limit_files, restore_signals=False)
    wants("whether a file is made", is_done(service, CREATE), True)
    written = 0
    while written < CHANGES and is_done(service, WRITE % (written + 1)):
        written += 1
    wants("whether a block had no room", 0 < written < CHANGES, True)
    service.connection.close()
    service.connection = None
    wants_run(service.ended(), Ended(b"", FULL, 1))
    return written


# The log has more than an installer leaves there, since some of it had no room at home.
# Of `jnlfs::serving::serve`, `journal_clients::serve_by_pool`: where the disk is only read no block
# is brought home, however many the log has.
def what_is_only_read_is_not_brought_home(room):
    wants_run(room.run(["jnlfs", "make", "disk", "--format", "2", "--blocks", "600"]), Ended(b"", b"", 0))
    words = ["jnlfs", "serve", "disk", "--port", "0", "--control", "s"]
    written = write_until_none_comes_home(room, words)
    room.do_keep("disk")
    service = room.start([*words, "--read-only"])
    time.sleep(SECONDS)
    status, found = ask(service, READ)
    wants("the status of a read", status, 0)
    if found not in (written, written + 1):
        raise Wrong(f"{written} was answered as stable, and {found} is read")
    wants_run(room.run(["jnlfs", "stop", "--control", "s"]), Ended(b"", b"", 0))
    wants_run(service.ended(), Ended(b"stopped\n", b"", 0))
    room.do_unwritten("disk")
