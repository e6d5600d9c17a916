"""A service whose blocks have no room to come home, and the end of a service that has failed."""

import resource
import signal
import socket
import threading
import time

from program_rows import Ended, Wrong, record_of, wants, wants_run

BLOCKS = 600
BLOCK = 4096
# No file gets more than these, so that the last blocks of the disk have no room.
BLOCKS_WITH_ROOM = 560
LAST = BLOCKS - 1
# More commits than the log takes before it brings blocks home.
COMMITS = 300

# Words by docs/PROTOCOL.md: of a commit that waits and overwrites a block, and of a read of it.
COMMIT = "1 1 1 1 0 %d 0 4096 %d*1024"
READ = "2 1 0 %d 0"
REFUSED = 6
FULL = b"jnl: disk has failed: File too large (os error 27)\n"
NOT_SETTLED = b"jnl: cannot use disk: File too large (os error 27)\n"

# Words of a request to end a service, after a hello, and what they are answered.
HELLO = record_of("0 0 1 0 600", {})
DEVICE_FAILED = record_of("6", {})
SECONDS = 0.3


def limit_files():
    """EFBIG for what would make a file longer, as ENOSPC on a full file system."""
    signal.signal(signal.SIGXFSZ, signal.SIG_IGN)
    resource.setrlimit(resource.RLIMIT_FSIZE, (BLOCKS_WITH_ROOM * BLOCK, BLOCKS_WITH_ROOM * BLOCK))


def ask(service, words):
    """The first word of the answer to a request, and its last one."""
    service.send(record_of(words, {}))
    answer = service.connection.receive()
    return int.from_bytes(answer[:4], "big"), int.from_bytes(answer[-4:], "big")


def commit_until_it_fails(service):
    """The last number of which a commit to the last block was answered as stable."""
    for number in range(1, COMMITS + 1):
        status, _ = ask(service, COMMIT % (LAST, number))
        if status:
            return number - 1
    raise Wrong(f"each of {COMMITS} commits is answered as stable, though there is no room for it")


def ends_for_want_of_room(service):
    """Wants that the service ends by itself, and says why."""
    service.connection.close()
    service.connection = None
    wants_run(service.ended(), Ended(b"", FULL, 1))


# Of `jnl::serving::serve`, `journal_program::NotedFile::note`.
# Of `jnl::serving::serve`: with no room for a block that comes home nothing is lost that was
# answered as stable, and a service that only reads gives it.
def a_service_ends_where_a_block_has_no_room(room):
    """As long as there is none, it does not begin again, since it cannot settle the disk. One that only
    reads goes on, though the log has more than the installer waits for. With room nothing is lost."""
    wants_run(room.run(["jnl", "create", "disk", "--blocks", str(BLOCKS)]), Ended(b"", b"", 0))
    words = ["jnl", "serve", "disk", "--socket", "s"]
    limited = {"preexec_fn": limit_files, "restore_signals": False}
    service = room.start(words, **limited)
    stable = commit_until_it_fails(service)
    wants("the status of a read after it", ask(service, READ % LAST)[0], REFUSED)
    ends_for_want_of_room(service)
    room.do_absent("s")
    wants_run(room.run(words, **limited), Ended(b"", NOT_SETTLED, 1))
    room.do_keep("disk")
    reads_what_was_stable(room, room.start([*words, "--read-only"], **limited), stable)
    room.do_unwritten("disk")
    reads_what_was_stable(room, room.start(words), stable)


def reads_what_was_stable(room, service, stable):
    """Wants the last number that was stable, or the next, and an end that was asked for."""
    status, found = ask(service, READ % LAST)
    wants("the status of a read", status, 0)
    if found not in (stable, stable + 1):
        raise Wrong(f"{stable} was answered as stable, and {found} is read")
    wants_run(room.run(["jnl", "stop", "--socket", "s"]), Ended(b"", b"", 0))
    wants_run(service.ended(), Ended(b"stopped\n", b"", 0))


def fail_as_a_service(listener, path):
    """Answers as a service whose device has failed: a hello, and a stop by 6. Then it ends."""
    connection, _ = listener.accept()
    with connection:
        for record in (HELLO, DEVICE_FAILED):
            connection.recv(BLOCK)
            connection.sendall(len(record).to_bytes(4, "big") + record)
    time.sleep(SECONDS)
    path.unlink()


# Of `jnl::stopping::stop`: `stop` waits for the end of a service that has failed, and says that not
# all is stable.
def stop_waits_for_a_service_that_has_failed(room):
    path = room.path("s")
    with socket.socket(socket.AF_UNIX) as listener:
        listener.bind(str(path))
        listener.listen()
        thread = threading.Thread(target=fail_as_a_service, args=(listener, path), daemon=True)
        thread.start()
        ended = room.run(["jnl", "stop", "--socket", "s"])
        room.do_absent("s")
        thread.join()
    line = b"jnl: the service at s has ended, and not all is stable: its device has failed\n"
    wants_run(ended, Ended(b"", line, 1))
