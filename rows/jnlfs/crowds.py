"""Many clients of one service of files: more than it has threads, silent ones, slow ones, and few file numbers."""

import resource
import threading
import time
from pathlib import Path

from program_rows import Ended, Wrong, read_words, record_of, wants, wants_run

NAMES = read_words(Path(__file__).parent.parent / "words")
NULL, NULL_REPLY = record_of("NULL", NAMES), record_of("DONE", NAMES)
CLIENTS = 100
CALLS = 20
SILENT = 900
DRIPPING = 24
# How long a call may take in a crowd, and behind peers that hold each thread, in seconds.
IN_A_CROWD, BEHIND_SLOW_PEERS = 1.0, 20.0
MOST_KIB_AT_REST = 16
FEW_FILES = 64
FEW_CONNECTIONS = 40
FEW = b"jnlfs: the system lets it open %d files, so %d connections and one visitor are open at most\n"


def begin(room, **more):
    """A service of a new disk, with a socket by which it is ended."""
    line = ["jnlfs", "make", "disk", "--format", "2", "--blocks", "532"]
    wants_run(room.run(line), Ended(b"", b"", 0))
    return room.start(["jnlfs", "serve", "disk", "--port", "0", "--control", "s"], **more)


def stop(room, service, faults=b""):
    """Ends the service, and wants that all is well."""
    wants_run(room.run(["jnlfs", "stop", "--control", "s"]), Ended(b"", b"", 0))
    wants_run(service.ended(), Ended(b"stopped\n", faults, 0))


def seconds_of_call(connection):
    """How long a call of NULL takes."""
    began = time.monotonic()
    connection.send(NULL)
    wants("the reply", connection.receive(), NULL_REPLY)
    return time.monotonic() - began


def is_within(what, seconds, most):
    if seconds > most:
        raise Wrong(f"{what} takes {seconds:.2f} s, and {most} s at most are wanted")


def ask_again_and_again(connection, ends, faults):
    """Calls until the service ends the connection, which it may do once it is told to end."""
    try:
        while True:
            seconds_of_call(connection)
    except (Wrong, OSError) as fault:
        if not ends.is_set():
            faults.append(fault)


def a_hundred_clients_are_served_by_sixteen_threads(room):
    service = begin(room)
    clients = [service.connect() for _ in range(CLIENTS)]
    for turn in range(CALLS):
        for client in clients:
            is_within(f"a call of round {turn}", seconds_of_call(client), IN_A_CROWD)
    for client in clients:
        client.close()
    stop(room, service)


def a_stop_is_heard_beside_a_hundred_busy_clients(room):
    service, ends, faults = begin(room), threading.Event(), []
    clients = [service.connect() for _ in range(CLIENTS)]
    threads = [
        threading.Thread(target=ask_again_and_again, args=(client, ends, faults), daemon=True)
        for client in clients
    ]
    for thread in threads:
        thread.start()
    is_within("a call of one more", seconds_of_call(service.connect()), IN_A_CROWD)
    ends.set()
    stop(room, service)
    for thread in threads:
        thread.join()
    wants("what went wrong", faults, [])


def kib_of(service):
    """How much memory the service has, in KiB."""
    status = Path(f"/proc/{service.process.pid}/status").read_text()
    return int(status.split("VmRSS:")[1].split()[0])


def silent_clients_take_little_memory(room):
    soft, most = resource.getrlimit(resource.RLIMIT_NOFILE)
    resource.setrlimit(resource.RLIMIT_NOFILE, (most, most))
    try:
        service = begin(room)
        seconds_of_call(service.connect())
        before = kib_of(service)
        silent = [service.connect() for _ in range(SILENT)]
        is_within("a call behind silent ones", seconds_of_call(service.connect()), IN_A_CROWD)
        more = (kib_of(service) - before) / SILENT
        if more > MOST_KIB_AT_REST:
            raise Wrong(f"a silent client takes {more:.1f} KiB, {MOST_KIB_AT_REST} at most are wanted")
        for client in silent:
            client.close()
        stop(room, service)
    finally:
        resource.setrlimit(resource.RLIMIT_NOFILE, (soft, most))


def peers_that_send_a_byte_make_room(room):
    """Each holds a thread for some seconds, while others wait."""
    service = begin(room)
    slow = [service.connect() for _ in range(DRIPPING)]
    for peer in slow:
        peer.stream.sendall(b"\x80")
    is_within("a call behind slow peers", seconds_of_call(service.connect()), BEHIND_SLOW_PEERS)
    for peer in slow:
        peer.close()
    stop(room, service)


def few_files():
    resource.setrlimit(resource.RLIMIT_NOFILE, (FEW_FILES, FEW_FILES))


def a_service_with_few_file_numbers_serves_what_it_can(room):
    """It says so. One client above those that may be open is answered, and the next one too."""
    service = begin(room, preexec_fn=few_files)
    silent = [service.connect() for _ in range(FEW_CONNECTIONS)]
    for client in silent:
        seconds_of_call(client)
    visitor = service.connect()
    is_within("a call of one more", seconds_of_call(visitor), IN_A_CROWD)
    is_within("a call of the next one", seconds_of_call(service.connect()), BEHIND_SLOW_PEERS)
    for client in [*silent, visitor]:
        client.close()
    stop(room, service, FEW % (FEW_FILES, FEW_CONNECTIONS))
