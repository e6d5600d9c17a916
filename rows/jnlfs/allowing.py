"""Clients whose addresses are allowed, and others. This machine has each address of 127.0.0.0/8."""

import socket
from pathlib import Path

from program_rows import LAST_FRAGMENT, SECONDS, Connection, Ended, read_words, record_of, wants, wants_run

NAMES = read_words(Path(__file__).parent.parent / "words")
NULL, NULL_REPLY = record_of("NULL", NAMES), record_of("DONE", NAMES)
OTHERS = 40


def begin(room, form, *ranges, address="127.0.0.1"):
    """A service of a new disk at the address that takes connections from these ranges alone."""
    wants_run(room.run(["jnlfs", "make", "disk", *form]), Ended(b"", b"", 0))
    words = [word for range in ranges for word in ("--allow", range)]
    words += ["--address", address]
    return room.start(["jnlfs", "serve", "disk", "--port", "0", "--control", "s", *words])


def connect_from(service, address):
    """A connection to the service from an address of this machine."""
    there, here = ("127.0.0.1", service.port), (address, 0)
    return Connection(socket.create_connection(there, timeout=SECONDS, source_address=here), LAST_FRAGMENT)


def is_served(service, address):
    """True if a call from the address is answered. Else not one byte may come."""
    client = connect_from(service, address)
    with client.stream as stream:
        try:
            client.send(NULL)
            first = stream.recv(4)
        except (BrokenPipeError, ConnectionResetError):
            return False
        if not first:
            return False
        rest = client.receive_exactly(len(client.framed(NULL_REPLY)) - len(first))
        wants("the reply", first + rest, client.framed(NULL_REPLY))
        return True


def stop(room, service, ranges, refused, more=""):
    """Ends the service, and wants that it has counted so many connections of other addresses."""
    wants_run(room.run(["jnlfs", "stop", "--control", "s"]), Ended(b"", b"", 0))
    said = f"jnlfs: only connections from {ranges} are taken\n{more}".encode()
    wants_run(service.ended(), Ended(f"refused {refused}\nstopped\n".encode(), said, 0))


# Of `journal_clients::serve_by_pool`: the connection of an address that is not allowed is closed at
# once, without a byte, and counted.
def flat_files_are_served_to_allowed_addresses(room):
    service = begin(room, ["--format", "2", "--blocks", "532"], "127.0.0.2/31", "127.0.0.8/32")
    served = [number for number in range(1, 11) if is_served(service, f"127.0.0.{number}")]
    wants("the addresses that are served", served, [2, 3, 8])
    stop(room, service, "127.0.0.2/31, 127.0.0.8/32", 7)


# Of `journal_clients::serve_by_pool`.
def a_tree_is_served_to_allowed_addresses(room):
    service = begin(room, ["--blocks", "645"], "127.0.0.0/30")
    served = [number for number in range(1, 7) if is_served(service, f"127.0.0.{number}")]
    wants("the addresses that are served", served, [1, 2, 3])
    stop(room, service, "127.0.0.0/30", 3)


# Of `journal_clients::serve_by_pool`: those that are refused take no place, and the others are
# served meanwhile.
def the_others_are_served_beside_those_that_are_refused(room):
    service = begin(room, ["--format", "2", "--blocks", "532"], "127.0.0.1/32")
    client = service.connect()
    for number in range(OTHERS):
        wants("whether it is served", is_served(service, f"127.0.1.{number + 1}"), False)
        client.send(NULL)
        wants("the reply", client.receive(), NULL_REPLY)
    client.hang_up()
    stop(room, service, "127.0.0.1/32", OTHERS)


# Of `jnlfs::serving::serve`: without a range each client is served, and nothing is said of it.
def all_addresses_are_served_without_a_range(room):
    service = begin(room, ["--format", "2", "--blocks", "532"])
    wants("whether they are served", [is_served(service, f"127.0.0.{n}") for n in (1, 2, 200)], [True] * 3)
    wants_run(room.run(["jnlfs", "stop", "--control", "s"]), Ended(b"", b"", 0))
    wants_run(service.ended(), Ended(b"stopped\n", b"", 0))


# Of `jnlfs::serving::serve`: a service at an address of version 6 of IP has ranges of that version.
def clients_of_version_6_are_served(room):
    if not has_version_6():
        return
    service = begin(room, ["--format", "2", "--blocks", "532"], "::1/128", address="::1")
    stream = socket.create_connection(("::1", service.port), timeout=SECONDS)
    client = Connection(stream, LAST_FRAGMENT)
    client.send(NULL)
    wants("the reply", client.receive(), NULL_REPLY)
    client.hang_up()
    stop(room, service, "::1/128", 0)


# The address at which they come is one of this machine's version 4, written as one of version 6.
# Of `journal_clients::serve_by_pool`: a client has its address of version 4 there too.
def clients_of_version_4_come_to_an_address_of_version_6(room):
    if not has_both_versions():
        return
    address = "::ffff:127.0.0.1"
    service = begin(room, ["--format", "2", "--blocks", "532"], "127.0.0.2/31", "::/0", address=address)
    served = [number for number in range(1, 6) if is_served(service, f"127.0.0.{number}")]
    wants("the addresses that are served", served, [2, 3])
    said = f"jnlfs: whoever reaches {address} from there reads and writes all files of disk\n"
    stop(room, service, "127.0.0.2/31, ::/0", 3, said)


def has_both_versions():
    """True if clients of version 4 can come to an address of version 6 of this machine."""
    if not has_version_6():
        return False
    with socket.socket(socket.AF_INET6) as stream:
        return not stream.getsockopt(socket.IPPROTO_IPV6, socket.IPV6_V6ONLY)


def has_version_6():
    """True if this machine has the address ::1."""
    try:
        with socket.socket(socket.AF_INET6) as stream:
            stream.bind(("::1", 0))
    except OSError:
        return False
    return True
