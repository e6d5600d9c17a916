"""Two services that only read one disk."""

from program_rows import Ended, record_of, wants, wants_run

# A read of the first bit, and what it is answered (docs/PROTOCOL.md).
READ = record_of("2 1 0 514 0", {})
FOUND = record_of("0 2 1 1 0", {})


# Of `jnl::serving::serve`.
def two_services_read_one_disk(room):
    wants_run(room.run(["jnl", "create", "disk", "--blocks", "600"]), Ended(b"", b"", 0))
    services = [
        room.start(["jnl", "serve", "disk", "--socket", socket, "--read-only"])
        for socket in ("s", "t")
    ]
    for service in services:
        service.send(READ)
    for service in services:
        wants("a read", service.connection.receive(), FOUND)
    for socket, service in zip(("s", "t"), services):
        wants_run(room.run(["jnl", "stop", "--socket", socket]), Ended(b"", b"", 0))
        wants_run(service.ended(), Ended(b"stopped\n", b"", 0))
