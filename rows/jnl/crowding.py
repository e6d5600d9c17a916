"""A service of more connections than it may open files."""

import resource

from program_rows import Ended, record_of, wants, wants_run

BLOCKS = 600
FILES = 40
# Of these the program has 24 for itself (docs/OPERATING.md).
SAID = b"jnl: the system lets it open 40 files, so 16 connections and one visitor are open at most\n"
PEERS = 24

# A hello in version 1 and its answer, by docs/PROTOCOL.md.
HELLO = record_of("0 1", {})
GREETED = record_of("0 0 1 0 600", {})


def limit_files():
    resource.setrlimit(resource.RLIMIT_NOFILE, (FILES, FILES))


def greets(peer):
    """Wants that a peer's hello is answered."""
    peer.send(HELLO)
    wants("the answer to a hello", peer.receive(), GREETED)


def a_service_with_few_files_answers_each_peer(room):
    """None of them leaves, and each is answered at its first call: one above those that may be open is
    ended for the next one. A stop is answered too."""
    wants_run(room.run(["jnl", "create", "disk", "--blocks", str(BLOCKS)]), Ended(b"", b"", 0))
    service = room.start(["jnl", "serve", "disk", "--socket", "s"], preexec_fn=limit_files)
    peers = []
    for _ in range(PEERS):
        peers.append(service.connect())
        greets(peers[-1])
    wants_run(room.run(["jnl", "stop", "--socket", "s"]), Ended(b"", b"", 0))
    wants_run(service.ended(), Ended(b"stopped\n", SAID, 0))
    for peer in peers:
        peer.close()
