"""Who may ask a service of files to end, and what `jnlfs stop` makes of its answers."""

import os
import socket
import stat
import threading

from program_rows import Ended, wants, wants_run

STABLE = b"stopped\n"
FAILED = b"failed\n"
ASKED = b"stop\n"
NO_ANSWER = b"jnlfs: the service at s gave no answer\n"
NOT_STABLE = b"jnlfs: the service at s has ended, and not all is stable: its device has failed\n"


def answer_one(listener, answer, asked):
    """Answers the next connection as a service does, and keeps what it asked."""
    connection, _ = listener.accept()
    with connection:
        asked.append(connection.recv(len(ASKED), socket.MSG_WAITALL))
        connection.sendall(answer)


def stop_answered(room, answer):
    """What `jnlfs stop` prints where a service answers this."""
    asked = []
    with socket.socket(socket.AF_UNIX) as listener:
        listener.bind(str(room.path("s")))
        listener.listen()
        words = {"target": answer_one, "args": (listener, answer, asked), "daemon": True}
        thread = threading.Thread(**words)
        thread.start()
        ended = room.run(["jnlfs", "stop", "--control", "s"])
        thread.join()
    room.path("s").unlink()
    wants("what stop asks", asked, [ASKED])
    return ended


# Of `jnlfs::serving::serve`, `jnlfs::stopping::stop`.
def stop_says_what_a_service_answers(room):
    wants_run(stop_answered(room, STABLE), Ended(b"", b"", 0))
    wants_run(stop_answered(room, FAILED), Ended(b"", NOT_STABLE, 1))
    for answer in (b"", b"stopped", b"stopped\n\n", b"stopped or so\n", b"failed", b"no\n"):
        wants_run(stop_answered(room, answer), Ended(b"", NO_ANSWER, 1))


def begin(in_room):
    """A service of a new disk, that of a user whose new files everybody may use."""
    line = ["jnlfs", "make", "disk", "--format", "2", "--blocks", "532"]
    wants_run(in_room.run(line), Ended(b"", b"", 0))
    line = ["jnlfs", "serve", "disk", "--port", "0", "--control", "s"]
    return in_room.start(line, preexec_fn=lambda: os.umask(0))


# Of `jnlfs::serving::serve`: the socket of a service is its owner's alone, ends it by the word
# alone, and is left where another program listens.
def the_socket_is_its_owners_alone(room):
    service = begin(room)
    wants("who may use s", stat.S_IMODE(room.path("s").stat().st_mode), 0o600)
    wants_run(room.run(["jnlfs", "stop", "--control", "s"]), Ended(b"", b"", 0))
    wants_run(service.ended(), Ended(b"stopped\n", b"", 0))


# Of `jnlfs::serving::serve`.
def other_words_end_no_service(room):
    """Nor does a client that goes away, or says nothing: the next one is heard."""
    service = begin(room)
    for words in (b"", b"stop", b"stopp", b"STOP\n", bytes(4096)):
        with socket.socket(socket.AF_UNIX) as client:
            client.connect(str(room.path("s")))
            client.sendall(words)
    with socket.socket(socket.AF_UNIX) as silent:
        silent.connect(str(room.path("s")))
        wants_run(room.run(["jnlfs", "stop", "--control", "s"]), Ended(b"", b"", 0))
    wants_run(service.ended(), Ended(b"stopped\n", b"", 0))
