"""Standard streams of jtool that fail."""

import resource
import signal
import socket
from subprocess import PIPE

from program_rows import SECONDS, kill, read_pipe, wants

WORDS = ["jtool", "script", "600"]
SCRIPT = b"put 515 0 01*128\nget 515 0\ncommit\nnone\nget 515 0\nput 514 7 02\nabort\n"
ANSWERS = b"ok\n= 01*128\ncommitted 1\nbad line\n= 01*128\nrefused J3 BadSize\nok\n"
CANNOT_READ = b"cannot read standard input\n"
CANNOT_WRITE = b"cannot write standard output\n"


def answers_to(script):
    """What the whole lines of a part of the script are answered."""
    return b"".join(ANSWERS.splitlines(True)[: script.count(b"\n")])


def fail_to_read(process, ours, count):
    """Sends so many bytes of the script, and lets the read after them fail. What is printed."""
    ours.sendall(SCRIPT[:count])
    size = len(answers_to(SCRIPT[:count]))
    answers = read_pipe(process.stdout, lambda data: len(data) >= size, "it does not answer")
    ours.close()
    rest, faults = process.communicate(timeout=SECONDS)
    return answers + rest, faults, process.returncode


def read_fails_after(room, count):
    """A run whose standard input fails once so many bytes of the script were read."""
    ours, theirs = socket.socketpair()
    # A socket that is closed with something unread in it fails at its other end, behind all that
    # was sent.
    theirs.send(b"x")
    with ours, room.popen(WORDS, stdin=theirs, stdout=PIPE, stderr=PIPE) as process:
        theirs.close()
        try:
            came = fail_to_read(process, ours, count)
        finally:
            kill(process)
    wanted = (answers_to(SCRIPT[:count]), CANNOT_READ, 1)
    wants(f"where the read after {count} bytes fails", came, wanted)


# Of `jtool::main::run`: a failing stream ends the run with status 1.
def a_failing_read_ends_the_run(room):
    for count in range(len(SCRIPT) + 1):
        read_fails_after(room, count)


def limit_files(size):
    """Lets a process write so many bytes into a file. A further write fails."""

    def limit():
        signal.signal(signal.SIGXFSZ, signal.SIG_IGN)
        resource.setrlimit(resource.RLIMIT_FSIZE, (size, size))

    return limit


def write_fails_after(room, count):
    """A run whose standard output takes so many bytes."""
    path, limit = room.path("output"), limit_files(count)
    with open(path, "wb") as output:
        pipes = {"stdin": PIPE, "stdout": output, "stderr": PIPE}
        with room.popen(WORDS, preexec_fn=limit, **pipes) as process:
            try:
                _, faults = process.communicate(SCRIPT, timeout=SECONDS)
            finally:
                kill(process)
    written = path.read_bytes()
    wants(f"what is written where {count} bytes can be", written, ANSWERS[: len(written)])
    came = (written == ANSWERS, faults, process.returncode)
    wanted = (True, b"", 2) if count >= len(ANSWERS) else (False, CANNOT_WRITE, 1)
    wants(f"whether all is written where {count} bytes can be", came, wanted)


# Of `jtool::main::run`.
def a_failing_write_ends_the_run(room):
    for count in range(len(ANSWERS) + 1):
        write_fails_after(room, count)
