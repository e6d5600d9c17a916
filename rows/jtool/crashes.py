"""A device that fails at each of its calls, and a crash there, by scripts of jtool."""

import re

from program_rows import Wrong, wants

# Lines, each with its answer where no device call fails. Once one failed, no line has its answer
# any more, but for a `put`.
LINES = [
    (b"put 515 0 01*128", b"ok"),
    (b"put 531 0 aa*4096", b"ok"),
    (b"get 532 0", b"= 00*4096"),
    (b"commit", b"committed 1"),
    (b"log", b"log 7"),
    (b"put 515 1024 02*128", b"ok"),
    (b"commit", b"committed 2"),
    (b"log", b"log 6"),
    (b"install", b"install 5"),
    (b"get 515 0", b"= 01*128"),
    (b"commit", b"committed 3"),
    (b"get 515 1024", b"= 02*128"),
    (b"get 531 0", b"= aa*4096"),
    (b"log", b"log 1"),
]
FAULT = b"refused J6 DeviceFailed"
WITHOUT_DEVICE = (b"ok", b"no transaction")  # What a `put` and a `commit` may answer after it.

# A read for the get, and one for the first commit; the logger's 5 and 4, the installer's 5; a read
# for the last get, whose block was never fetched, so that it has no copy in memory.
CALLS = 17

# Two groups and an install, what is pending then, and what is read after a crash. A read for the
# first commit, the logger's 5 and 5, the installer's 6.
TWO_GROUPS = b"""put 515 0 01*128
put 531 0 aa*4096
commit
log
put 515 0 02*128
put 532 0 bb*4096
commit
log
install
stat
pend
"""
LOOKS = b"get 515 0\nget 531 0\nget 532 0\n"
CALLS_OF_TWO_GROUPS = 17

# The images of four pending blocks. Those of the first block come first, and so on.
CHOICES = """none 1 0,1 1,1 0,0,1 1,0,1 0,1,1 1,1,1 0,0,0,1 1,0,0,1 0,1,0,1 1,1,0,1 0,0,1,1 1,0,1,1
0,1,1,1 all""".split()

# What is read after each number of commits.
STATES = [
    b"\nopened\n= 00*128\n= 00*4096\n= 00*4096\n",
    b"\nopened\n= 01*128\n= aa*4096\n= 00*4096\n",
    b"\nopened\n= 02*128\n= aa*4096\n= bb*4096\n",
]


def output_of(room, script):
    """What a script on a disk of 600 blocks prints."""
    ended = room.run(["jtool", "script", "600"], script)
    wants("standard error and status", (ended.faults, ended.status), (b"", 0))
    return ended.output


def faults_at(room, call):
    """How many lines are answered by the fault where this call fails. None has its answer then."""
    script = b"fail %d\n" % call + b"".join(line + b"\n" for line, _ in LINES)
    answers, faults = output_of(room, script).split(b"\n")[1:-1], 0
    wants("the number of answers", len(answers), len(LINES))
    for (line, whole), answer in zip(LINES, answers):
        if answer == FAULT:
            faults += 1
        elif answer not in (WITHOUT_DEVICE if faults else (whole,)):
            raise Wrong(f"where call {call} fails, {line!r} is answered {answer!r}")
    return faults


def each_failing_call_is_told_from_then_on(room):
    failing = 0
    while failing < 60 and faults_at(room, failing + 1):
        failing += 1
    wants("how many device calls can fail", failing, CALLS)


def possible_states(output):
    """What may be read after a crash: after as many commits as were marked, or more."""
    commits, floor = map(int, re.search(rb"^commits (\d+) floor (\d+)", output, re.M).groups())
    return STATES[floor : commits + 1]


def has_image(room, call, place):
    """Whether the disk has an image of this place in CHOICES where this device call failed.

    Wants that a crash to it leaves the state after some of the commits, no fewer than were marked.
    """
    choice = CHOICES[place]
    script = b"fail %d\n%scrash %s\n%s" % (call, TWO_GROUPS, choice.encode(), LOOKS)
    output = output_of(room, script)
    pending = re.search(rb"^pending (.*)$", output, re.M)[1].count(b":")
    if pending > 4:
        raise Wrong(f"where call {call} fails, {pending} blocks are pending")
    if place >= 1 << pending:
        return False
    states = possible_states(output)
    if not any(output.endswith(state) for state in states):
        left = output.rpartition(b"\nopened\n")[2]
        raise Wrong(f"where call {call} fails, {choice} leaves {left!r}, of {len(states)} states")
    return True


# Of `journal_core::Core::read_step`, `journal_core::Core::commit_step`,
# `journal_core::Core::log_step`, `journal_core::Core::install_step`,
# `journal_core::Core::session_step`, `journal_core::Core::fence_step`,
# `journal_circ::Circ::put_slot`, `journal_wal::Wal::log_step`.
def a_crash_at_each_call_leaves_a_front(room):
    """The last of the calls is not made."""
    for call in range(1, CALLS_OF_TWO_GROUPS + 2):
        place = 0
        while place < len(CHOICES) and has_image(room, call, place):
            place += 1


def left_by_mending(room, call, choice):
    """What is read of a disk that is mended where this device call failed and the choice is lost.

    Wants that a crash of the disk once it is open changes nothing.
    """
    script = b"fail %d\n%slose %s\nmend\nopen\n%scrash none\n%s"
    output = output_of(room, script % (call, TWO_GROUPS, choice, LOOKS, LOOKS))
    for state in possible_states(output):
        if output.endswith(b"\nok\nok" + state + state[1:]):
            return state
    raise Wrong(f"where call {call} fails and {choice!r} is lost, {output!r} is printed")


def a_mended_disk_is_what_reads_gave(room):
    """Whatever the device has of it, since a mending keeps what reads give."""
    for call in range(1, CALLS_OF_TWO_GROUPS + 2):
        left = {left_by_mending(room, call, choice) for choice in (b"none", b"1", b"0,1", b"all")}
        wants(f"how many disks are left where call {call} fails", len(left), 1)
