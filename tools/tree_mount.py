"""What the checks of `mount-tree` need within the kernel's machine: mounts, acts of other users,
refusals, and what was given to the machine.

A module: `tree_uses.py`, `tree_saves.py`, `tree_basics.py` and `tree_fio.py` use it.
"""

import collections
import ctypes
import errno
import json
import os
import random
import subprocess
import types
from pathlib import Path

MOST_BYTES = 4295163904
# Up to here a file has no index blocks. What is tried at random reaches as far as two of them do.
DIRECT_BYTES, REACH = 196608, 4415488
LONGEST_NAME, LONGEST_TEXT = 255, 4095
BLOCK = 4096
NOBODY, USER, GROUP = 65534, 1000, 77
ENOTSUPP = 524  # What Linux makes of NFS3ERR_NOTSUPP. It has no name outside of the kernel.
A, B, SMALL, HERE = Path("/mnt/a"), Path("/mnt/b"), Path("/mnt/small"), Path("/mnt/here")
OPTIONS = "vers=3,addr={host},port={port},mountport={mount_port},mountvers=3,nolock,proto=tcp,mountproto=tcp,hard{more}"
PIECES = random.Random(7)
# What the machine was started with, as `begin` reads it.
GIVEN = types.SimpleNamespace()


def any_place(choice):
    """A place in a file, every second time where it has no index blocks."""
    return choice.randrange(choice.choice((DIRECT_BYTES, REACH)))


class Wrong(Exception):
    """What was seen is not what must be."""


def equal(what, got, wanted):
    if got != wanted:
        raise Wrong(f"{what}: {got!r}, not {wanted!r}")


def say(text):
    print(f"say {text}", flush=True)


def run(*words):
    """A program's run, which must end well and print no fault. Its output."""
    ran = subprocess.run([str(word) for word in words], capture_output=True, text=True)
    if ran.returncode or ran.stderr:
        raise Wrong(f"{' '.join(map(str, words))}: status {ran.returncode}, {ran.stderr.strip()[:300]}")
    return ran.stdout


def refused(what, numbers, act):
    """The system must refuse the act with one of these numbers."""
    numbers = numbers if isinstance(numbers, tuple) else (numbers,)
    try:
        act()
    except OSError as why:
        if why.errno not in numbers:
            raise Wrong(f"{what}: {called(why.errno)}, not {called(numbers[0])}") from None
        return
    raise Wrong(f"{what} is done, and not {called(numbers[0])}")


def called(number):
    return errno.errorcode.get(number, number)


def as_user(user, group, act, groups=()):
    """Does something in a process of a user. What is wrong there is wrong here."""
    child = os.fork()
    if child == 0:
        status = 0
        try:
            os.setgroups(groups)
            os.setgid(group)
            os.setuid(user)
            act()
        except Exception as why:
            print(f"say user {user}: {why}", flush=True)
            status = 1
        os._exit(status)
    equal(f"what user {user} does", os.waitpid(child, 0)[1], 0)


LIBRARY = ctypes.CDLL(None, use_errno=True)


def begin(given):
    """Reads what the machine was started with."""
    vars(GIVEN).update(json.loads(Path(given).read_text()))


def mount(served, folder, port, more="", host=None):
    folder.mkdir(exist_ok=True)
    host, mount_port = host or GIVEN.host, GIVEN.mount_port if port == GIVEN.port else port
    options = OPTIONS.format(host=host, port=port, mount_port=mount_port, more=more + GIVEN.options).encode()
    if LIBRARY.mount(f"{host}:{served}".encode(), bytes(folder), b"nfs", 0, options):
        raise OSError(ctypes.get_errno(), f"mount {folder}")


def unmount(folder):
    if LIBRARY.umount(bytes(folder)):
        raise OSError(ctypes.get_errno(), f"umount {folder}")


def forget():
    """The kernel forgets what it has read."""
    os.sync()
    Path("/proc/sys/vm/drop_caches").write_text("3")


def look_up(path):
    """Looks a name up, so that an open of it, which comes next, asks the server for the file as it is
    then.

    By NFS version 3 a file that is opened is as it was when another client closed it, so Linux asks
    for its attributes at each open. Linux 6.1 leaves that out once, after a LOOKUP of a new name whose
    reply told that the folder had changed as well: then `nfs_set_verifier` in its fs/nfs/dir.c writes
    no verifier of the name, the word for it has what was in that memory before, and where that is odd
    `nfs_verifier_is_delegated` takes the name for one with a delegation, of which version 3 has none.
    A server could only avoid it by leaving the folder's attributes out, which version 3 allows. A
    look-up takes the place of the open that does not ask."""
    os.stat(path)


def calls(folder):
    """How many calls of each procedure the kernel has made for a mount."""
    counts, is_here = collections.Counter(), False
    for line in Path("/proc/self/mountstats").read_text().splitlines():
        if line.startswith("device "):
            is_here = f" mounted on {folder} " in line
        word, _, rest = line.strip().partition(": ")
        if is_here and word.isupper() and rest.split()[0].isdigit():
            counts[word] += int(rest.split()[0])
    return counts


def write(path, data, mode=0o644):
    with open(os.open(path, os.O_WRONLY | os.O_CREAT | os.O_TRUNC, mode), "wb") as file:
        file.write(data)


def bytes_of(size):
    return PIECES.randbytes(size)


def names_in(folder):
    return sorted(os.listdir(folder))
