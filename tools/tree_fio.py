"""Files that four clients write by fio, each over a connection of its own. fio looks at each block
that it has written, by the client that wrote it and then by another one.

A module: `tree_uses.py` takes its check. GIVEN has for how many minutes it goes on, and the addresses
of the server, one for each client: Linux has one connection for all mounts of an address. Each round
has another checksum than the one before, because fio takes a block that was right in an earlier one
for right.
"""

import json
import shutil
import subprocess
import time

from tree_mount import *

FILE_BYTES = 12 << 20
# How each client writes.
WAYS = (
    ("--rw=randwrite", "--bsrange=512-65536", "--fsync=40"),
    ("--rw=write", "--bsrange=1024-131072", "--end_fsync=1"),
    ("--rw=randwrite", "--bs=4096", "--direct=1"),
    ("--rw=write", "--bs=65536", "--direct=1"),
)
ALWAYS = ("--ioengine=psync", "--nrfiles=2", "--verify_fatal=1", "--verify_state_save=0", "--thread", "--output-format=json")
CHECKSUMS = ("crc32c", "md5", "xxhash", "sha1")


def fio(top, number, place, *more):
    """A run of fio, in the round of this place, over the files of a client, as a mount has them."""
    words = ["fio", f"--name=client{number}", f"--directory={top / f'fio{number}'}", f"--size={FILE_BYTES}", *ALWAYS, *WAYS[number]]
    words += [f"--randseed={GIVEN.seed + place}", f"--verify={CHECKSUMS[place % len(CHECKSUMS)]}", *more]
    return subprocess.Popen(words, stdout=subprocess.PIPE, stderr=subprocess.PIPE, text=True, cwd=HERE)


def operations(what, runs):
    """How many reads and writes the runs made, which must have found all as it was written."""
    told = [(*ran.communicate(), ran.returncode) for ran in runs]
    for number, (_, faults, status) in enumerate(told):
        if status or faults.strip():
            raise Wrong(f"{what}, the files of client {number}: status {status}, {faults.strip()[:600]}")
    jobs = [json.loads(text[text.index("{") :])["jobs"][0] for text, _, _ in told]
    return sum(job[kind]["total_ios"] for job in jobs for kind in ("read", "write"))


def one_round(tops, place):
    """Each client writes and looks, and then looks at what its neighbour wrote."""
    numbers = range(len(WAYS))
    count = operations("a client wrote and looked", [fio(tops[number], number, place) for number in numbers])
    forget()
    looks = [fio(tops[number - 1], number, place, "--verify_only=1") for number in numbers]
    return count + operations("another client looked", looks)


def four_clients_verify():
    """fio writes and verifies by four clients at once, for some minutes."""
    if not shutil.which("fio"):
        say("fio is not there, so four clients verify nothing")
        return
    tops, rounds, count = [Path(f"/mnt/client{number}") for number in range(len(WAYS))], 0, 0
    for number, top in enumerate(tops):
        mount(GIVEN.path, top, GIVEN.port, ",nosharecache,actimeo=1", GIVEN.hosts[number])
        (A / f"fio{number}").mkdir()
    end = time.monotonic() + 60 * GIVEN.minutes
    try:
        while rounds == 0 or time.monotonic() < end:
            count += one_round(tops, rounds)
            rounds += 1
    finally:
        for top in tops:
            unmount(top)
    say(f"fio by {len(tops)} clients: {count} reads and writes in {rounds} rounds, {GIVEN.minutes} minutes")
    run("rm", "-r", *(A / f"fio{number}" for number in range(len(WAYS))))


CHECKS = (four_clients_verify,)
