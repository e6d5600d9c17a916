"""How long a Linux kernel's uses of mounted trees take. `tree-speed` runs it as root within the
kernel's machine.

    python3 tree_timed.py GIVEN

GIVEN is a file of JSON with the servers, how many turns they take, how many MiB a large file has, and
a word: those uses alone are made whose name has it. Each use prints a line, `took SECONDS CALLS
SERVER USE`. A line `DO forget` asks that the servers' machine forgets what it has in memory.
"""

import os
import sqlite3
import subprocess
import sys
import time

from tree_mount import *

FILES, FILES_IN_GIT, SAVES, INSERTS = 400, 200, 100, 50
FORGETS = 3  # So many seconds the servers' machine has to forget.


def make_sources():
    """What is unpacked: files of some sizes in ten folders."""
    for number in range(FILES):
        folder = HERE / "tree" / f"folder{number % 10}"
        folder.mkdir(parents=True, exist_ok=True)
        write(folder / f"file{number}", bytes_of((10, 3000, 9000, 20000)[number % 4]))
    run("tar", "-C", HERE, "-cf", HERE / "tree.tar", "tree")


def git(top):
    run("git", "init", "-q", top)
    for number in range(FILES_IN_GIT):
        write(top / f"file{number}", b"file %d\n" % number)
    run("git", "-C", top, "add", "-A")
    run("git", "-C", top, "commit", "-q", "-m", "all")
    for number in range(0, FILES_IN_GIT, 5):
        write(top / f"file{number}", b"changed %d\n" % number)
    run("git", "-C", top, "commit", "-q", "-a", "-m", "changes")
    run("git", "-C", top, "gc", "-q")


def inserts(top):
    top.mkdir()
    database = sqlite3.connect(top / "database")
    database.execute("create table t (number integer)")
    for number in range(INSERTS):
        with database:
            database.execute("insert into t values (?)", (number,))
    database.close()


def saves(top):
    top.mkdir()
    for number in range(SAVES):
        write(top / "beside", b"version %d" % number)
        os.replace(top / "beside", top / "saved")


def dd(*words):
    # What dd says of its speed goes nowhere.
    run("dd", "status=none", "bs=1M", *words)


def forget_all():
    """Neither this machine nor that of the servers has a file in memory then."""
    forget()
    print("DO forget", flush=True)
    time.sleep(FORGETS)


def uses_of_a_large_file(path):
    """Each use by its name, with what comes before it and is not measured."""
    nothing = lambda: None
    return {
        f"dd of {GIVEN.large} MiB, fsync": (nothing, lambda: dd("if=/dev/zero", f"of={path}", f"count={GIVEN.large}", "conv=fsync")),
        f"dd reads {GIVEN.large} MiB, from the device": (forget_all, lambda: dd(f"if={path}", "of=/dev/null")),
        f"dd reads {GIVEN.large} MiB again": (forget, lambda: dd(f"if={path}", "of=/dev/null")),
        f"rm of {GIVEN.large} MiB": (nothing, lambda: os.remove(path)),
    }


def uses(top):
    """Each use by its name, in their order."""
    (top / "untar").mkdir()
    return {
        "tar x": lambda: run("tar", "-C", top / "untar", "-xf", HERE / "tree.tar"),
        "ls -lR": lambda: (forget(), run("ls", "-lR", top / "untar")),
        "tar c": lambda: (forget(), run("tar", "-C", top / "untar", "-cf", HERE / "back.tar", "tree")),
        "cp -r": lambda: run("cp", "-r", top / "untar" / "tree", top / "copied"),
        "git init, add, commit, gc": lambda: git(top / "git"),
        "50 inserts by sqlite": lambda: inserts(top / "sqlite"),
        "100 saves by a rename": lambda: saves(top / "saves"),
        "rm -rf": lambda: run("rm", "-rf", *(top / name for name in names_in(top))),
    }


def took(server, name, use):
    before, begun = calls(A), time.monotonic()
    use()
    print(f"took {time.monotonic() - begun:.3f} {sum((calls(A) - before).values())} {server['name']} {name}", flush=True)


def measure(server, turn):
    GIVEN.port, GIVEN.mount_port = server["port"], server["mount_port"]
    mount(server["path"], A, server["port"])
    try:
        top = A / f"turn{turn}"
        top.mkdir()
        for name, use in uses(top).items():
            if GIVEN.only in name or name in ("tar x", "rm -rf"):
                took(server, name, use)
        top.rmdir()
        for name, (prepare, use) in uses_of_a_large_file(A / f"large{turn}").items() if GIVEN.large else ():
            prepare()
            took(server, name, use)
    finally:
        unmount(A)


def main():
    HERE.mkdir()
    os.umask(0o022)
    os.environ |= {"HOME": str(HERE), "GIT_CONFIG_NOSYSTEM": "1"}
    for who in ("AUTHOR", "COMMITTER"):
        os.environ |= {f"GIT_{who}_NAME": "judge", f"GIT_{who}_EMAIL": "judge@example.org"}
    make_sources()
    for turn in range(GIVEN.turns):
        for server in GIVEN.servers[:: 1 if turn % 2 == 0 else -1]:
            measure(server, turn)


if __name__ == "__main__":
    begin(sys.argv[1])
    try:
        main()
    except (OSError, Wrong, subprocess.SubprocessError, sqlite3.Error) as why:
        print(f"WRONG {why}", flush=True)
