"""What programs do that save by RENAME: mv, sed, editors, git, sqlite and os.replace, on a tree of
files that a Linux kernel mounts, by one mount and by two, also over kills of the service.

A module: `tree_uses.py` takes its checks. How much is done comes with GIVEN: `replaces`, `files`,
`minutes`, `seed` and `kills`. Its `watched_port` is one where each reply is judged on its way.
"""

import errno
import os
import random
import signal
import sqlite3
import time

from tree_mount import *

# So long a mount may take what it remembers for true.
REMEMBERS = 1.5
PROCESSES = 4


def in_child(act):
    """A process that does something, and ends with 0 where it was right."""
    child = os.fork()
    if child:
        return child
    status = 1
    try:
        act()
        status = 0
    except Exception as why:
        say(f"a process: {type(why).__name__}: {why}")
    finally:
        os._exit(status)


def ended_well(what, children):
    for child in children:
        equal(what, os.waitpid(child, 0)[1], 0)


# ---- mv


def mv_of_files_and_folders():
    """Within a folder, to another one, of trees, and back."""
    run("cp", "-a", HERE / "tree", A / "tree")
    (A / "other").mkdir()
    told, places = told_below(A / "tree"), [A / "tree", A / "moved", A / "other" / "tree", A / "other" / "again", A / "tree"]
    for path, goal in zip(places, places[1:]):
        run("mv", path, goal)
        forget()
        equal(f"what is in {goal}", told_below(goal), told)
        equal("what is in the other", names_in(A / "other"), [goal.name] if goal.parent != A else [])
    run("diff", "-r", "--no-dereference", A / "tree", HERE / "tree")
    before = (A / "tree" / "folder1").stat()
    run("mv", A / "tree" / "folder1", A / "other")
    after = (A / "other" / "folder1").stat()
    same = lambda told: (told.st_ino, told.st_mode, told.st_mtime_ns, told.st_uid)
    equal("the folder itself", same(after), same(before))
    equal("its ..", os.stat(A / "other" / "folder1" / "..").st_ino, (A / "other").stat().st_ino)
    refused("into itself", errno.EINVAL, lambda: os.rename(A / "other", A / "other" / "folder1" / "x"))
    run("rm", "-r", A / "tree", A / "other")


def told_below(top):
    """Numbers, sizes, modes, times and owners of each path below a folder."""
    told = {}
    for path in sorted(top.rglob("*")):
        it = path.lstat()
        told[str(path.relative_to(top))] = (it.st_ino, it.st_size, it.st_mode, it.st_mtime_ns, it.st_uid)
    return told


def mv_onto_others():
    """Onto a file, an empty folder, and what it cannot replace."""
    write(A / "one", b"one")
    write(A / "two", b"two")
    run("mv", A / "one", A / "two")
    equal("the names", names_in(A), ["two"])
    equal("the bytes", (A / "two").read_bytes(), b"one")
    (A / "empty").mkdir()
    (A / "full").mkdir()
    write(A / "full" / "inner", b"inner")
    kinds = (errno.EEXIST, errno.ENOTEMPTY, errno.EISDIR, errno.ENOTDIR)
    refused("a file onto a folder", kinds, lambda: os.rename(A / "two", A / "empty"))
    refused("a folder onto a file", kinds, lambda: os.rename(A / "empty", A / "two"))
    refused("a folder onto a full one", kinds, lambda: os.rename(A / "empty", A / "full"))
    refused("nothing", errno.ENOENT, lambda: os.rename(A / "nothing", A / "two"))
    os.rename(A / "full", A / "empty")
    equal("a folder onto an empty one", names_in(A / "empty"), ["inner"])
    os.rename(A / "two", A / "two")
    run("mv", "-n", A / "two", A / "empty" / "inner")
    equal("mv -n", (A / "empty" / "inner").read_bytes(), b"inner")
    run("mv", "-b", A / "two", A / "empty" / "inner")
    equal("mv -b", names_in(A / "empty"), ["inner", "inner~"])
    run("mv", A / "empty" / "inner", A / "empty" / ("n" * LONGEST_NAME))
    too_long = A / ("n" * (LONGEST_NAME + 1))
    refused("a name of 256 bytes", errno.ENAMETOOLONG, lambda: os.rename(A / "empty", too_long))
    run("rm", "-r", *(A / name for name in names_in(A)))


def who_may_rename():
    """A user renames in a folder of his own, and not in another's; in a sticky one his own."""
    for name, mode, owner in (("his", 0o755, USER), ("roots", 0o755, 0), ("sticky", 0o1777, 0)):
        (A / name).mkdir()
        os.chmod(A / name, mode)
        os.chown(A / name, owner, owner)
    write(A / "roots" / "file", b"x")
    write(A / "sticky" / "roots", b"x")

    def acts():
        write(A / "his" / "file", b"x")
        os.rename(A / "his" / "file", A / "his" / "new")
        os.rename(A / "his" / "new", A / "sticky" / "new")
        os.rename(A / "sticky" / "new", A / "sticky" / "renamed")
        no = (errno.EACCES, errno.EPERM)
        refused("in root's folder", no, lambda: os.rename(A / "roots" / "file", A / "roots" / "new"))
        refused("out of root's folder", no, lambda: os.rename(A / "roots" / "file", A / "his" / "new"))
        refused("into root's folder", no, lambda: os.rename(A / "sticky" / "renamed", A / "roots" / "new"))
        refused("root's own in a sticky folder", no, lambda: os.rename(A / "sticky" / "roots", A / "sticky" / "new"))
        refused("onto root's own", no, lambda: os.rename(A / "sticky" / "renamed", A / "sticky" / "roots"))

    as_user(USER, USER, acts)
    run("rm", "-r", A / "his", A / "roots", A / "sticky")


def a_tree_of_many_files():
    """It is copied, moved, compared and removed."""
    for number in range(GIVEN.files):
        folder = HERE / "many" / f"d{number // 100}"
        folder.mkdir(parents=True, exist_ok=True)
        write(folder / f"f{number}", b"%d\n" % number * 150)
    before, begun = calls(A), time.monotonic()
    run("cp", "-r", HERE / "many", A / "copied")
    run("mv", A / "copied", A / "moved")
    forget()
    run("diff", "-r", A / "moved", HERE / "many")
    run("rm", "-r", A / "moved")
    spent = calls(A) - before
    say(f"a tree of {GIVEN.files} files: {time.monotonic() - begun:.1f} s, {sum(spent.values())} calls")
    equal("what is left", names_in(A), [])


# ---- files that are saved


def replaces_by_four_processes():
    """Each process writes beside a file and replaces it, one that is its own and one of all. By the
    other mount a reader sees whole versions alone."""
    folder = A / "replaced"
    folder.mkdir()
    write(folder / "shared", version(0, 0))
    each = GIVEN.replaces // PROCESSES
    reader = in_child(lambda: read_versions(B / "replaced" / "shared"))
    begun = time.monotonic()
    children = [in_child(lambda number=number: replace(folder, number, each)) for number in range(PROCESSES)]
    ended_well("a process that replaces", children)
    spent = time.monotonic() - begun
    os.kill(reader, signal.SIGTERM)
    equal("the reader", os.waitpid(reader, 0)[1], signal.SIGTERM)
    say(f"{each * PROCESSES} times os.replace by {PROCESSES} processes: {spent:.1f} s")
    equal("the names", names_in(folder), sorted(["shared", *(f"own{number}" for number in range(PROCESSES))]))
    for number in range(PROCESSES):
        equal("the last version", (folder / f"own{number}").read_bytes(), version(number, each - 1))
    run("rm", "-r", folder)


def version(process, number):
    return b"%d %d\n" % (process, number) * 700


def replace(folder, process, count):
    for number in range(count):
        goal = folder / ("shared" if number % 2 == 0 else f"own{process}")
        write(folder / f"beside{process}", version(process, number))
        os.replace(folder / f"beside{process}", goal)
    if count % 2:
        write(folder / f"own{process}", version(process, count - 1))


def read_versions(path):
    """Reads a file for ever. One that is replaced while it is open may be stale."""
    while True:
        try:
            lines = path.read_bytes().split(b"\n")
        except OSError as why:
            if why.errno not in (errno.ESTALE, errno.EIO):
                raise
            continue
        if len(lines) != 701 or len(set(lines[:-1])) != 1:
            raise Wrong(f"{len(lines)} lines of {len(set(lines))} kinds")


def saves_of_editors():
    """sed -i, vim in each of its ways to save, and perl -i."""
    text = "".join(f"line {number} one\n" for number in range(400))
    path, before = A / "text", calls(A)
    write(path, text.encode(), 0o640)
    os.chown(path, USER, GROUP)
    run("sed", "-i", "s/one/two/", path)
    equal("sed -i", path.read_text(), text.replace("one", "two"))
    told = path.stat()
    equal("mode and owner after sed -i", (told.st_mode & 0o7777, told.st_uid, told.st_gid), (0o640, USER, GROUP))
    run("sed", "-i.old", "s/two/three/", path)
    equal("sed -i.old", (A / "text.old").read_text(), text.replace("one", "two"))
    run("perl", "-i", "-pe", "s/three/four/", path)
    equal("perl -i", path.read_text(), text.replace("one", "four"))
    for number, ways in enumerate(("backupcopy=yes", "backupcopy=no", "backupcopy=auto", "nowritebackup", "backup")):
        edit = ("-c", f"set {ways}", "-c", "%s/four/four/", "-c", f"$s/$/ {number}/", "-c", "wq")
        run("vim", "-u", "NONE", "-i", "NONE", "-N", "-es", *edit, path)
        equal(f"vim with {ways}", path.read_text().endswith(f" {number}\n"), True)
    spent = calls(A) - before
    say("editors: " + ", ".join(f"{count} {call}" for call, count in sorted(spent.items())))
    equal("what they leave", names_in(A), ["text", "text.old", "text~"])
    run("rm", *(A / name for name in names_in(A)))


def fifty_saves():
    """What one save by a rename costs in calls. Another server is asked four for each."""
    before = calls(A)
    for number in range(50):
        write(A / "beside", b"version %d" % number)
        os.replace(A / "beside", A / "saved")
    spent = calls(A) - before
    say("50 saves: " + ", ".join(f"{count} {call}" for call, count in sorted(spent.items())))
    equal("the last one", (A / "saved").read_bytes(), b"version 49")
    os.remove(A / "saved")


def removal_of_open_files():
    """A file that is open is renamed by the client, and removed once it is closed."""
    for number in range(20):
        write(A / f"open{number}", bytes_of(5000))
    files = [open(A / f"open{number}", "rb", buffering=0) for number in range(20)]
    wanted = [os.pread(file.fileno(), 5000, 0) for file in files]
    run("rm", *(A / f"open{number}" for number in range(20)))
    hidden = names_in(A)
    equal("what stands for them", (len(hidden), {name[:4] for name in hidden}), (20, {".nfs"}))
    forget()
    for file, data in zip(files, wanted):
        equal("their bytes", os.pread(file.fileno(), 5000, 0) == data, True)
        file.close()
    equal("what is left", names_in(A), [])


def removal_of_files_that_another_client_has_open():
    """That client is told ESTALE, because only the one that removes a file knows who has it open."""
    write(A / "file", bytes_of(5000))
    with open(B / "file", "rb", buffering=0) as file:
        equal("its bytes", len(os.pread(file.fileno(), 5000, 0)), 5000)
        os.remove(A / "file")
        equal("what is left", names_in(A), [])
        forget()
        refused("a read", errno.ESTALE, lambda: os.pread(file.fileno(), 5000, 0))
        refused("its attributes", errno.ESTALE, lambda: os.fstat(file.fileno()))


# ---- two mounts


def a_folder_moved_under_another_mount():
    """One mount moves a folder while a process of the other one is in it."""
    (A / "moving" / "inner").mkdir(parents=True)
    (A / "goal").mkdir()
    write(A / "moving" / "inner" / "file", b"here")
    home = os.getcwd()
    os.chdir(B / "moving" / "inner")
    try:
        equal("before", os.listdir("."), ["file"])
        os.rename(A / "moving", A / "goal" / "moved")
        time.sleep(REMEMBERS)
        forget()
        equal("what is in it", os.listdir("."), ["file"])
        with open("file", "rb") as file:
            equal("the bytes", file.read(), b"here")
        write(Path("new"), b"new")
        os.rename("new", "newer")
    finally:
        os.chdir(home)
    equal("by the one", names_in(A / "goal" / "moved" / "inner"), ["file", "newer"])
    equal("by the other", names_in(B / "goal" / "moved" / "inner"), ["file", "newer"])
    equal("the old way", (B / "moving").exists(), False)
    run("rm", "-r", A / "goal")


def two_mounts_that_rename():
    """What one mount renames the other one sees, and two folders never hang in each other."""
    for number in range(4):
        write(A / f"here{number}", b"%d" % number)
        equal("before", (B / f"here{number}").read_bytes(), b"%d" % number)
        os.rename(A / f"here{number}", A / f"there{number}")
        equal("the new name", (B / f"there{number}").read_bytes(), b"%d" % number)
        time.sleep(REMEMBERS)
        equal("the old name", (B / f"here{number}").exists(), False)
    for top in ("first", "second"):
        (A / top).mkdir()
    equal("both are seen", (B / "first").is_dir() and (B / "second").is_dir(), True)
    os.rename(A / "first", A / "second" / "first")
    circle = lambda: os.rename(B / "second", B / "first" / "second")
    refused("the other into the one", (errno.EINVAL, errno.ENOENT, errno.ESTALE), circle)
    equal("the way", names_in(A / "second"), ["first"])
    run("rm", "-r", *(A / name for name in names_in(A)))


def difference(got, wanted):
    """How bytes that were read are not those that are wanted."""
    places = [place for place, pair in enumerate(zip(got, wanted)) if pair[0] != pair[1]]
    told = f"{len(got)} bytes of {len(wanted)}"
    return f"{told}, {len(places)} of them wrong, from {places[0]} to {places[-1]}" if places else told


class Exercised:
    """A file, and the bytes that it must have. Two mounts take turns; each opens it, does some
    things, and closes it. A new name is one that no mount has looked for."""

    def __init__(self, top, choice):
        self.choice, self.wanted, self.names = choice, bytearray(), 0
        self.name, self.done = "exercised", 0
        write(top / self.name, b"")

    def turn(self, top):
        look_up(top / self.name)
        with open(top / self.name, "r+b", buffering=0) as file:
            for _ in range(self.choice.randint(1, 8)):
                self.choice.choice((self.read, self.read, self.write, self.write, self.cut, self.append))(file.fileno())
                self.done += 1
        if self.choice.random() < 0.2:
            self.rename(top)
        elif self.choice.random() < 0.1:
            self.save_beside(top)

    def span(self):
        return any_place(self.choice), self.choice.choice((1, 10, 700, 4096, 5000, 70000))

    def read(self, file):
        """What is wrong is read again once the kernel has forgotten it, so that one sees who erred."""
        start, size = self.span()
        got, wanted = os.pread(file, size, start), bytes(self.wanted[start : start + size])
        if got != wanted:
            forget()
            again = os.pread(file, size, start)
            then = "right" if again == wanted else difference(again, wanted)
            raise Wrong(f"read {self.done} at {start}: {difference(got, wanted)}; once the kernel forgot it: {then}")

    def write(self, file):
        start, size = self.span()
        data = self.choice.randbytes(size)
        equal("bytes written", os.pwrite(file, data, start), size)
        self.wanted = self.wanted.ljust(start, b"\0")
        self.wanted[start : start + size] = data

    def append(self, file):
        size = self.choice.randrange(3000)
        data = self.choice.randbytes(size)
        os.pwrite(file, data, len(self.wanted))
        self.wanted += data

    def cut(self, file):
        size = self.choice.choice((0, any_place(self.choice), any_place(self.choice)))
        os.ftruncate(file, size)
        self.wanted = self.wanted[:size].ljust(size, b"\0")
        equal("the size", os.fstat(file).st_size, size)

    def rename(self, top):
        self.names += 1
        os.rename(top / self.name, top / f"exercised{self.names}")
        self.name = f"exercised{self.names}"

    def save_beside(self, top):
        """Another file with other bytes takes its name."""
        self.wanted = bytearray(self.choice.randbytes(self.choice.randrange(60000)))
        write(top / "beside", bytes(self.wanted))
        os.replace(top / "beside", top / self.name)


def two_mounts_exercise_a_file():
    """Random reads, writes, sizes, renames and saves, by two mounts in turn, beside a model. Their
    replies are judged on their way."""
    tops = Path("/mnt/first"), Path("/mnt/second")
    for top, more in zip(tops, ("", ",nosharecache,actimeo=1")):
        mount(GIVEN.path, top, GIVEN.watched_port, more)
    try:
        exercise(tops, random.Random(GIVEN.seed), time.monotonic() + 60 * GIVEN.minutes)
    finally:
        for top in tops:
            unmount(top)


def exercise(tops, choice, end):
    file = Exercised(tops[0], choice)
    while time.monotonic() < end:
        file.turn(choice.choice(tops))
    forget()
    equal("all bytes", (tops[0] / file.name).read_bytes() == bytes(file.wanted), True)
    equal("the names", names_in(tops[0]), [file.name])
    say(f"{file.done} reads, writes and sizes, {file.names} renames, in {GIVEN.minutes} minutes")
    os.remove(tops[0] / file.name)


# ---- git and sqlite


def git(top, *words):
    return run("git", "-C", top, *words)


def a_repository():
    """git: init, add, commit, status, mv, merge, gc, fsck, clone."""
    os.environ |= {"HOME": str(HERE), "GIT_CONFIG_NOSYSTEM": "1"}
    for who in ("AUTHOR", "COMMITTER"):
        os.environ |= {f"GIT_{who}_NAME": "judge", f"GIT_{who}_EMAIL": "judge@example.org"}
    top, begun, before = A / "repository", time.monotonic(), calls(A)
    run("git", "init", "-q", "-b", "main", top)
    for number in range(GIVEN.files):
        folder = top / f"d{number // 100}"
        folder.mkdir(exist_ok=True)
        write(folder / f"f{number}", b"file %d\n" % number)
    git(top, "add", "-A")
    git(top, "commit", "-q", "-m", "all")
    changes_of_a_repository(top)
    git(top, "gc", "-q")
    git(top, "fsck", "--strict", "--no-progress")
    forget()
    equal("status", git(top, "status", "--porcelain"), "")
    run("git", "clone", "-q", top, A / "clone")
    equal("the clone", git(A / "clone", "rev-parse", "HEAD"), git(top, "rev-parse", "HEAD"))
    run("diff", "-r", "-x", ".git", top, A / "clone")
    spent = calls(A) - before
    say(f"git, {GIVEN.files} files: {time.monotonic() - begun:.1f} s, {sum(spent.values())} calls")
    run("rm", "-rf", top, A / "clone")


def changes_of_a_repository(top):
    git(top, "checkout", "-q", "-b", "branch")
    for number in range(0, GIVEN.files, 7):
        write(top / f"d{number // 100}" / f"f{number}", b"changed %d\n" % number)
    git(top, "mv", "d0/f1", "d0/moved")
    equal("status of the changes", len(git(top, "status", "--porcelain").splitlines()), len(range(0, GIVEN.files, 7)) + 1)
    git(top, "commit", "-q", "-a", "-m", "changes")
    git(top, "checkout", "-q", "main")
    equal("the old bytes", (top / "d0" / "f0").read_bytes(), b"file 0\n")
    write(top / "new", b"new\n")
    git(top, "add", "new")
    git(top, "commit", "-q", "-m", "new")
    git(top, "merge", "-q", "-m", "merged", "branch")
    equal("both changes", ((top / "d0" / "f0").read_bytes(), (top / "new").read_bytes()), (b"changed 0\n", b"new\n"))


def a_database():
    """sqlite in its default mode: a process commits until it is killed, and each second time the
    service is killed too. What was committed is there, and integrity_check is ok. Some twenty are
    committed for each kill."""
    path, told = A / "database", HERE / "told"
    with sqlite3.connect(path) as database:
        equal("the mode", database.execute("pragma journal_mode").fetchone(), ("delete",))
        database.execute("create table t (number integer primary key, twice integer)")
    database.close()
    told.write_bytes(b"")
    choice, faults = random.Random(23), 0
    for number in range(GIVEN.kills):
        child = in_child(lambda: commit_for_ever(path, told))
        wait_for_commits(told, choice.randint(10, 30))
        if number % 2:
            print("DO restart", flush=True)
            time.sleep(choice.uniform(0, 3))
        os.kill(child, signal.SIGKILL)
        faults += os.waitpid(child, 0)[1] != signal.SIGKILL
        is_whole(path, told)
    rows = len(told.read_bytes()) // 8
    say(f"sqlite: {rows} transactions committed, {GIVEN.kills} kills, {faults} processes ended by a fault")
    equal("something was committed", rows > 0, True)
    for name in names_in(A):
        os.remove(A / name)


def wait_for_commits(told, count):
    """Waits until so many were told, and a part of one more was done."""
    goal, end = told.stat().st_size + 8 * count, time.monotonic() + 120
    while told.stat().st_size < goal and time.monotonic() < end:
        time.sleep(random.uniform(0.001, 0.02))


def commit_for_ever(path, told):
    """Commits a row after another, and notes each that was answered."""
    database = sqlite3.connect(path, timeout=60)
    with open(told, "ab", buffering=0) as notes:
        while True:
            with database:
                last = database.execute("select coalesce(max(number), 0) from t").fetchone()[0]
                database.execute("delete from t where number < ?", (last - 3000,))
                database.execute("insert into t values (?, ?)", (last + 1, 2 * last + 2))
            notes.write((last + 1).to_bytes(8, "big"))


def is_whole(path, told):
    """What was told is there, but for rows that were deleted since."""
    database = sqlite3.connect(path, timeout=60)
    equal("integrity_check", database.execute("pragma integrity_check").fetchall(), [("ok",)])
    rows = dict(database.execute("select number, twice from t"))
    database.close()
    notes = told.read_bytes()
    numbers = [int.from_bytes(notes[at : at + 8], "big") for at in range(0, len(notes), 8)]
    lost = [number for number in numbers if number not in rows and number >= max(rows, default=0) - 3000]
    equal("rows that are lost", lost[:5], [])
    equal("rows that are torn", [row for row in rows.items() if row[1] != 2 * row[0]], [])


# ---- kills


def kills_under_saves():
    """Files are saved by a rename while the service is killed and started again: each has one
    whole version, the last that was saved. A call that was done and not answered is sent again, and
    may be told ENOENT then; how often is said."""
    folder, wanted, faults = A / "killed", {}, 0
    folder.mkdir()
    for number in range(40 * max(GIVEN.kills, 1)):
        name, data = f"file{number % 7}", version(number, number)
        if number % 40 == 20:
            print("DO restart", flush=True)
        write(folder / "beside", data)
        try:
            os.replace(folder / "beside", folder / name)
        except FileNotFoundError:
            faults += 1
            equal("a RENAME told ENOENT is done", (folder / name).read_bytes() == data, True)
        wanted[name] = data
    forget()
    for name, data in wanted.items():
        equal(f"the bytes of {name}", (folder / name).read_bytes() == data, True)
    equal("the names", names_in(folder), sorted(wanted))
    say(f"{max(GIVEN.kills, 1)} kills under saves: {faults} times ENOENT of a RENAME that was done")
    run("rm", "-r", folder)


CHECKS = (
    mv_of_files_and_folders,
    mv_onto_others,
    who_may_rename,
    a_tree_of_many_files,
    replaces_by_four_processes,
    saves_of_editors,
    fifty_saves,
    removal_of_open_files,
    removal_of_files_that_another_client_has_open,
    a_folder_moved_under_another_mount,
    two_mounts_that_rename,
    two_mounts_exercise_a_file,
    a_repository,
    a_database,
    kills_under_saves,
)
