"""What a Linux kernel does with a tree of files that it mounts. `mount-tree` runs it as root within
the kernel's machine.

    python3 tree_uses.py GIVEN

GIVEN is a file of JSON with what `tree_mount.py` reads: where the tree is served, and a small one
of few blocks, which gets full; how many blocks of data and inodes the first one has; how much is to
be done. Each check prints a line, `ok NAME` or `WRONG NAME: WHY`, and those alone are made whose
name has the word in it that is given. A line `DO restart` asks that the service is killed and
started again. What is needed lies below /mnt, which must be writable. Checks of what saves by
RENAME are in `tree_saves.py`, those that Connectathon's basic ones make in `tree_basics.py`, and one
by fio in `tree_fio.py`.
"""

import errno
import filecmp
import mmap
import os
import random
import shutil
import stat
import subprocess
import sys
import time
import traceback
from pathlib import Path

import tree_basics
import tree_fio
import tree_saves
from tree_mount import *

# ---- trees


def make_tree(top):
    """A tree of folders and files of every size, with rights and times of their own. It is not on
    the mount."""
    sizes = [0, 1, 511, 4095, 4096, 4097, 8192, 49152, 65535, 65536, 65537, 131072, DIRECT_BYTES - 1, DIRECT_BYTES, DIRECT_BYTES + 1]
    for number in range(12):
        folder = top / f"folder{number}" / "inner" / "deep"
        folder.mkdir(parents=True)
        for place, size in enumerate(sizes):
            path = (folder, folder.parent, folder.parent.parent)[place % 3] / f"file{place}-{size}"
            write(path, bytes_of(size), (0o644, 0o444, 0o600, 0o755, 0o400)[place % 5])
            os.utime(path, ns=(10**18 + place, 10**18 + number * 10**9 + place))
    make_links(top)
    (top / "empty").mkdir(mode=0o700)
    (top / "name with blanks and ümläuts").write_text("x")
    os.chown(top / "empty", USER, GROUP)
    for folder, _, _ in os.walk(top, topdown=False):
        os.utime(folder, ns=(10**18, 10**18 + 12345))


def make_links(top):
    """Links to a file, to a folder, above, to nothing and of the greatest length, with owners and
    times of their own."""
    texts = ("folder0/inner/file1-1", "folder1", "../tree/folder2", "nothing", "/nowhere/at all", "x" * LONGEST_TEXT)
    for number, text in enumerate(texts):
        path = top / f"link{number}"
        path.symlink_to(text)
        os.chown(path, USER, GROUP, follow_symlinks=False)
        os.utime(path, ns=(10**18, 10**18 + number), follow_symlinks=False)


def paths_below(top):
    """All paths below a folder. No link is followed."""
    return [Path(folder, name) for folder, folders, files in os.walk(top) for name in folders + files]


def shown(top):
    """What `stat` and `readlink` tell of each path below a folder, which a copy must tell too."""
    told = {}
    for path in sorted(paths_below(top)):
        it = path.lstat()
        size = it.st_size if stat.S_ISREG(it.st_mode) else None
        text = os.readlink(path) if path.is_symlink() else None
        told[str(path.relative_to(top))] = (oct(it.st_mode), it.st_uid, it.st_gid, size, it.st_mtime_ns, text)
    return told


def same_tree(what, copy, original):
    forget()
    told, wanted = shown(copy), shown(original)
    for path in sorted({*told, *wanted}):
        equal(f"{what}: {path}", told.get(path), wanted.get(path))
    for path in paths_below(original):
        if not path.is_symlink() and path.is_file() and not filecmp.cmp(path, copy / path.relative_to(original), shallow=False):
            raise Wrong(f"{what}: {path} has other bytes")


def copies_of_a_tree():
    """cp -a, and what ls, find, du and grep see of it."""
    run("cp", "-a", HERE / "tree", A / "copied")
    same_tree("cp -a", A / "copied", HERE / "tree")
    lines = [len(run("ls", "-lR", top).splitlines()) for top in (A / "copied", HERE / "tree")]
    equal("lines of ls -lR", *lines)
    equal("find", *[len(run("find", top).splitlines()) for top in (A / "copied", HERE / "tree")])
    run("du", "-s", A / "copied")
    run("diff", "-r", "--no-dereference", A / "copied", HERE / "tree")
    # Without --reflink=never cp asks the system to copy past the end, which it refuses at the
    # greatest size.
    run("cp", "-a", "--reflink=never", A / "copied", A / "again")
    same_tree("cp -a on the mount", A / "again", HERE / "tree")


def archives():
    """tar x and tar c."""
    run("tar", "-C", HERE, "--format=posix", "-cf", HERE / "tree.tar", "tree")
    (A / "untar").mkdir()
    run("tar", "-C", A / "untar", "-xpf", HERE / "tree.tar")
    same_tree("tar x", A / "untar" / "tree", HERE / "tree")
    run("tar", "-C", A / "untar", "-cf", HERE / "back.tar", "tree")
    run("tar", "-C", HERE, "-df", HERE / "back.tar")


def removals_of_trees():
    run("cp", "-a", HERE / "tree", A / "copied")
    refused("removing a folder that is not empty", errno.ENOTEMPTY, (A / "copied" / "folder1").rmdir)
    run("rm", "-r", A / "copied")
    equal("what rm -r leaves", names_in(A), [])


def a_users_own_archive():
    """A user who is not root unpacks files of mode 0444 into folders of his own."""
    (A / "his").mkdir()
    os.chown(A / "his", USER, USER)
    os.chmod(HERE / "tree.tar", 0o644)
    as_user(USER, USER, lambda: run("tar", "-C", A / "his", "--no-same-owner", "-xf", HERE / "tree.tar"))
    forget()
    for path in paths_below(A / "his"):
        equal(f"the owner of {path}", path.lstat().st_uid, USER)
    as_user(USER, USER, lambda: run("rm", "-rf", A / "his" / "tree"))
    (A / "his").rmdir()


# ---- rights


def modes():
    (A / "folder").mkdir()
    write(A / "file", b"x")
    for path in (A / "file", A / "folder"):
        for mode in (0, 0o777, 0o644, 0o1777, 0o2755, 0o7777, 0o421):
            os.chmod(path, mode)
            forget()
            equal(f"chmod {mode:o} {path.name}", stat.S_IMODE(path.stat().st_mode), mode)
    os.chmod(A / "file", 0o6755)
    os.chown(A / "file", USER, GROUP)
    forget()
    told = (A / "file").stat()
    equal("chown", (told.st_uid, told.st_gid, stat.S_IMODE(told.st_mode)), (USER, GROUP, 0o755))
    run("rm", "-r", A / "file", A / "folder")


def a_second_user():
    """A user who is neither the owner nor in the group is refused what the mode does not give him."""
    (A / "roots").mkdir(mode=0o755)
    (A / "closed").mkdir(mode=0o700)
    write(A / "closed" / "inner", b"x")
    for mode in (0o644, 0o600):
        write(A / f"file{mode:o}", b"secret")
        os.chmod(A / f"file{mode:o}", mode)

    def acts():
        refused("a file in root's folder", errno.EACCES, lambda: write(A / "roots" / "x", b""))
        refused("a folder in root's folder", errno.EACCES, lambda: (A / "roots" / "x").mkdir())
        refused("writing root's file", errno.EACCES, lambda: open(A / "file644", "ab"))
        refused("reading a file of 0600", errno.EACCES, lambda: open(A / "file600", "rb"))
        refused("removing root's file", (errno.EACCES, errno.EPERM), lambda: os.remove(A / "file644"))
        refused("chmod", errno.EPERM, lambda: os.chmod(A / "file644", 0o666))
        refused("chown", errno.EPERM, lambda: os.chown(A / "file644", NOBODY, NOBODY))
        refused("a time", errno.EPERM, lambda: os.utime(A / "file644", (1, 1)))
        refused("the moment", errno.EACCES, lambda: os.utime(A / "file644"))
        refused("listing a folder of 0700", errno.EACCES, lambda: os.listdir(A / "closed"))
        refused("a name in a folder of 0700", errno.EACCES, lambda: os.stat(A / "closed" / "inner"))
        equal("reading a file of 0644", (A / "file644").read_bytes(), b"secret")

    as_user(NOBODY, NOBODY, acts)
    as_user(USER, USER, acts)
    os.chown(A / "file600", 0, GROUP)
    os.chmod(A / "file600", 0o640)
    as_user(USER, USER, lambda: equal("reading as a member", (A / "file600").read_bytes(), b"secret"), [5, GROUP])
    run("rm", "-r", A / "roots", A / "closed", A / "file644", A / "file600")


def owners_of_closed_files():
    """A file's maker may fill it, whatever its mode is; and who may run a file may read it."""
    (A / "all").mkdir()
    os.chmod(A / "all", 0o777)

    def acts():
        write(A / "all" / "closed", b"filled", 0o444)
        refused("opening it again to write", errno.EACCES, lambda: open(A / "all" / "closed", "ab"))
        os.chmod(A / "all" / "closed", 0o644)
        write(A / "all" / "closed", b"again")

    as_user(USER, USER, acts)
    equal("its bytes", (A / "all" / "closed").read_bytes(), b"again")
    run("rm", "-r", A / "all")


def programs():
    """Files that are run, one of them by a user who may run it and not read it."""
    shutil.copy("/bin/true", A / "true")
    os.chmod(A / "true", 0o711)
    write(A / "script", b"#!/bin/sh\nexit 0\n", 0o755)
    forget()
    for program in (A / "true", A / "script"):
        run(program)
        as_user(NOBODY, NOBODY, lambda: run(program))
    os.chmod(A / "true", 0o644)
    forget()
    refused("running a file of 0644", errno.EACCES, lambda: run(A / "true"))
    run("rm", A / "true", A / "script")


def sticky_and_set_group_folders():
    (A / "sticky").mkdir()
    os.chmod(A / "sticky", 0o1777)
    as_user(USER, USER, lambda: write(A / "sticky" / "his", b"x"))
    refusals = (errno.EPERM, errno.EACCES)
    remove = lambda: os.remove(A / "sticky" / "his")
    as_user(NOBODY, NOBODY, lambda: refused("removing another's file", refusals, remove))
    as_user(USER, USER, remove)
    (A / "group").mkdir()
    os.chown(A / "group", 0, GROUP)
    os.chmod(A / "group", 0o2777)

    def makes():
        write(A / "group" / "file", b"x")
        (A / "group" / "folder").mkdir()

    as_user(USER, USER, makes)
    equal("the group of a file", (A / "group" / "file").stat().st_gid, GROUP)
    told = (A / "group" / "folder").stat()
    equal("a folder", (told.st_gid, bool(told.st_mode & stat.S_ISGID)), (GROUP, True))
    run("rm", "-r", A / "sticky", A / "group")


def suid_bits():
    """A write by who is not root clears them."""
    write(A / "suid", b"x")
    os.chown(A / "suid", USER, USER)
    os.chmod(A / "suid", 0o6777)

    def writes():
        with open(A / "suid", "r+b") as file:
            file.write(b"y")

    as_user(NOBODY, NOBODY, writes)
    forget()
    equal("the mode after a write", oct((A / "suid").stat().st_mode & 0o7777), oct(0o777))
    os.remove(A / "suid")


# ---- names and sizes


def names():
    plain = ("f002", ".nfs", "UPPER", "upper")
    for name in ("n" * LONGEST_NAME, "ü" * 127, " ", "...", "-rf", "a\nb", "\x01", "%s", *plain):
        write(A / name, name.encode())
    forget()
    for name in names_in(A):
        equal(f"the file {name[:9]!r}", (A / name).read_bytes(), name.encode())
    equal("how many", len(names_in(A)), 12)
    too_long = A / ("n" * (LONGEST_NAME + 1))
    for what, act in (("file", lambda: write(too_long, b"")), ("folder", too_long.mkdir), ("stat", too_long.stat)):
        refused(f"a name of 256 bytes: {what}", errno.ENAMETOOLONG, act)
    refused("a file that is not there", errno.ENOENT, lambda: os.remove(A / "nothing"))
    for name in names_in(A):
        os.remove(A / name)


def depth():
    """Folders in folders, thirty deep."""
    path = A.joinpath(*["d" * number for number in range(1, 31)])
    path.mkdir(parents=True)
    write(path / "file", b"deep")
    forget()
    equal("what is deep below", (path / "file").read_bytes(), b"deep")
    equal(".. of the deepest", os.stat(path / "..").st_ino, path.parent.stat().st_ino)
    refused("removing a folder that is not empty", errno.ENOTEMPTY, path.rmdir)
    run("rm", "-r", A / "d")


def greatest_size():
    """A file of the greatest size, of which the last bytes alone were written."""
    path = A / "greatest"
    write(path, b"")
    os.truncate(path, MOST_BYTES)
    with open(path, "r+b", buffering=0) as file:
        equal("bytes written", os.pwrite(file.fileno(), b"end", MOST_BYTES - 3), 3)
        refused("one byte more", errno.EFBIG, lambda: os.pwrite(file.fileno(), b"x", MOST_BYTES))
    refused("a size of one more", (errno.EFBIG, errno.EINVAL), lambda: os.truncate(path, MOST_BYTES + 1))
    forget()
    equal("its size stays", path.stat().st_size, MOST_BYTES)
    with open(path, "rb", buffering=0) as file:
        equal("its last bytes", os.pread(file.fileno(), 100, MOST_BYTES - 5), b"\0\0end")
        equal("what was never written", os.pread(file.fileno(), BLOCK, MOST_BYTES // 2), bytes(BLOCK))
    last = MOST_BYTES // BLOCK - 1
    line = ["dd", "if=/dev/zero", f"of={A / 'dd'}", "bs=4096", f"seek={last}", "count=2", "conv=fsync"]
    ran = subprocess.run(line, capture_output=True, text=True)
    equal("dd of one block too many", ("File too large" in ran.stderr, ran.returncode), (True, 1))
    for name in names_in(A):
        os.remove(A / name)


def many_files():
    """5000 files in one folder."""
    folder, moments = A / "many", [time.monotonic()]
    folder.mkdir()
    for number in range(5000):
        os.close(os.open(folder / f"file{number}", os.O_CREAT | os.O_WRONLY | os.O_EXCL))
    moments.append(time.monotonic())
    forget()
    equal("listed", set(os.listdir(folder)), {f"file{number}" for number in range(5000)})
    moments.append(time.monotonic())
    equal("each is there", {(folder / f"file{number}").stat().st_size for number in range(5000)}, {0})
    equal("lines of ls -l", len(run("ls", "-l", folder).splitlines()), 5001)
    moments.append(time.monotonic())
    run("rm", "-r", folder)
    moments.append(time.monotonic())
    equal("nothing is left", folder.exists(), False)
    spent = [f"{after - before:.1f}" for before, after in zip(moments, moments[1:])]
    say("5000 files: seconds to make, to list, to stat, to remove: " + ", ".join(spent))


def listing_while_names_change():
    """What stays throughout is listed once, whatever comes and goes meanwhile."""
    (A / "changing").mkdir()
    stay = {f"stays{number}" for number in range(700)}
    for number in range(700):
        write(A / "changing" / f"stays{number}", b"")
        write(A / "changing" / f"goes{number}", b"")
    for number in range(0, 700, 100):
        with os.scandir(B / "changing") as listing:
            found = []
            for place, item in enumerate(listing):
                found.append(item.name)
                if place % 20 == 0 and place // 20 < 100:
                    os.remove(A / "changing" / f"goes{number + place // 20}")
                    write(A / "changing" / f"comes{number + place // 20}", b"")
        equal("what stays is listed once", sorted(name for name in found if name in stay), sorted(stay))
    run("rm", "-r", A / "changing")


# ---- room


def room():
    told = os.statvfs(A)
    equal("units of the file system", told.f_blocks, -(-GIVEN.data_blocks * BLOCK // told.f_frsize))
    equal("files of the file system", told.f_files, GIVEN.inodes - 1)
    equal("the longest name", told.f_namemax, LONGEST_NAME)
    if not 0 < told.f_bavail <= told.f_blocks or not 0 < told.f_favail <= told.f_files:
        raise Wrong(f"free: {told.f_bavail} of {told.f_blocks} blocks, {told.f_favail} of {told.f_files} files")
    write(A / "takes", bytes_of(REACH))
    os.sync()
    taken = told.f_bavail - os.statvfs(A).f_bavail
    # Both numbers of free units are rounded down.
    if not (taken + 1) * told.f_frsize >= REACH:
        raise Wrong(f"a file of {REACH} bytes takes {taken} units of {told.f_frsize}")
    os.remove(A / "takes")
    for words in (("df", A), ("df", "-i", A)):
        say(" ".join(run(*words).splitlines()[-1].split()))


def fill(path):
    """Writes to a file until the system refuses."""
    with open(path, "wb", buffering=0) as file:
        for _ in range(48):
            file.write(bytes_of(BLOCK))
            os.fsync(file.fileno())


def full_disk():
    mount("/files", SMALL, GIVEN.small_port)
    try:
        write(SMALL / "first", b"stays")
        refused("writing more than there is", errno.ENOSPC, lambda: fill(SMALL / "filling"))
        equal("free then", os.statvfs(SMALL).f_bavail, 0)
        refused("a further file's bytes", errno.ENOSPC, lambda: fill(SMALL / "other"))
        forget()
        equal("what was there", (SMALL / "first").read_bytes(), b"stays")
        os.remove(SMALL / "filling")
        write(SMALL / "other", bytes_of(5 * BLOCK))
        forget()
        equal("there is room again", (SMALL / "other").stat().st_size, 5 * BLOCK)
        refused("all inodes", errno.ENOSPC, lambda: [write(SMALL / f"n{number}", b"") for number in range(2000)])
        os.remove(SMALL / "n7")
        write(SMALL / "again", b"")
        run("rm", "-r", *(SMALL / name for name in names_in(SMALL)))
    finally:
        unmount(SMALL)


# ---- times


def set_times():
    write(A / "file", b"x")
    run("touch", "-d", "1999-12-31 23:59:59.123456789 UTC", A / "file")
    forget()
    told = (A / "file").stat()
    equal("touch -d", told.st_mtime_ns, 946684799123456789)
    equal("the time of access is mtime", told.st_atime_ns, told.st_mtime_ns)
    os.utime(A / "file", ns=(0, (2**32 - 1) * 10**9))
    forget()
    equal("the last second", (A / "file").stat().st_mtime, 2**32 - 1)
    run("touch", "-a", A / "file")
    run("touch", A / "file")
    forget()
    if abs((A / "file").stat().st_mtime - time.time()) > 60:
        raise Wrong("touch sets another time than the moment")
    os.remove(A / "file")


def times_grow():
    """By a mount that remembers no attributes: ctime grows with each change, and a folder's times
    with each of its names."""
    mount("/files", SMALL, GIVEN.port, ",noac,nosharecache")
    try:
        folder = SMALL / "grows"
        folder.mkdir()
        of_folder = [folder.stat()]
        for number in range(20):
            write(folder / f"n{number}", b"")
            of_folder.append(folder.stat())
            os.remove(folder / f"n{number}")
            of_folder.append(folder.stat())
        for name in ("st_mtime_ns", "st_ctime_ns"):
            seen = [getattr(it, name) for it in of_folder]
            equal(f"the folder's {name} grows", seen, sorted(set(seen)))
        write(folder / "file", b"0")
        seen = [(folder / "file").stat().st_ctime_ns]
        for number in range(20):
            write(folder / "file", b"%d" % number)
            seen.append((folder / "file").stat().st_ctime_ns)
            os.utime(folder / "file", (10**9, 10**9))
            seen.append((folder / "file").stat().st_ctime_ns)
            os.chmod(folder / "file", 0o600 + number % 8)
            seen.append((folder / "file").stat().st_ctime_ns)
        equal("the file's ctime grows", seen, sorted(set(seen)))
        run("rm", "-r", folder)
    finally:
        unmount(SMALL)


# ---- bytes


def kinds_of_writing():
    path = A / "file"
    write(path, b"0123456789" * 1000)
    with open(path, "ab") as file:
        file.write(b"appended")
    with open(path, "r+b") as file:
        file.seek(5000)
        file.write(b"overwritten")
        file.flush()
        with mmap.mmap(file.fileno(), 0) as mapped:
            mapped[100:106] = b"mapped"
            mapped.flush()
    os.truncate(path, 9000)
    os.truncate(path, 20000)
    wanted = bytearray(b"0123456789" * 1000 + b"appended")
    wanted[5000:5011] = b"overwritten"
    wanted[100:106] = b"mapped"
    forget()
    equal("what was written in each way", path.read_bytes() == bytes(wanted[:9000]) + bytes(11000), True)
    exclusively = lambda: os.open(path, os.O_CREAT | os.O_EXCL | os.O_WRONLY)
    refused("O_EXCL of a file that is there", errno.EEXIST, exclusively)
    run("dd", f"if={HERE / 'tree.tar'}", f"of={A / 'synced'}", "bs=4096", "count=40", "oflag=sync", "status=none")
    equal("what was written by dd", (A / "synced").read_bytes(), (HERE / "tree.tar").read_bytes()[: 40 * BLOCK])
    run("rm", path, A / "synced")


def random_bytes():
    """Random reads, writes, sizes and mappings of one file, by two mounts in turn."""
    choice, wanted = random.Random(11), bytearray()
    write(A / "random", b"")
    for number in range(600):
        top = choice.choice((A, B))
        with open(top / "random", "r+b", buffering=0) as file:
            start, size = any_place(choice), choice.choice((1, 100, 5000, 70000))
            what = choice.randrange(4)
            if what == 0:
                data = choice.randbytes(size)
                os.pwrite(file.fileno(), data, start)
                wanted[:] = wanted.ljust(start, b"\0")
                wanted[start : start + size] = data
            elif what == 1:
                os.ftruncate(file.fileno(), start)
                wanted[:] = wanted[:start].ljust(start, b"\0")
            else:
                read = os.pread(file.fileno(), size, start)
                equal(f"read {number}", read == bytes(wanted[start : start + size]), True)
    forget()
    equal("all bytes", (A / "random").read_bytes() == bytes(wanted), True)
    os.remove(A / "random")


# ---- two clients


def two_clients():
    """What one mount changes another sees: a new file, a removed one, and other bytes under a time
    that was set back."""
    write(A / "shared", b"one")
    equal("a new file", (B / "shared").read_bytes(), b"one")
    for number in range(5):
        write(A / "shared", b"old%d5" % number)
        os.utime(A / "shared", (10**9, 10**9))
        look_up(B / "shared")
        equal("the old bytes", (B / "shared").read_bytes(), b"old%d5" % number)
        write(A / "shared", b"NEW%d5" % number)
        os.utime(A / "shared", (10**9, 10**9))
        look_up(B / "shared")
        equal("the new bytes under the old mtime", (B / "shared").read_bytes(), b"NEW%d5" % number)
    with open(B / "shared", "rb") as held:
        os.remove(A / "shared")
        write(A / "shared", b"another")
        refused("reading the removed file", errno.ESTALE, lambda: (forget(), os.fstat(held.fileno()), held.read()))
    won = [made(top / "race") for top in (A, B)]
    equal("O_EXCL by both", won, [True, False])
    run("rm", A / "shared", A / "race")
    time.sleep(1.5)
    equal("a removed file", (B / "shared").exists(), False)


def made(path):
    try:
        os.close(os.open(path, os.O_CREAT | os.O_EXCL | os.O_WRONLY))
    except FileExistsError:
        return False
    return True


# ---- symbolic links


def symbolic_links():
    """ln -s, readlink and ls -l, and texts of every length."""
    for text in ("x", "folder/file", "..", str(A / "file"), "n" * LONGEST_NAME, "a/" * 500, "t" * LONGEST_TEXT):
        run("ln", "-s", text, A / "link")
        forget()
        told = (A / "link").lstat()
        equal("kind and mode", oct(told.st_mode), oct(stat.S_IFLNK | 0o777))
        equal("size, names and owner", (told.st_size, told.st_nlink, told.st_uid), (len(text), 1, 0))
        equal("readlink", run("readlink", A / "link"), f"{text}\n")
        equal("ls -l", run("ls", "-l", A / "link").endswith(f" -> {text}\n"), True)
        refused("a name that is there", errno.EEXIST, lambda: os.symlink("other", A / "link"))
        refused("rmdir", errno.ENOTDIR, lambda: os.rmdir(A / "link"))
        os.remove(A / "link")
    refused("an empty text", errno.ENOENT, lambda: os.symlink("", A / "link"))
    refused("a text of 4096 bytes", errno.ENAMETOOLONG, lambda: os.symlink("t" * (LONGEST_TEXT + 1), A / "link"))
    equal("what is left", names_in(A), [])


def links_that_are_followed():
    """To a file, to a folder, through both, to nothing and to itself."""
    (A / "folder").mkdir()
    write(A / "folder" / "file", b"content")
    texts = {"to file": "folder/file", "to folder": "folder", "to link": "to folder/file", "to nothing": "new"}
    for name, text in (texts | {"itself": "itself"}).items():
        os.symlink(text, A / name)
    forget()
    for name in ("to file", "to link", "to folder/file"):
        equal(f"reading {name}", (A / name).read_bytes(), b"content")
        equal(f"stat of {name}", (A / name).stat(), (A / "folder" / "file").stat())
    equal("listing a link", names_in(A / "to folder"), ["file"])
    equal("where it is", run("readlink", "-f", A / "to link"), f"{A}/folder/file\n")
    refused("a link to nothing", errno.ENOENT, lambda: open(A / "to nothing", "rb"))
    refused("a link to itself", errno.ELOOP, lambda: open(A / "itself", "rb"))
    with open(A / "to link", "ab") as file:
        file.write(b" more")
    os.chmod(A / "to file", 0o600)
    os.truncate(A / "to file", 9)
    write(A / "to nothing", b"made")
    forget()
    equal("what is written through a link", (A / "folder" / "file").read_bytes(), b"content m")
    equal("its mode", stat.S_IMODE((A / "folder" / "file").stat().st_mode), 0o600)
    equal("what is made through a link", (A / "new").read_bytes(), b"made")
    equal("the link stays", os.readlink(A / "to nothing"), "new")
    run("rm", "-r", *(A / name for name in names_in(A)))
    equal("what is left", names_in(A), [])


def links_that_are_replaced():
    """ln -sfn, mv of a link and over one, and what another mount sees of it. Owner and times of a
    link are its own."""
    write(A / "file", b"content")
    for number in range(5):
        run("ln", "-sfn", f"text{number}", A / "link")
        time.sleep(1.5)
        equal("by another mount", os.readlink(B / "link"), f"text{number}")
    run("mv", A / "link", A / "moved")
    equal("a moved link", os.readlink(A / "moved"), "text4")
    os.chown(A / "moved", USER, GROUP, follow_symlinks=False)
    os.utime(A / "moved", ns=(10**18, 10**18 + 7), follow_symlinks=False)
    forget()
    told = (A / "moved").lstat()
    equal("owner and time of a link", (told.st_uid, told.st_gid, told.st_mtime_ns), (USER, GROUP, 10**18 + 7))
    run("mv", A / "file", A / "moved")
    equal("a file over a link", (A / "moved").read_bytes(), b"content")
    os.symlink("elsewhere", A / "link")
    run("mv", "-T", A / "link", A / "moved")
    equal("a link over a file", os.readlink(A / "moved"), "elsewhere")
    as_user(USER, USER, lambda: equal("a text that another reads", os.readlink(A / "moved"), "elsewhere"))
    as_user(USER, USER, lambda: refused("a link in root's folder", errno.EACCES, lambda: os.symlink("x", A / "his")))
    os.remove(A / "moved")


# ---- what is not there yet


def what_is_lacking():
    """Second names and pipes are refused, and nothing is harmed."""
    write(A / "file", b"x")
    lacks = (ENOTSUPP, errno.EOPNOTSUPP)
    refused("link", lacks, lambda: os.link(A / "file", A / "other"))
    refused("mkfifo", lacks, lambda: os.mkfifo(A / "other"))
    equal("what is there", names_in(A), ["file"])
    os.remove(A / "file")


# ---- calls


def calls_of_eight_uses():
    """How many calls the kernel makes for eight uses of 100 files. Another server is asked some
    1007."""
    folder = A / "uses"
    folder.mkdir()
    paths = [folder / f"file{number}" for number in range(100)]
    uses = (
        ("make", lambda: [write(path, b"6 byte") for path in paths]),
        ("ls -l", lambda: run("ls", "-l", folder)),
        ("ls -l again", lambda: run("ls", "-l", folder)),
        ("stat, five times", lambda: [path.stat() for _ in range(5) for path in paths]),
        ("cat", lambda: [path.read_bytes() for path in paths]),
        ("cat again", lambda: [path.read_bytes() for path in paths]),
        ("touch", lambda: [os.utime(path) for path in paths]),
        ("rm", lambda: [os.remove(path) for path in paths]),
    )
    total = 0
    for name, use in uses:
        before = calls(A)
        use()
        spent = calls(A) - before
        total += sum(spent.values())
        say(f"{name}: " + ", ".join(f"{count} {call}" for call, count in sorted(spent.items())))
    folder.rmdir()
    if total > 1107:
        raise Wrong(f"{total} calls, and 1107 at most")
    say(f"{total} calls together")


# ---- a kill


def a_kill_under_a_copy():
    """The service is killed while files are copied, and started again: each is there as it was told
    stable."""
    (A / "killed").mkdir()
    for number in range(60):
        write(HERE / f"k{number}", bytes_of(40 * 1024))
        shutil.copy(HERE / f"k{number}", A / "killed" / f"k{number}")
        if number in (7, 30):
            print("DO restart", flush=True)
        time.sleep(0.05)
    forget()
    same_files("by the same mount", A / "killed")
    mount("/", SMALL, GIVEN.port, ",nosharecache")
    try:
        same_files("by a fresh mount", SMALL / "killed")
    finally:
        unmount(SMALL)
    run("rm", "-r", A / "killed")


def same_files(what, folder):
    for number in range(60):
        is_same = filecmp.cmp(HERE / f"k{number}", folder / f"k{number}", shallow=False)
        equal(f"file {number}, {what}", is_same, True)


CHECKS = (
    copies_of_a_tree,
    archives,
    removals_of_trees,
    a_users_own_archive,
    modes,
    a_second_user,
    owners_of_closed_files,
    programs,
    sticky_and_set_group_folders,
    suid_bits,
    names,
    depth,
    greatest_size,
    room,
    full_disk,
    set_times,
    times_grow,
    kinds_of_writing,
    random_bytes,
    two_clients,
    symbolic_links,
    links_that_are_followed,
    links_that_are_replaced,
    what_is_lacking,
    calls_of_eight_uses,
    many_files,
    listing_while_names_change,
    *tree_basics.CHECKS,
    *tree_saves.CHECKS,
    *tree_fio.CHECKS,
    a_kill_under_a_copy,
)


def check(act):
    name, begun, why = act.__name__.replace("_", " "), time.monotonic(), ""
    try:
        act()
    except Wrong as wrong:
        why = str(wrong).replace("\n", " | ")
    except Exception:
        why = " | ".join(traceback.format_exc().splitlines()[-5:])
    spent = f"{time.monotonic() - begun:.1f} s"
    print(f"WRONG {name}, {spent}: {why}" if why else f"ok {name}, {spent}", flush=True)


def clear():
    """What a check that went wrong has left goes, as far as that can be."""
    subprocess.run(["rm", "-rf", *(A / name for name in names_in(A))], capture_output=True)


def main():
    HERE.mkdir()
    os.chmod("/mnt", 0o755)
    os.chmod(HERE, 0o755)
    os.umask(0o022)
    make_tree(HERE / "tree")
    run("tar", "-C", HERE, "--format=posix", "-cf", HERE / "tree.tar", "tree")
    mount(GIVEN.path, A, GIVEN.port)
    mount(GIVEN.path, B, GIVEN.port, ",nosharecache,actimeo=1")
    for act in CHECKS:
        if GIVEN.only in act.__name__:
            check(act)
            clear()
    unmount(B)
    unmount(A)
    print("ok unmounting", flush=True)


if __name__ == "__main__":
    begin(sys.argv[1])
    main()
