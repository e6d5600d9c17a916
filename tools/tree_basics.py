"""Basic cases of a mounted file system, as Connectathon's tests have them: trees that are made and
removed, lookups, attributes, bytes, listings, renames, the state of the file system, and files that
are open while their names change, and symbolic links. Second names are left out: they are not
served.

A module: `tree_uses.py` takes its checks.
"""

import errno
import os
import random
import stat

from tree_mount import *

LEVELS, FOLDERS_EACH, FILES_EACH = 4, 2, 5
TOP_FILES, TIMES = 10, 50
LISTED_FILES = 120


def make_levels(top, levels):
    """A folder with files and folders, so many levels deep. How many of both were made."""
    top.mkdir()
    made = [1, FILES_EACH]
    for number in range(FILES_EACH):
        write(top / f"file.{number}", b"")
    for number in range(FOLDERS_EACH if levels > 1 else 0):
        below = make_levels(top / f"dir.{number}", levels - 1)
        made = [sum(pair) for pair in zip(made, below)]
    return made


def remove_levels(top):
    """Removes one name after another, each folder once it is empty."""
    removed = [1, 0]
    for path in sorted(top.iterdir()):
        if path.is_dir():
            removed = [sum(pair) for pair in zip(removed, remove_levels(path))]
        else:
            path.unlink()
            removed[1] += 1
    top.rmdir()
    return removed


def basic_trees():
    made = make_levels(A / "levels", LEVELS)
    equal("folders and files that are made", made, [2**LEVELS - 1, FILES_EACH * (2**LEVELS - 1)])
    forget()
    equal("folders and files that are removed", remove_levels(A / "levels"), made)
    equal("what is left", names_in(A), [])


def basic_lookups():
    """The way to a folder and back, from within it and across the mount."""
    path = A / "one" / "two" / "three"
    path.mkdir(parents=True)
    home = os.getcwd()
    try:
        os.chdir(path)
        for _ in range(TIMES):
            equal("where it is", os.getcwd(), str(path))
            equal("what it is", os.stat("."), os.stat(path))
            equal("three above", os.stat("../../..").st_ino, A.stat().st_ino)
            equal("and above the mount", os.stat("../../../..").st_ino, A.parent.stat().st_ino)
    finally:
        os.chdir(home)
    run("rm", "-r", A / "one")


def basic_attributes():
    paths = [A / f"file.{number}" for number in range(TOP_FILES)]
    for path in paths:
        write(path, b"")
    for number in range(TIMES):
        for path in paths:
            for mode in (0o000, 0o666):
                os.chmod(path, mode)
                equal("the mode", path.stat().st_mode & 0o7777, mode)
    for path in paths:
        told = path.stat()
        equal("size and links", (told.st_size, told.st_nlink), (0, 1))
        path.unlink()


def basic_bytes():
    path, data = A / "bigfile", bytes_of(REACH)
    for number in range(5):
        with open(path, "wb", buffering=0) as file:
            for start in range(0, REACH, 8192):
                equal("bytes written", file.write(data[start : start + 8192]), 8192)
            os.fsync(file.fileno())
        equal("its size", path.stat().st_size, REACH)
        forget()
        with open(path, "rb", buffering=0) as file:
            for start in range(0, REACH, 8192):
                equal("bytes read", file.read(8192) == data[start : start + 8192], True)
            equal("at the end", file.read(8192), b"")
    path.unlink()


def basic_listings():
    """Each name is listed once, while names are removed between listings."""
    folder, left = A / "listed", {f"file.{number}" for number in range(LISTED_FILES)}
    folder.mkdir()
    for name in left:
        write(folder / name, b"")
    for number in range(LISTED_FILES):
        listing = os.listdir(folder)
        equal("each once", len(listing), len(set(listing)))
        equal("names", set(listing), left)
        os.remove(folder / f"file.{number}")
        left.discard(f"file.{number}")
    folder.rmdir()


def basic_renames():
    for _ in range(10):
        for number in range(TOP_FILES):
            old, new = A / f"file.{number}", A / f"newfile.{number}"
            write(old, b"%d" % number)
            os.rename(old, new)
            equal("the old name", old.exists(), False)
            equal("links", new.stat().st_nlink, 1)
            equal("bytes", new.read_bytes(), b"%d" % number)
            os.rename(new, old)
            equal("the new name", new.exists(), False)
        equal("names", names_in(A), sorted(f"file.{number}" for number in range(TOP_FILES)))
    run("rm", *(A / name for name in names_in(A)))


def basic_symbolic_links():
    paths = [A / f"symlink.{number}" for number in range(TOP_FILES)]
    for number in range(TIMES):
        for path in paths:
            text = f"/this/is/a/symlink {number} {path.name}"
            os.symlink(text, path)
            equal("a link", stat.S_ISLNK(path.lstat().st_mode), True)
            equal("where it leads", os.readlink(path), text)
            path.unlink()
    equal("what is left", names_in(A), [])


def basic_states():
    told = {tuple(os.statvfs(A))[:3] for _ in range(500)}
    equal("units and blocks", len(told), 1)


# ---- files that are open


def open_files():
    """A file keeps its bytes while it is open, whether it is removed, renamed, replaced or closed by
    its mode."""
    path = A / "open"
    with open(path, "w+b", buffering=0) as file:
        file.write(b"before")
        path.unlink()
        equal("its name", path.exists(), False)
        file.write(b" after")
        equal("a removed file", (file.seek(0), file.read())[1], b"before after")
    equal("what is left of it", names_in(A), [])
    with open(path, "w+b", buffering=0) as file:
        file.write(b"before")
        os.rename(path, A / "renamed")
        file.write(b" after")
    equal("a renamed file", (A / "renamed").read_bytes(), b"before after")
    with open(A / "renamed", "rb", buffering=0) as file:
        write(A / "other", b"other")
        os.rename(A / "other", A / "renamed")
        equal("a replaced file", file.read(), b"before after")
    equal("what replaced it", (A / "renamed").read_bytes(), b"other")
    equal("what is left of it", names_in(A), ["renamed"])
    with open(A / "renamed", "r+b", buffering=0) as file:
        os.chmod(A / "renamed", 0)
        file.write(b"OTHER")
    os.chmod(A / "renamed", 0o644)
    equal("a closed file", (A / "renamed").read_bytes(), b"OTHER")
    (A / "renamed").unlink()


def holes_and_seeks():
    path, written = A / "holes", bytearray()
    with open(path, "w+b", buffering=0) as file:
        refused("a place before the first", errno.EINVAL, lambda: os.lseek(file.fileno(), -1, os.SEEK_SET))
        for start in (0, 10000, 50000, 49000, 190000):
            os.pwrite(file.fileno(), b"here", start)
            written = written.ljust(start, b"\0")
            written[start : start + 4] = b"here"
    forget()
    equal("holes are zeros", path.read_bytes() == bytes(written), True)
    with open(path, "wb"):
        pass
    equal("opened anew", path.stat().st_size, 0)
    path.unlink()


def the_same_again_and_again():
    """A round of calls that are refused where they are done twice."""
    choice = random.Random(5)
    for number in range(40):
        top = A / f"again{choice.randrange(3)}"
        top.mkdir()
        write(top / "file", b"x")
        os.rename(top / "file", top / "new")
        os.chmod(top / "new", 0o600)
        refused("the old name", errno.ENOENT, lambda: os.stat(top / "file"))
        refused("a folder that is there", errno.EEXIST, top.mkdir)
        (top / "new").unlink()
        refused("the removed one", errno.ENOENT, lambda: os.remove(top / "new"))
        top.rmdir()


CHECKS = (
    basic_trees,
    basic_lookups,
    basic_attributes,
    basic_bytes,
    basic_listings,
    basic_renames,
    basic_symbolic_links,
    basic_states,
    open_files,
    holes_and_seeks,
    the_same_again_and_again,
)
