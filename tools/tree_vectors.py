"""What RFC 1813 and RFC 5531 ask for of a tree of files that `jnlfs serve` serves, call by call.

A module: `tree-vectors` and the rows of rows/jnlfs/trees.py use it. Calls are bytes that are made
by hand (`tree_calls.py`). Statuses, attributes and rights are written down here, from the standard
and from what docs/OPERATING.md says that this tree is; those of RENAME are in `tree_renames.py`, and
those of SYMLINK and READLINK in `tree_links.py`.
`GROUPS` has what is asked over any new disk, and `DISKS` what needs disks or services of its own.
Each raises `Differs` at the first answer that is another than the one that is written down.
"""

import subprocess
import time
from pathlib import Path

import tree_exclusive
import tree_growth
import tree_large
import tree_levels
import tree_links
import tree_renames
from tree_asking import *

# ---- the protocol


def calls_of_other_programs(v):
    ask = v.connection.call
    v.equal("another program", ask(100227, 3, 0), PROGRAM_UNAVAILABLE)
    for version in (2, 4):
        v.equal(f"NFS, version {version}", ask(NFS, version, 0), VERSION_3_ALONE)
        v.equal(f"MOUNT, version {version}", ask(MOUNT, version, 0), VERSION_3_ALONE)
    v.equal("NFS NULL", ask(NFS, 3, NULL), DONE)
    v.equal("NFS, procedure 22", ask(NFS, 3, 22), PROCEDURE_UNAVAILABLE)
    v.equal("MOUNT, procedure 6", ask(MOUNT, 3, 6), PROCEDURE_UNAVAILABLE)


def mounting(v):
    """RFC 1813, appendix I."""
    ask = lambda procedure, arguments=b"": v.connection.call(MOUNT, 3, procedure, arguments)
    v.equal("MOUNT NULL", ask(0), DONE)
    for path in (b"/", b"/files"):
        v.equal(f"MNT {path}", ask(1, opaque(path)), DONE + words(0) + opaque(v.root) + words(2, 1, 0))
    for path in (b"", b"/file", b"/files/f002", b"files", b"/filesx"):
        v.equal(f"MNT {path}", ask(1, opaque(path)), DONE + words(NOENT))
    v.equal("MNT of 1025 bytes", ask(1, opaque(b"/" * 1025)), GARBAGE)
    v.equal("MNT and more", ask(1, opaque(b"/files") + words(0)), GARBAGE)
    v.equal("DUMP", ask(2), DONE + words(0))
    v.equal("UMNT", ask(3, opaque(b"/files")), DONE)
    v.equal("UMNTALL", ask(4), DONE)
    v.equal("EXPORT", ask(5), DONE + words(1) + opaque(b"/files") + words(0, 0))


def credentials(v):
    root = opaque(v.root)
    denied = {
        "AUTH_SHORT": words(2, 0),
        "RPCSEC_GSS": words(6, 0),
        "AUTH_SYS without a body": words(1, 0),
        "AUTH_SYS of half a body": words(1, 8, 1, 0),
        "AUTH_SYS and more": words(1) + opaque(words(1, 0, 0, 0, 0, 0)),
        "AUTH_SYS of 17 groups": user(0, 0, range(17)),
        "AUTH_SYS of a machine with 256 bytes": user(0, machine=b"m" * 256),
    }
    for what, credential in denied.items():
        v.equal(f"GETATTR by {what}", v.connection.call(NFS, 3, GETATTR, root, credential), DENIED_CREDENTIAL)
    for what, credential in {"no body": ANYBODY, "a body": words(0) + opaque(b"abcd")}.items():
        v.does(f"GETATTR by AUTH_NONE with {what}", GETATTR, root, credential)
    v.does("GETATTR by 16 groups", GETATTR, root, user(0, 0, range(16)))
    v.does("GETATTR from a machine with 255 bytes", GETATTR, root, user(0, machine=b"m" * 255))
    open_to_all = v.folder(v.root, b"credentials", mode=0o777)
    for name, credential, owner, group in (
        (b"nobody", ANYBODY, NOBODY, NOBODY),
        (b"user", user(1000, 100), 1000, 100),
        (b"root", ROOT_USER, 0, 0),
    ):
        made = v.attributes(v.make(open_to_all, name, credential))
        v.looks(f"a file by {name}", made, user=owner, group=group, mode=0o644)
    v.equal("GETATTR without its argument", v.connection.call(NFS, 3, GETATTR, b"", ROOT_USER), GARBAGE)


# The arguments of each procedure, by a handle: with names that are there where the handle is that
# of the folder.
def arguments_by(handle, folder, file):
    return {
        GETATTR: opaque(handle),
        SETATTR: opaque(handle) + settings() + words(0),
        LOOKUP: entry(handle, b"x"),
        ACCESS: opaque(handle) + words(63),
        READLINK: opaque(handle),
        READ: at_place(handle, 0, 10),
        WRITE: written(handle, 0, b"abc"),
        CREATE: entry(handle, b"x") + words(UNCHECKED) + settings(),
        MKDIR: entry(handle, b"x") + settings(),
        SYMLINK: entry(handle, b"x") + settings() + opaque(b"target"),
        MKNOD: entry(handle, b"x") + words(7) + settings(),
        REMOVE: entry(handle, b"x"),
        RMDIR: entry(handle, b"x"),
        RENAME: entry(handle, b"x") + entry(folder, b"y"),
        LINK: opaque(handle) + entry(folder, b"y"),
        READDIR: listed(handle, 0, 8192),
        READDIRPLUS: listed(handle, 0, 8192, 8192),
        FSSTAT: opaque(handle),
        FSINFO: opaque(handle),
        PATHCONF: opaque(handle),
        COMMIT: at_place(handle, 0, 0),
    }


def handles(v):
    """Handles that name nothing: of another disk, of another length, of numbers and generations
    that are not there."""
    folder = v.folder(v.root, b"handles")
    file = v.make(folder, b"gone")
    v.does("REMOVE", REMOVE, entry(folder, b"gone"))
    other = v.folder(folder, b"gone")
    v.does("RMDIR", RMDIR, entry(folder, b"gone"))
    own = hyper(v.disk_number)
    nothing = {
        "a removed file": (file, STALE),
        "a removed folder": (other, STALE),
        "another disk": (hyper(v.disk_number ^ 1) + v.root[8:], STALE),
        "number 0": (own + words(0, 1), STALE),
        "a great number": (own + words(2**32 - 1, 1), STALE),
        "the root's generation 0": (own + words(1, 0), STALE),
        "the root's generation 2": (own + words(1, 2), STALE),
        "no bytes": (b"", BADHANDLE),
        "12 bytes": (b"JNL1" + words(1, 1), BADHANDLE),
        "15 bytes": (v.root[:15], BADHANDLE),
        "17 bytes": (v.root + b"\0", BADHANDLE),
        "64 bytes": (v.root * 4, BADHANDLE),
    }
    for what, (handle, status) in nothing.items():
        for procedure, arguments in arguments_by(handle, folder, file).items():
            v.refuses(f"{NAMES[procedure]} of {what}", status, procedure, arguments)
        there = entry(v.root, b"handles")
        v.refuses(f"RENAME to {what}", status, RENAME, there + entry(handle, b"y"))
        v.refuses(f"LINK in {what}", status, LINK, opaque(folder) + entry(handle, b"y"))
    for procedure, arguments in arguments_by(bytes(65), folder, file).items():
        reply = v.connection.call(NFS, 3, procedure, arguments)
        v.equal(f"{NAMES[procedure]} of a handle of 65 bytes", reply, GARBAGE)


def arguments_that_are_none(v):
    """Arguments that end too soon, go on, or have a number that is none of a kind."""
    folder, file = v.folder(v.root, b"arguments"), v.make(v.root, b"argument")
    for procedure, arguments in arguments_by(v.root, folder, file).items():
        for what, wrong in (("one word less", arguments[:-4]), ("one word more", arguments + words(0))):
            v.equal(f"{NAMES[procedure]}, {what}", v.connection.call(NFS, 3, procedure, wrong), GARBAGE)
    name = entry(folder, b"x")
    for what, procedure, arguments in (
        ("CREATE in mode 3", CREATE, name + words(3) + settings()),
        ("WRITE, stable as 3", WRITE, written(file, 0, b"abc", 3)),
        ("SETATTR of a mode by 2", SETATTR, opaque(file) + words(2, 0o644, 0, 0, 0, 0, 0, 0)),
        ("SETATTR of a time by 3", SETATTR, opaque(file) + words(0, 0, 0, 0, 0, 3, 0)),
        ("SETATTR with a guard by 2", SETATTR, opaque(file) + settings() + words(2, 0, 0)),
        ("MKNOD of kind 0", MKNOD, name + words(0)),
        ("MKNOD of kind 8", MKNOD, name + words(8)),
        ("NULL with a word", NULL, words(0)),
    ):
        v.equal(what, v.connection.call(NFS, 3, procedure, arguments), GARBAGE)


# ---- names


def names(v):
    """What is answered for names that are none, are there, and are not there."""
    folder = v.folder(v.root, b"names")
    file = v.make(folder, b"file")
    v.folder(folder, b"folder")
    longest, too_long = b"n" * LONGEST_NAME, b"n" * (LONGEST_NAME + 1)
    asked = settings()
    new = {
        CREATE: words(GUARDED) + asked,
        MKDIR: asked,
        SYMLINK: asked + opaque(b"target"),
        MKNOD: words(6) + asked,
        LINK: b"",
    }
    in_folder = lambda procedure, name: (opaque(file) if procedure == LINK else b"") + entry(folder, name)
    no_names = dict.fromkeys((b"", b"a/b", b"/", b"a\0b", too_long + b"/"), INVAL)
    no_names[too_long] = NAMETOOLONG
    at_dots = dict.fromkeys(new, (EXIST, EXIST)) | {REMOVE: (ISDIR, ISDIR), RMDIR: (INVAL, EXIST)}
    for procedure in (LOOKUP, *new, REMOVE, RMDIR):
        more = new.get(procedure, b"")
        for name, status in no_names.items():
            v.refuses(f"{NAMES[procedure]} {name[:9]}", status, procedure, in_folder(procedure, name) + more)
        for name, status in zip((b".", b".."), at_dots.get(procedure, ())):
            v.refuses(f"{NAMES[procedure]} {name}", status, procedure, in_folder(procedure, name) + more)
    for procedure, more in new.items():
        for name in (b"file", b"folder"):
            v.refuses(f"{NAMES[procedure]} {name}", EXIST, procedure, in_folder(procedure, name) + more)
    for procedure in (LOOKUP, REMOVE, RMDIR):
        v.refuses(f"{NAMES[procedure]} of nothing", NOENT, procedure, entry(folder, b"nothing"))
    v.refuses("REMOVE of a folder", ISDIR, REMOVE, entry(folder, b"folder"))
    v.refuses("RMDIR of a file", NOTDIR, RMDIR, entry(folder, b"file"))
    names_of_all_bytes(v, folder, longest)
    no_folder(v, file, new)


def names_of_all_bytes(v, folder, longest):
    """Each byte but 0 and `/` is one of a name, and the case of letters counts."""
    every = bytes(byte for byte in range(1, 256) if byte != ord("/"))
    for name in (longest, every[:LONGEST_NAME], b"...", b" ", b"\xff", b"UPPER", b"upper", b"-rf", b".hidden"):
        handle = v.make(folder, name)
        v.equal(f"LOOKUP {name[:9]}", v.does("LOOKUP", LOOKUP, entry(folder, name)).handle, handle)
    lines = {line.name: line.handle for line in v.connection.list_all(folder)}
    v.equal("the longest name is listed", lines.get(longest), v.does("LOOKUP", LOOKUP, entry(folder, longest)).handle)
    v.holds("two cases are two names", lines[b"UPPER"] != lines[b"upper"])
    for name in lines:
        v.does(f"REMOVE {name[:9]}", RMDIR if name == b"folder" else REMOVE, entry(folder, name))
    v.equal("nothing is left", v.connection.list_all(folder), [])


def no_folder(v, file, new):
    """A file where a folder is asked for."""
    file = v.make(v.root, b"names.file")
    for procedure in (LOOKUP, CREATE, MKDIR, SYMLINK, MKNOD, REMOVE, RMDIR):
        arguments = entry(file, b"x") + new.get(procedure, b"")
        v.refuses(f"{NAMES[procedure]} in a file", NOTDIR, procedure, arguments)
    v.refuses("LINK in a file", NOTDIR, LINK, opaque(file) + entry(file, b"x"))
    v.refuses("READDIR of a file", NOTDIR, READDIR, listed(file, 0, 8192))
    v.refuses("READDIRPLUS of a file", NOTDIR, READDIRPLUS, listed(file, 0, 8192, 8192))


def what_the_tree_lacks(v):
    """MKNOD and LINK are NOTSUPP, after what is wrong otherwise."""
    folder = v.folder(v.root, b"lacks", mode=0o755)
    file = v.make(folder, b"file")
    asked = settings()
    for procedure, before, more in (
        (MKNOD, b"", words(3) + asked + words(1, 2)),
        (MKNOD, b"", words(4) + asked + words(1, 2)),
        (MKNOD, b"", words(6) + asked),
        (MKNOD, b"", words(7) + asked),
        (LINK, opaque(file), b""),
    ):
        name = NAMES[procedure]
        v.refuses(f"{name} of a new name", NOTSUPP, procedure, before + entry(folder, b"new") + more)
        v.refuses(f"{name} of a name that is there", EXIST, procedure, before + entry(folder, b"file") + more)
        v.refuses(f"{name} by a stranger", ACCES, procedure, before + entry(folder, b"new") + more, STRANGER)
    v.equal("nothing was made", [line.name for line in v.connection.list_all(folder)], [b"file"])


# ---- nodes


def new_nodes(v):
    """CREATE and MKDIR: what is told of the node and of its directory, and what GETATTR and LOOKUP
    tell of both."""
    folder = v.folder(v.root, b"new")
    v.looks("an empty folder", v.attributes(folder), kind=DIRECTORY, size=0, mode=0o755)
    for name, procedure, more, kind, mode in (
        (b"guarded", CREATE, words(GUARDED) + settings(), FILE, 0o644),
        (b"unchecked", CREATE, words(UNCHECKED) + settings(), FILE, 0o644),
        (b"folder", MKDIR, settings(), DIRECTORY, 0o755),
        (b"moded", CREATE, words(GUARDED) + settings(mode=0o7751), FILE, 0o7751),
        (b"masked", MKDIR, settings(mode=0o177777), DIRECTORY, 0o7777),
    ):
        before, sent = v.attributes(folder), time.time()
        made = v.does(f"make {name}", procedure, entry(folder, name) + more)
        received = time.time()
        v.looks(f"make {name}", made.attributes, kind=kind, mode=mode, user=0, group=0, size=0)
        v.equal(f"make {name}: the handle's disk", made.handle[:8], v.root[:8])
        v.equal(f"make {name}: its number", v.number_of(made.handle), made.attributes.number)
        v.shows(f"make {name}", made.attributes, made.handle)
        v.changes(f"make {name}: its directory", made.directory, before, folder)
        moment = made.attributes.ctime.secs + made.attributes.ctime.nanos / 1e9
        v.holds(f"make {name}: ctime is now", sent - CLOCK_SLACK <= moment <= received + CLOCK_SLACK)
        v.equal(f"make {name}: mtime", made.attributes.mtime, made.attributes.ctime)
        found = v.does(f"LOOKUP {name}", LOOKUP, entry(folder, name))
        v.equal(f"LOOKUP {name}", found, Found(made.handle, made.attributes, made.directory.after))
    v.looks("a folder with names", v.attributes(folder), kind=DIRECTORY, size=BLOCK)
    asked = settings(0o600, 7, 8, 5000, FromServer, Time(5, 6))
    made = v.does("CREATE", CREATE, entry(folder, b"set") + words(GUARDED) + asked)
    v.looks("CREATE with settings", made.attributes, mode=0o600, user=7, group=8, size=5000, mtime=Time(5, 6))
    v.equal("new bytes are zeros", v.content(made.handle), bytes(5000))
    for procedure, more in ((CREATE, words(GUARDED)), (MKDIR, b"")):
        arguments = entry(folder, b"no") + more + settings(changed=NO_TIME)
        v.refuses(f"{NAMES[procedure]} with no time", INVAL, procedure, arguments)
    too_big = words(GUARDED) + settings(size=LARGEST_FILE + 1)
    v.refuses("CREATE of too great a size", FBIG, CREATE, entry(folder, b"no") + too_big)
    dots = {b".": folder, b"..": v.root}
    for name, handle in dots.items():
        v.equal(f"LOOKUP {name}", v.does("LOOKUP", LOOKUP, entry(folder, name)).handle, handle)
    v.equal("LOOKUP .. of the root", v.does("LOOKUP", LOOKUP, entry(v.root, b"..")).handle, v.root)


def files_that_are_there(v):
    """CREATE UNCHECKED of a name that is there sets the size alone."""
    folder = v.folder(v.root, b"there")
    file = v.make(folder, b"file")
    v.write(file, b"abcdefgh")
    before, directory = v.attributes(file), v.attributes(folder)
    arguments = entry(folder, b"file") + words(UNCHECKED)
    made = v.does("CREATE", CREATE, arguments + settings(mode=0o777, user=9, changed=Time(1, 1)))
    v.equal("CREATE without a size", (made.handle, made.attributes), (file, before))
    v.changes("CREATE without a size: its directory", made.directory, directory, folder)
    v.equal("its directory stays", v.attributes(folder), directory)
    made = v.does("CREATE", CREATE, arguments + settings(mode=0o777, size=3))
    v.looks("CREATE of a size", made.attributes, mode=0o644, size=3, number=before.number)
    v.equal("its bytes", v.content(file), b"abc")
    v.refuses("CREATE of too great a size", FBIG, CREATE, arguments + settings(size=LARGEST_FILE + 1))
    v.refuses("CREATE of a size by a stranger", ACCES, CREATE, arguments + settings(size=0), STRANGER)
    v.does("CREATE by a stranger", CREATE, arguments + settings(), STRANGER)
    v.refuses("CREATE GUARDED", EXIST, CREATE, entry(folder, b"file") + words(GUARDED) + settings())
    v.refuses("CREATE EXCLUSIVE", EXIST, CREATE, entry(folder, b"file") + words(EXCLUSIVE) + bytes(8))
    v.folder(folder, b"folder")
    v.refuses("CREATE UNCHECKED of a folder", EXIST, CREATE, entry(folder, b"folder") + words(UNCHECKED) + settings())


def exclusively(directory, name, verifier):
    """The arguments of a CREATE EXCLUSIVE."""
    return entry(directory, name) + words(EXCLUSIVE) + verifier


def exclusive_creation(v):
    """CREATE EXCLUSIVE: the call that comes again is told the same file, as long as it is as it was
    made, and any other is refused."""
    folder = v.folder(v.root, b"exclusive", mode=0o755)
    v.set(folder, user=1000, group=100)
    arguments = exclusively(folder, b"file", b"verifier")
    before = v.attributes(folder)
    made = v.does("CREATE EXCLUSIVE", CREATE, arguments, OWNER)
    v.looks("CREATE EXCLUSIVE", made.attributes, kind=FILE, mode=0, size=0, user=1000, group=100)
    v.changes("CREATE EXCLUSIVE: its directory", made.directory, before, folder)
    v.shows("CREATE EXCLUSIVE", made.attributes, made.handle)
    directory = v.attributes(folder)
    again = v.does("CREATE EXCLUSIVE again", CREATE, arguments, OWNER)
    v.equal("CREATE EXCLUSIVE again", (again.handle, again.attributes), (made.handle, made.attributes))
    v.changes("CREATE EXCLUSIVE again: its directory", again.directory, directory, folder)
    v.equal("its directory stays", v.attributes(folder), directory)
    v.refuses("CREATE EXCLUSIVE by a stranger", ACCES, CREATE, exclusively(folder, b"new", bytes(8)), STRANGER)
    refusals_of_exclusive_creation(v, folder)
    changes_of_exclusive_files(v, folder)


def refusals_of_exclusive_creation(v, folder):
    """The file of another verifier, and what no exclusive CREATE has made."""
    for verifier in (b"verifieR", b"Verifier", bytes(8), b"\xff" * 8):
        v.refuses(f"CREATE EXCLUSIVE of {verifier}", EXIST, CREATE, exclusively(folder, b"file", verifier))
    v.make(folder, b"guarded")
    v.folder(folder, b"folder")
    v.link(folder, b"link", b"text")
    for name in (b"guarded", b"folder", b"link", b".", b".."):
        v.refuses(f"CREATE EXCLUSIVE of {name}", EXIST, CREATE, exclusively(folder, name, bytes(8)))
    v.refuses("CREATE EXCLUSIVE in a file", NOTDIR, CREATE, exclusively(v.make(folder, b"plain"), b"x", bytes(8)))
    v.refuses("CREATE EXCLUSIVE of no name", INVAL, CREATE, exclusively(folder, b"", bytes(8)))
    v.refuses("CREATE GUARDED of its name", EXIST, CREATE, entry(folder, b"file") + words(GUARDED) + settings())


def rename_and_back(v, folder, name):
    for one, other in ((name, b"other"), (b"other", name)):
        v.does("RENAME", RENAME, entry(folder, one) + entry(folder, other))


def changes_of_exclusive_files(v, folder):
    """After any change it is no longer the file that the call made. The verifier may be zeros."""
    sets = lambda file, name: v.set(file, mode=0o644)
    writes = lambda file, name: v.write(file, b"x")
    cuts = lambda file, name: v.does("CREATE", CREATE, entry(folder, name) + words(UNCHECKED) + settings(size=0))
    renames = lambda file, name: rename_and_back(v, folder, name)
    for number, change in enumerate((sets, writes, cuts, renames)):
        arguments = exclusively(folder, b"changed%d" % number, bytes(8))
        made = v.does("CREATE EXCLUSIVE", CREATE, arguments)
        v.equal("CREATE EXCLUSIVE again", v.does("CREATE", CREATE, arguments).handle, made.handle)
        v.does("READ", READ, at_place(made.handle, 0, 1))
        v.does("CREATE EXCLUSIVE after a READ", CREATE, arguments)
        change(made.handle, b"changed%d" % number)
        v.refuses(f"CREATE EXCLUSIVE after change {number}", EXIST, CREATE, arguments)
    arguments = exclusively(folder, b"removed", b"12345678")
    made = v.does("CREATE EXCLUSIVE", CREATE, arguments)
    v.does("REMOVE", REMOVE, entry(folder, b"removed"))
    v.holds("a removed file is made anew", v.does("CREATE EXCLUSIVE", CREATE, arguments).handle != made.handle)


def exclusive_creation_in_another_run(jnlfs, folder):
    """The call comes again after a service was killed that had answered it."""
    disk = Disk(jnlfs, folder, "exclusive.disk", 2000)
    arguments = lambda v, verifier: exclusively(v.root, b"file", verifier)
    with disk.serve() as service:
        v = disk.vectors(service)
        made = v.does("CREATE EXCLUSIVE", CREATE, arguments(v, b"verifier"))
        compared = v.compared
    with disk.serve() as service:
        v = disk.vectors(service)
        again = v.does("CREATE EXCLUSIVE again", CREATE, arguments(v, b"verifier"))
        v.equal("CREATE EXCLUSIVE again", (again.handle, again.attributes), (made.handle, made.attributes))
        v.refuses("CREATE EXCLUSIVE of another verifier", EXIST, CREATE, arguments(v, bytes(8)))
        return compared + v.compared


def removals(v):
    folder = v.folder(v.root, b"removals")
    for procedure, make, name in ((REMOVE, v.make, b"file"), (RMDIR, v.folder, b"folder")):
        handle = make(folder, name)
        before = v.attributes(folder)
        change = v.does(NAMES[procedure], procedure, entry(folder, name))
        v.changes(NAMES[procedure], change, before, folder)
        v.refuses(f"{NAMES[procedure]}: GETATTR", STALE, GETATTR, opaque(handle))
        v.refuses(f"{NAMES[procedure]} again", NOENT, procedure, entry(folder, name))
        again = make(folder, name)
        v.holds(f"{NAMES[procedure]}: a new node has another handle", again != handle)
        v.refuses(f"{NAMES[procedure]}: the old handle", STALE, GETATTR, opaque(handle))
    full = v.does("LOOKUP", LOOKUP, entry(folder, b"folder")).handle
    v.make(full, b"inner")
    v.refuses("RMDIR of a folder with a file", NOTEMPTY, RMDIR, entry(folder, b"folder"))
    v.does("REMOVE", REMOVE, entry(full, b"inner"))
    v.does("RMDIR of an emptied folder", RMDIR, entry(folder, b"folder"))
    v.refuses("a call in a removed folder", STALE, LOOKUP, entry(full, b"inner"))


# ---- attributes and times


def new_attributes(v):
    """SETATTR of each field, alone and together."""
    file, folder = v.make(v.root, b"attributes"), v.folder(v.root, b"attributes.folder")
    v.write(file, b"x" * 100)
    for handle, what in ((file, "a file"), (folder, "a folder")):
        for asked in (
            {"mode": 0o4751},
            {"mode": 0o177777},
            {"mode": 0},
            {"user": 1000},
            {"group": 100},
            {"user": 2**32 - 1, "group": 2**32 - 1},
            {"changed": Time(2**32 - 1, 10**9 - 1)},
            {"changed": Time(0, 0)},
            {"mode": 0o600, "user": 5, "group": 6, "changed": Time(1234, 5678)},
        ):
            before = v.attributes(handle)
            change = v.does(f"SETATTR {asked} of {what}", SETATTR, opaque(handle) + settings(**asked) + words(0))
            v.changes(f"SETATTR {asked} of {what}", change, before, handle)
            wanted = {("mtime" if name == "changed" else name): value for name, value in asked.items()}
            wanted["mode"] = wanted.get("mode", before.mode) & 0o7777
            if handle == file and ("user" in asked or "group" in asked):
                wanted["mode"] &= ~0o6000 if wanted["mode"] & 0o010 else ~0o4000
            v.looks(f"SETATTR {asked} of {what}", change.after, **wanted)
            v.holds(f"SETATTR {asked} of {what}: ctime grows", change.after.ctime > before.ctime)
            if "changed" not in asked:
                v.equal(f"SETATTR {asked} of {what}: mtime stays", change.after.mtime, before.mtime)
    nothing_asked(v, file)
    guards(v, file)
    v.refuses("SETATTR of no time", INVAL, SETATTR, opaque(file) + settings(changed=NO_TIME) + words(0))
    v.refuses("SETATTR of a folder's size", INVAL, SETATTR, opaque(folder) + settings(size=0) + words(0))
    v.refuses("SETATTR of too great a size", FBIG, SETATTR, opaque(file) + settings(size=LARGEST_FILE + 1) + words(0))


def nothing_asked(v, file):
    """A SETATTR that asks for nothing, or for the time of access alone, changes nothing."""
    before = v.attributes(file)
    for asked in ({}, {"read": FromServer}, {"read": Time(7, 7)}):
        change = v.set(file, **asked)
        v.changes(f"SETATTR {asked}", change, before, file)
        v.equal(f"SETATTR {asked}: nothing changes", change.after, before)


def guards(v, file):
    ctime = v.attributes(file).ctime
    for guard in (Time(ctime.secs, (ctime.nanos + 1) % 10**9), Time(ctime.secs + 1, ctime.nanos), Time(0, 0)):
        v.refuses(f"SETATTR guarded by {guard}", NOT_SYNC, SETATTR, opaque(file) + settings(mode=0o640) + words(1, *guard))
    v.does("SETATTR guarded", SETATTR, opaque(file) + settings(mode=0o640) + words(1, *ctime))
    v.equal("SETATTR guarded: mode", v.attributes(file).mode, 0o640)
    v.refuses("SETATTR guarded again", NOT_SYNC, SETATTR, opaque(file) + settings(mode=0o600) + words(1, *ctime))


def sizes(v):
    """SETATTR of a size: what goes and what comes."""
    file = v.make(v.root, b"sizes")
    data = bytes(range(1, 251)) * 40
    v.write(file, data)
    direct, indexed = DIRECT_BYTES, INDEXED_BYTES
    for size in (9000, 4096, 4095, 10, 5000, 0, 1, direct, direct - 1, direct + 1, indexed + 5000, indexed, 40960):
        before = v.attributes(file)
        change = v.set(file, size=size)
        v.changes(f"SETATTR of size {size}", change, before, file)
        data = data[:size].ljust(size, b"\0")
        v.looks(f"SETATTR of size {size}", change.after, size=size, mtime=change.after.ctime)
        v.holds(f"SETATTR of size {size}: ctime grows", change.after.ctime > before.ctime)
        v.equal(f"SETATTR of size {size}: the bytes", v.content(file), data)
    v.write(file, b"y" * BLOCK, 20000)
    v.set(file, size=20001)
    v.set(file, size=30000)
    v.equal("what was cut off is zeros", v.content(file), bytes(20000) + b"y" + bytes(9999))
    cut_in_index(v, file)


def cut_in_index(v, file):
    """What was cut off of a file with index blocks is zeros, wherever its end was."""
    for end in (DIRECT_BYTES + 10, INDEXED_BYTES - BLOCK, INDEXED_BYTES + 10, DIRECT_BYTES, 100):
        for start in (0, DIRECT_BYTES - 10, INDEXED_BYTES - 10, INDEXED_BYTES + 2 * BLOCK):
            v.write(file, b"w" * 20, start)
        held = v.content(file)[:end]
        v.set(file, size=end)
        v.set(file, size=LARGEST_FILE)
        v.set(file, size=INDEXED_BYTES + 4 * BLOCK)
        v.equal(f"what was cut off at {end} is zeros", v.content(file), held.ljust(INDEXED_BYTES + 4 * BLOCK, b"\0"))


def times(v):
    """ctime grows with each change, and a directory's times with each change of its names; both
    also over mtimes that a client sets, and others stay."""
    folder = v.folder(v.root, b"times")
    file = v.make(folder, b"file")
    seen = [v.attributes(file).ctime]
    for number in range(50):
        change = v.write(file, b"z", number).change
        v.equal("WRITE: mtime is ctime", change.after.mtime, change.after.ctime)
        seen.append(change.after.ctime)
        seen.append(v.set(file, changed=Time(10**9, 0)).after.ctime)
    v.equal("each change has a greater ctime", seen, sorted(set(seen)))
    before = v.attributes(file)
    for what, procedure, arguments in (
        ("READ", READ, at_place(file, 0, 10)),
        ("COMMIT", COMMIT, at_place(file, 0, 0)),
        ("WRITE of nothing", WRITE, written(file, 0, b"")),
    ):
        v.does(what, procedure, arguments)
        v.equal(f"{what} changes nothing", v.attributes(file), before)
    directory_times(v, folder)


def directory_times(v, folder):
    shown = []
    for number in range(30):
        made = v.does("CREATE", CREATE, entry(folder, b"n%d" % number) + words(GUARDED) + settings())
        shown.append(made.directory.after)
        shown.append(v.does("REMOVE", REMOVE, entry(folder, b"n%d" % number)).after)
    # A time ahead of the clock: the next changes of names show others all the same.
    ahead = Time(int(time.time()) + 1000, 0)
    v.set(folder, changed=ahead)
    for number in range(5):
        made = v.does("MKDIR", MKDIR, entry(folder, b"m%d" % number) + settings())
        shown.append(made.directory.after)
    v.equal("the mtimes of a folder with changing names", len({it.mtime for it in shown}), len(shown))
    v.equal("its ctimes grow", [it.ctime for it in shown], sorted({it.ctime for it in shown}))
    before = v.attributes(folder)
    v.refuses("MKDIR again", EXIST, MKDIR, entry(folder, b"m0") + settings())
    v.equal("a refusal changes no time", v.attributes(folder), before)
    inner = v.does("LOOKUP", LOOKUP, entry(folder, b"m0")).handle
    v.make(inner, b"deep")
    v.equal("a name further down changes no time", v.attributes(folder), before)


# ---- bytes


def writing(v):
    file, folder = v.make(v.root, b"writing"), v.folder(v.root, b"writing.folder")
    expected = b""
    verifiers = set()
    for offset, size, how in (
        (0, 1, FILE_SYNC),
        (0, 4096, DATA_SYNC),
        (4095, 2, UNSTABLE),
        (12288, 65536, FILE_SYNC),
        (5, 8192, UNSTABLE),
        (DIRECT_BYTES - 32768, 65536, FILE_SYNC),
        (DIRECT_BYTES - 1, 1, FILE_SYNC),
        (INDEXED_BYTES - 32768, 65536, FILE_SYNC),
        (INDEXED_BYTES + 8 * BLOCK - 1, 1, UNSTABLE),
        (100, 0, FILE_SYNC),
    ):
        before, data = v.attributes(file), bytes([offset % 251 + 1]) * size
        wrote = v.does(f"WRITE {size} at {offset}", WRITE, written(file, offset, data, how))
        v.changes(f"WRITE {size} at {offset}", wrote.change, before, file)
        committed = UNSTABLE if how == UNSTABLE else FILE_SYNC
        v.equal(f"WRITE {size} at {offset}", (wrote.count, wrote.committed), (size, committed))
        verifiers.add(wrote.verifier)
        if size:
            expected = expected[:offset].ljust(offset, b"\0") + data + expected[offset + size :]
        v.looks(f"WRITE {size} at {offset}", wrote.change.after, size=len(expected))
        v.equal(f"WRITE {size} at {offset}: the bytes", v.content(file), expected)
    committed = v.does("COMMIT", COMMIT, at_place(file, 0, 0))
    v.changes("COMMIT", committed.change, v.attributes(file), file)
    verifiers.add(committed.verifier)
    v.equal("verifiers", len(verifiers), 1)
    v.does("COMMIT of a part", COMMIT, at_place(file, 2**64 - 1, 2**32 - 1))
    for what, status, arguments in (
        ("past the greatest size", FBIG, written(file, LARGEST_FILE, b"x")),
        ("across the greatest size", FBIG, written(file, LARGEST_FILE - 1, b"xy")),
        ("at a great offset", FBIG, written(file, 2**64 - 1, b"x")),
        ("of fewer bytes than its count", INVAL, written(file, 0, b"xyz", count=4)),
        ("of more bytes than its count", INVAL, written(file, 0, b"xyz", count=2)),
        ("of a folder", INVAL, written(folder, 0, b"x")),
    ):
        v.refuses(f"WRITE {what}", status, WRITE, arguments)
    v.does("WRITE of nothing at a great offset", WRITE, written(file, 2**64 - 1, b""))
    v.refuses("COMMIT of a folder", INVAL, COMMIT, at_place(folder, 0, 0))
    v.equal("no refusal wrote", v.content(file), expected)
    largest(v)


def largest(v):
    """The last bytes of a file of the greatest size, and the holes before them."""
    file = v.make(v.root, b"largest")
    start, end = LARGEST_FILE - 100, b"e" * 100
    wrote = v.write(file, end, start)
    v.looks("WRITE of the last bytes", wrote.change.after, size=LARGEST_FILE)
    for offset, wanted in (
        (0, bytes(100)),
        (DIRECT_BYTES, bytes(100)),
        (LARGEST_FILE // 2, bytes(TRANSFER)),
        (start - 50, bytes(50) + end),
        (start + 50, end[50:]),
        (LARGEST_FILE, b""),
    ):
        portion = v.does(f"READ at {offset}", READ, at_place(file, offset, max(len(wanted), 1)))
        v.equal(f"READ at {offset}", portion.data, wanted)
        v.equal(f"READ at {offset}: the end", portion.is_end, offset + len(wanted) >= LARGEST_FILE)
    v.does("REMOVE of the largest file", REMOVE, entry(v.root, b"largest"))
    v.refuses("READ of it", STALE, READ, at_place(file, 0, 1))


def reading(v):
    file, folder = v.make(v.root, b"reading"), v.folder(v.root, b"reading.folder")
    data = bytes(number * 7 % 251 for number in range(100000))
    for offset in range(0, len(data), TRANSFER):
        v.write(file, data[offset : offset + TRANSFER], offset)
    within = ((0, 0), (0, 1), (0, 4096), (4090, 10), (1, 65536), (0, 65537), (0, 2**32 - 1), (99990, 5))
    at_end = ((99999, 1), (99999, 2), (100000, 10), (100001, 10), (2**63, 10), (2**64 - 1, 2**32 - 1))
    for offset, count in within + at_end:
        portion = v.does(f"READ {count} at {offset}", READ, at_place(file, offset, count))
        wanted = data[offset : offset + min(count, TRANSFER)]
        v.equal(f"READ {count} at {offset}", (portion.count, portion.data), (len(wanted), wanted))
        v.equal(f"READ {count} at {offset}: the end", portion.is_end, offset + len(wanted) >= len(data))
        v.shows(f"READ {count} at {offset}", portion.attributes, file)
    v.refuses("READ of a folder", INVAL, READ, at_place(folder, 0, 10))


# ---- rights


def rights(v):
    """ACCESS by each mode and caller, and what is done and refused by it."""
    callers = {"owner": (OWNER, 6), "member": (MEMBER, 3), "stranger": (STRANGER, 0), "nobody": (ANYBODY, 0)}
    base = v.folder(v.root, b"rights", mode=0o755)
    file, folder = v.make(base, b"file", user=1000, group=100), v.folder(base, b"folder", user=1000, group=100)
    for mode in (0o777, 0o000, 0o421, 0o124, 0o241, 0o750, 0o607, 0o640, 0o311, 0o111, 0o444, 0o222):
        v.set(file, mode=mode)
        v.set(folder, mode=mode)
        for who, (by, shift) in callers.items():
            bits = mode >> shift & 7
            read, write, execute = bits & 4, bits & 2, bits & 1
            of_file = (1 if read else 0) | (12 if write else 0) | (32 if execute else 0)
            of_folder = (1 if read else 0) | (2 if execute else 0) | (28 if write and execute else 0)
            what = f"{who}, {mode:03o}"
            check_access(v, what, by, file, of_file)
            check_access(v, what, by, folder, of_folder)
            check_file_rights(v, what, by, file, who == "owner" or read or execute, who == "owner" or write)
            check_folder_rights(v, what, by, folder, read, execute, write and execute)
        check_access(v, f"root, {mode:03o}", ROOT_USER, file, 13 | (32 if mode & 0o111 else 0))
        check_access(v, f"root, {mode:03o}", ROOT_USER, folder, 31)


def check_access(v, what, by, handle, wanted):
    for asked in (63, 2**32 - 1, 5):
        access = v.does(f"ACCESS by {what}", ACCESS, opaque(handle) + words(asked), by)
        v.equal(f"ACCESS {asked} by {what}", access.rights, asked & wanted)
    v.shows(f"ACCESS by {what}", access.attributes, handle)


def permits(v, what, is_so, procedure, arguments, by, refusal=ACCES):
    """A call is answered OK where it is permitted, and else by this refusal."""
    v.equal(what, v.ask(what, procedure, arguments, by)[0], OK if is_so else refusal)


def check_file_rights(v, what, by, file, may_read, may_write):
    permits(v, f"READ by {what}", may_read, READ, at_place(file, 0, 10), by)
    permits(v, f"WRITE by {what}", may_write, WRITE, written(file, 0, b"abc"), by)
    permits(v, f"SETATTR of a size by {what}", may_write, SETATTR, opaque(file) + settings(size=2) + words(0), by)
    now = opaque(file) + settings(changed=FromServer) + words(0)
    permits(v, f"SETATTR of the moment by {what}", may_write, SETATTR, now, by)
    v.does(f"GETATTR by {what}", GETATTR, opaque(file), by)


def check_folder_rights(v, what, by, folder, may_list, may_search, may_change):
    permits(v, f"READDIR by {what}", may_list, READDIR, listed(folder, 0, 8192), by)
    permits(v, f"READDIRPLUS by {what}", may_list, READDIRPLUS, listed(folder, 0, 8192, 8192), by)
    permits(v, f"LOOKUP . by {what}", may_search, LOOKUP, entry(folder, b"."), by)
    permits(v, f"CREATE by {what}", may_change, CREATE, entry(folder, b"x") + words(GUARDED) + settings(), by)
    permits(v, f"MKDIR by {what}", may_change, MKDIR, entry(folder, b"y") + settings(), by)
    if may_change:
        v.does(f"REMOVE by {what}", REMOVE, entry(folder, b"x"), by)
        v.does(f"RMDIR by {what}", RMDIR, entry(folder, b"y"), by)
    else:
        v.make(folder, b"x")
        v.refuses(f"REMOVE by {what}", ACCES, REMOVE, entry(folder, b"x"), by)
        v.does("REMOVE", REMOVE, entry(folder, b"x"))


def owners(v):
    """What an owner may set, and what root alone."""
    file = v.make(v.root, b"owners", user=1000, group=100)
    with_nothing = words(0)
    of = lambda **asked: opaque(file) + settings(**asked) + with_nothing
    for what, by, asked, status in (
        ("a mode, by a stranger", STRANGER, {"mode": 0o777}, PERM),
        ("a time, by a stranger", STRANGER, {"changed": Time(1, 1)}, PERM),
        ("the moment, by a stranger", STRANGER, {"changed": FromServer}, ACCES),
        ("an owner, by a stranger", STRANGER, {"user": 1002}, PERM),
        ("nothing, by a stranger", STRANGER, {}, OK),
        ("another owner, by the owner", OWNER, {"user": 1002}, PERM),
        ("himself, by the owner", OWNER, {"user": 1000}, OK),
        ("a group that he is not in, by the owner", OWNER, {"group": 500}, PERM),
        ("his own group, by the owner", OWNER, {"group": 100}, OK),
        ("a group of his, by the owner", user(1000, 100, (7, 8)), {"group": 8}, OK),
        ("a mode, by the owner", OWNER, {"mode": 0o640}, OK),
        ("a time, by the owner", OWNER, {"changed": Time(1, 1)}, OK),
        ("a mode, by nobody", ANYBODY, {"mode": 0o777}, PERM),
        ("all, by root", ROOT_USER, {"mode": 0o644, "user": 1000, "group": 100, "changed": Time(2, 2)}, OK),
    ):
        v.equal(f"SETATTR of {what}", v.ask(what, SETATTR, of(**asked), by)[0], status)


def special_bits(v):
    """The set-user-ID, set-group-ID and sticky bits, as Linux has them."""
    base = v.folder(v.root, b"bits", mode=0o777)
    for by, mode, left in ((OWNER, 0o6755, 0o755), (OWNER, 0o6745, 0o2745), (ROOT_USER, 0o6755, 0o6755)):
        for what, change in (("WRITE", lambda f: v.write(f, b"x", 0, by)), ("a size", lambda f: v.set(f, by, size=1))):
            file = v.make(base, b"suid", mode=0o644, user=1000, group=100)
            v.set(file, mode=mode)
            change(file)
            v.equal(f"{what} of {mode:o}", v.attributes(file).mode, left)
            v.does("REMOVE", REMOVE, entry(base, b"suid"))
    file = v.make(base, b"owned", mode=0o6755)
    v.set(file, user=1000)
    v.equal("a chown by root clears both", v.attributes(file).mode, 0o755)
    v.set(file, OWNER, mode=0o2755)
    v.equal("a group that he is not in: no set-group-ID", v.attributes(file).mode, 0o755)
    sets_group = v.folder(base, b"setgid", mode=0o2777, group=77)
    inner = v.attributes(v.make(sets_group, b"file", OWNER))
    v.looks("a file in a set-group-ID folder", inner, user=1000, group=77, mode=0o644)
    inner = v.attributes(v.folder(sets_group, b"folder", OWNER, mode=0o755))
    v.looks("a folder in a set-group-ID folder", inner, user=1000, group=77, mode=0o2755)
    sticky(v, v.folder(base, b"sticky", mode=0o1777, user=1001))


def sticky(v, folder):
    """Out of a sticky folder takes who owns the node or the folder, and root."""
    for name, make, procedure in ((b"file", v.make, REMOVE), (b"folder", v.folder, RMDIR)):
        for by, status in ((STRANGER, ACCES), (OWNER, OK), (MEMBER, OK), (ROOT_USER, OK)):
            make(folder, name, OWNER)
            told = v.ask("sticky", procedure, entry(folder, name), by)[0]
            v.equal(f"{NAMES[procedure]} of a sticky folder", told, status)
            if status != OK:
                v.does("root removes it", procedure, entry(folder, name))


# ---- listings


def listings(v):
    """Pages of any size, with attributes and without them."""
    folder = v.folder(v.root, b"listings")
    made = {b"n" * length: v.make(folder, b"n" * length) for length in (1, 4, 5, 100, 255)}
    for number in range(60):
        made[b"f%d" % number] = v.make(folder, b"f%d" % number)
    whole = v.does("READDIR", READDIR, listed(folder, 0, 65536))
    v.shows("READDIR: the folder", whole.attributes, folder)
    v.equal("READDIR: verifier and end", (whole.verifier, whole.is_end), (bytes(8), True))
    lines = whole.lines
    numbers = {b".": v.number_of(folder), b"..": ROOT_NUMBER} | {name: v.number_of(handle) for name, handle in made.items()}
    v.equal("READDIR: names and numbers", {line.name: line.number for line in lines}, numbers)
    v.equal("READDIR: each once", len(lines), len(numbers))
    cookies = [line.cookie for line in lines]
    v.equal("READDIR: cookies ascend", cookies, sorted(set(cookies)))
    v.equal("READDIR: . and ..", lines[:2], [Line(v.number_of(folder), b".", 1), Line(ROOT_NUMBER, b"..", 2)])
    check_pages(v, folder, lines)
    check_pages_plus(v, folder, lines, made)
    last = cookies[-1]
    for cookie in (last, last + 1, 2**64 - 1):
        page = v.does("READDIR at the end", READDIR, listed(folder, cookie, 8192))
        v.equal("READDIR at the end", (page.lines, page.is_end), ([], True))
    v.does("READDIR at the end, of no bytes", READDIR, listed(folder, last, 0))
    middle = lines[20]
    v.does("REMOVE", REMOVE, entry(folder, middle.name))
    page = v.does("READDIR from a removed line on", READDIR, listed(folder, middle.cookie, 65536))
    v.equal("READDIR from a removed line on", page.lines, lines[21:])
    # A verifier is not looked at, because no cookie ends.
    arguments = opaque(folder) + hyper(middle.cookie) + b"verifier" + words(65536)
    v.equal("READDIR with a verifier", v.does("READDIR", READDIR, arguments).lines, lines[21:])


# What a reply has beside its lines: attributes, verifier, the list's end, and whether it is whole.
FRAME = 104
# What a line of READDIRPLUS has more: attributes and a handle.
PLUS = 88 + 24


def line_bytes(line):
    return 24 + -(-len(line.name) // 4) * 4


def fitting(lines, room, cost):
    """The longest front of the lines that has so many bytes at most."""
    count = 0
    for line in lines:
        room -= cost(line)
        if room < 0:
            return count
        count += 1
    return count


def check_pages(v, folder, lines):
    for start in (0, 1, 2, 10):
        cookie = lines[start - 1].cookie if start else 0
        for count in (FRAME + 27, FRAME + 28, FRAME + 56, 300, 511, 512, 1000, 4096, 2**32 - 1):
            fits = fitting(lines[start:], min(count, TRANSFER) - FRAME, line_bytes)
            what, arguments = f"READDIR of {count} bytes from {cookie} on", listed(folder, cookie, count)
            if not fits:
                v.refuses(what, TOOSMALL, READDIR, arguments)
                continue
            page = v.does(what, READDIR, arguments)
            v.equal(what, (page.lines, page.is_end), (lines[start : start + fits], start + fits == len(lines)))
    for count in (0, 103, 104):
        v.refuses(f"READDIR of {count} bytes", TOOSMALL, READDIR, listed(folder, 0, count))


# How many bytes a page may have: of numbers, names and cookies alone, and in all.
PLUS_COUNTS = ((65536, 65536), (0, 65536), (28, 65536), (60, 65536), (65536, 500), (65536, FRAME + PLUS + 28), (512, 8192))


def check_pages_plus(v, folder, lines, made):
    for start in (0, 2, 30):
        cookie = lines[start - 1].cookie if start else 0
        for names_count, count in PLUS_COUNTS:
            by_names = fitting(lines[start:], names_count, line_bytes)
            by_all = fitting(lines[start:], count - FRAME, lambda line: line_bytes(line) + PLUS)
            fits = min(by_names, by_all)
            what = f"READDIRPLUS of {names_count} and {count} bytes from {cookie} on"
            arguments = listed(folder, cookie, names_count, count)
            if not fits:
                v.refuses(what, TOOSMALL, READDIRPLUS, arguments)
                continue
            page = v.does(what, READDIRPLUS, arguments)
            v.equal(what, [line[:3] for line in page.lines], [line[:3] for line in lines[start : start + fits]])
            v.equal(f"{what}: the end", page.is_end, start + fits == len(lines))
            for line in page.lines[:10]:
                handle = {b".": folder, b"..": v.root}.get(line.name) or made[line.name]
                v.equal(f"{what}: handle of {line.name[:9]}", line.handle, handle)
                v.shows(f"{what}: {line.name[:9]}", line.attributes, handle)


# ---- what is told of the file system


def facts(v):
    root = opaque(v.root)
    attributes, told = v.does("FSINFO", FSINFO, root)
    v.shows("FSINFO", attributes, v.root)
    wanted = words(TRANSFER, TRANSFER, BLOCK, TRANSFER, TRANSFER, BLOCK, TRANSFER) + hyper(LARGEST_FILE) + words(0, 1, 0x1A)
    v.equal("FSINFO", told, wanted)
    attributes, told = v.does("PATHCONF", PATHCONF, root)
    v.shows("PATHCONF", attributes, v.root)
    v.equal("PATHCONF", told, words(1, LONGEST_NAME, 1, 1, 0, 1))
    file = v.make(v.root, b"facts")
    for procedure in (FSINFO, PATHCONF, FSSTAT):
        for by in (ROOT_USER, STRANGER, ANYBODY):
            attributes = v.does(f"{NAMES[procedure]} of a file", procedure, opaque(file), by)[0]
            v.shows(f"{NAMES[procedure]} of a file", attributes, file)


GROUPS = (
    calls_of_other_programs,
    mounting,
    credentials,
    handles,
    arguments_that_are_none,
    names,
    what_the_tree_lacks,
    new_nodes,
    files_that_are_there,
    exclusive_creation,
    removals,
    new_attributes,
    sizes,
    times,
    writing,
    reading,
    rights,
    owners,
    special_bits,
    listings,
    facts,
    *tree_renames.GROUPS,
    *tree_links.GROUPS,
    *tree_exclusive.GROUPS,
    *tree_large.GROUPS,
)


# ---- groups that need a disk of their own

def new_root(jnlfs, folder):
    """A new tree has its root alone."""
    disk = Disk(jnlfs, folder, "root.disk", 2000)
    with disk.serve() as service:
        v = disk.vectors(service)
        v.looks("the root", v.attributes(v.root), kind=DIRECTORY, mode=0o755, size=0, number=ROOT_NUMBER, user=0, group=0)
        v.equal("nothing is in it", v.connection.list_all(v.root), [])
        page = v.does("READDIR", READDIR, listed(v.root, 0, 8192))
        v.equal("its lines", page.lines, [Line(1, b".", 1), Line(1, b"..", 2)])
        space = v.does("FSSTAT", FSSTAT, opaque(v.root))
        v.shows("FSSTAT", space.attributes, v.root)
        total, files = BLOCK * disk.data_blocks, disk.inodes - 1
        v.equal("FSSTAT", space[1:], (total, total, total, files, files - 1, files - 1, 0))
        return v.compared


def full_disk(jnlfs, folder):
    """A disk without room: NOSPC, and room again after a REMOVE."""
    disk = Disk(jnlfs, folder, "full.disk", 660)
    with disk.serve() as service:
        v = disk.vectors(service)
        # The root's names take one block.
        file = v.make(v.root, b"file")
        for number in range(disk.data_blocks - 1):
            v.write(file, b"b" * BLOCK, BLOCK * number)
        before = v.attributes(file)
        v.refuses("WRITE of one block more", NOSPC, WRITE, written(file, BLOCK * (disk.data_blocks - 1), b"c"))
        v.refuses("WRITE across the end", NOSPC, WRITE, written(file, BLOCK * (disk.data_blocks - 1) - 1, b"cc"))
        v.equal("a refusal changes nothing", v.attributes(file), before)
        v.write(file, b"d", 0)
        v.equal("what is there can be overwritten", v.content(file)[:2], b"db")
        space = v.does("FSSTAT", FSSTAT, opaque(v.root))
        v.equal("FSSTAT of a full disk", (space.free_bytes, space.available_bytes), (0, 0))
        other = v.folder(v.root, b"folder")
        v.refuses("CREATE in a folder without a block", NOSPC, CREATE, entry(other, b"x") + words(GUARDED) + settings())
        v.does("REMOVE", REMOVE, entry(v.root, b"file"))
        inner = v.make(other, b"x")
        for number in range(disk.data_blocks - 2):
            v.write(inner, b"e" * BLOCK, BLOCK * number)
        v.set(inner, size=0)
        v.write(v.make(v.root, b"again"), b"f" * BLOCK)
        all_numbers_taken(v, disk)
        return v.compared


def all_numbers_taken(v, disk):
    """A disk without a free inode."""
    for line in v.connection.list_all(v.root):
        if line.name == b"folder":
            v.does("REMOVE", REMOVE, entry(line.handle, b"x"))
        v.does("remove", RMDIR if line.name == b"folder" else REMOVE, entry(v.root, line.name))
    for number in range(disk.inodes - 2):
        v.make(v.root, b"n%d" % number)
    for name, procedure, more in ((b"x", CREATE, words(GUARDED) + settings()), (b"y", MKDIR, settings())):
        v.refuses(f"{NAMES[procedure]} without a free inode", NOSPC, procedure, entry(v.root, name) + more)
    v.equal("FSSTAT without a free inode", v.does("FSSTAT", FSSTAT, opaque(v.root)).free_files, 0)
    for number in (0, 500):
        old = v.does("LOOKUP", LOOKUP, entry(v.root, b"n%d" % number)).handle
        v.does("REMOVE", REMOVE, entry(v.root, b"n%d" % number))
        new = v.folder(v.root, b"again%d" % number)
        v.equal("the one free inode is taken", v.number_of(new), v.number_of(old))
        v.refuses("the handle of its last node", STALE, GETATTR, opaque(old))
    v.refuses("CREATE without a free inode again", NOSPC, CREATE, entry(v.root, b"x") + words(GUARDED) + settings())


def squashed_root(jnlfs, folder):
    """With --squash root is nobody, and others are themselves."""
    disk = Disk(jnlfs, folder, "squash.disk", 2000)
    with disk.serve() as service:
        v = disk.vectors(service)
        v.folder(v.root, b"all", mode=0o777)
        v.make(v.root, b"roots", mode=0o600)
    with disk.serve("--squash") as service:
        v = disk.vectors(service)
        v.refuses("CREATE by root", ACCES, CREATE, entry(v.root, b"x") + words(GUARDED) + settings())
        file = v.does("LOOKUP", LOOKUP, entry(v.root, b"roots")).handle
        v.refuses("READ by root", ACCES, READ, at_place(file, 0, 1))
        v.refuses("SETATTR by root", PERM, SETATTR, opaque(file) + settings(mode=0o777) + words(0))
        shared = v.does("LOOKUP", LOOKUP, entry(v.root, b"all")).handle
        for name, by, owner, group in (
            (b"root", ROOT_USER, NOBODY, NOBODY),
            (b"group", user(1000, 0), 1000, NOBODY),
            (b"user", user(1000, 100), 1000, 100),
            (b"nobody", ANYBODY, NOBODY, NOBODY),
        ):
            v.looks(f"a file by {name}", v.attributes(v.make(shared, name, by)), user=owner, group=group)
        return v.compared


def read_only(jnlfs, folder):
    """With --read-only what would change the tree is ROFS."""
    disk = Disk(jnlfs, folder, "read.disk", 2000)
    with disk.serve() as service:
        v = disk.vectors(service)
        v.write(v.make(v.root, b"file", mode=0o666), b"content")
    before = disk.path.read_bytes()
    with disk.serve("--read-only") as service:
        v = disk.vectors(service)
        file = v.does("LOOKUP", LOOKUP, entry(v.root, b"file")).handle
        v.equal("the bytes", v.content(file), b"content")
        for procedure, arguments in arguments_by(v.root, v.root, file).items():
            if procedure in (SETATTR, WRITE, CREATE, MKDIR, SYMLINK, MKNOD, REMOVE, RMDIR, RENAME, LINK):
                v.refuses(f"{NAMES[procedure]}", ROFS, procedure, arguments)
        for procedure in (GETATTR, ACCESS, READDIR, READDIRPLUS, FSSTAT, FSINFO, PATHCONF):
            v.does(f"{NAMES[procedure]}", procedure, arguments_by(v.root, v.root, file)[procedure])
        v.refuses("WRITE of a file", ROFS, WRITE, written(file, 0, b"x"))
        compared = v.compared
    if disk.path.read_bytes() != before:
        raise Differs("the disk was written")
    return compared


def another_run(jnlfs, folder):
    """What was told is there after a kill, and each run has a verifier of its own."""
    disk, seen = Disk(jnlfs, folder, "runs.disk", 2000), []
    for number in range(3):
        with disk.serve() as service:
            v = disk.vectors(service)
            lines = {line.name: v.content(line.handle) for line in v.connection.list_all(v.root)}
            v.equal("the files of earlier runs", lines, {b"f%d" % it: b"run %d" % it for it in range(number)})
            file = v.make(v.root, b"f%d" % number)
            wrote = v.write(file, b"run %d" % number)
            seen.append(wrote.verifier)
            v.equal("COMMIT's verifier", v.does("COMMIT", COMMIT, at_place(file, 0, 0)).verifier, wrote.verifier)
    v.equal("the verifiers", len(set(seen)), len(seen))
    return v.compared


def standing_clock(jnlfs, folder):
    """Where the clock cannot be read it shows 0 for ever, and times grow all the same, by a
    nanosecond each."""
    library = folder / "refuse_clock.so"
    source = Path(__file__).resolve().parent / "refuse_clock.c"
    subprocess.run(["cc", "-shared", "-fPIC", source, "-o", library, "-ldl"], check=True)
    disk = Disk(jnlfs, folder, "clock.disk", 2000)
    with disk.serve(LD_PRELOAD=str(library), REFUSE_CLOCK="1") as service:
        v = disk.vectors(service)
        v.equal("a new file's time", v.attributes(v.make(v.root, b"file")).ctime, Time(0, 0))
        times(v)
        tree_renames.renames_of_files(v)
        tree_renames.times_of_renames(v)
        other = v.folder(v.root, b"other")
        for number in range(4):
            ctime = v.attributes(other).ctime
            shown = v.set(other, changed=Time(ctime.secs, ctime.nanos + number)).after
            told = v.does("CREATE", CREATE, entry(other, b"n%d" % number) + words(GUARDED) + settings()).directory.after
            v.holds("a new name shows another mtime than a client has set", told.mtime != shown.mtime)
            v.holds("and a greater ctime", told.ctime > shown.ctime)
        return v.compared


DISKS = (
    new_root,
    full_disk,
    squashed_root,
    read_only,
    another_run,
    standing_clock,
    exclusive_creation_in_another_run,
    *tree_renames.DISKS,
    *tree_links.DISKS,
    *tree_exclusive.DISKS,
    *tree_large.DISKS,
    *tree_levels.DISKS,
    *tree_growth.DISKS,
)


def shared_disk(jnlfs, folder, group):
    """A group that needs no disk of its own, over a new one all the same."""
    disk = Disk(jnlfs, folder, f"{group.__name__}.disk", 2000)
    with disk.serve() as service:
        v = disk.vectors(service)
        group(v)
        return v.compared


def all_groups(jnlfs, folder):
    """Each group by its name, as a function that asks it and answers how many things it has
    compared."""
    groups = {group.__name__: lambda group=group: shared_disk(jnlfs, folder, group) for group in GROUPS}
    return groups | {group.__name__: lambda group=group: group(jnlfs, folder) for group in DISKS}
