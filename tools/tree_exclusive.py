"""What RFC 1813, section 3.3.8, asks for of CREATE in its mode EXCLUSIVE in a tree of files, beyond
what `tree_vectors.py` asks of it.

A module: `tree_vectors.py` takes its groups. Where the standard leaves something open, what is
written down here is what docs/FORMATS.md says that this tree does: which changes of a file take its
verifier away, that a call which changes nothing leaves it, that whoever may search the folder is told
the file again, and that the settings of a new file are for SETATTR.
"""

import threading

from tree_asking import *

VERIFIER = bytes(range(1, 9))
CLIENTS, ROUNDS = 6, 30
LONG_NAME = b"n" * (LONGEST_NAME + 1)


def spelled(directory, name, verifier=VERIFIER):
    """CREATE3args with createverf3."""
    return entry(directory, name) + words(EXCLUSIVE) + verifier


def makes(v, what, directory, name, verifier=VERIFIER, by=ROOT_USER):
    """A CREATE EXCLUSIVE of a name that is not there must make an empty file without rights. Its
    handle."""
    before = v.attributes(directory)
    made = v.does(what, CREATE, spelled(directory, name, verifier), by)
    v.looks(what, made.attributes, kind=FILE, mode=0, size=0, mtime=made.attributes.ctime, number=v.number_of(made.handle))
    v.shows(what, made.attributes, made.handle)
    v.changes(f"{what}: its directory", made.directory, before, directory)
    v.holds(f"{what}: its directory's ctime grows", made.directory.after.ctime > before.ctime)
    found = v.does(f"{what}: LOOKUP", LOOKUP, entry(directory, name))
    v.equal(f"{what}: LOOKUP", found, Found(made.handle, made.attributes, made.directory.after))
    return made.handle


def tells_again(v, what, directory, name, handle, verifier=VERIFIER, by=ROOT_USER):
    """The same call must be told the same file, and change neither it nor its directory."""
    file, folder = v.attributes(handle), v.attributes(directory)
    told = v.does(what, CREATE, spelled(directory, name, verifier), by)
    before = Before(folder.size, folder.mtime, folder.ctime)
    v.equal(what, told, Made(handle, file, Change(before, folder)))
    v.equal(f"{what}: the file stays", v.attributes(handle), file)
    v.equal(f"{what}: its directory stays", v.attributes(directory), folder)


def is_there(v, what, directory, name, verifier=VERIFIER, by=ROOT_USER):
    v.refuses(what, EXIST, CREATE, spelled(directory, name, verifier), by)


# ---- which file it is


def exclusive_verifiers(v):
    """A verifier is its eight bytes, and each bit of them counts. A file has the one of its own."""
    folder, other = v.folder(v.root, b"verifiers"), v.folder(v.root, b"others")
    verifiers = (VERIFIER, VERIFIER[::-1], VERIFIER[4:] + VERIFIER[:4], bytes(8), b"\xff" * 8, b"\0" * 7 + b"\1", b"\1" + b"\0" * 7)
    handles = [makes(v, f"CREATE {it.hex()}", folder, it.hex().encode(), it) for it in verifiers]
    v.equal("one file each", len(set(handles)), len(handles))
    for verifier, handle in zip(verifiers, handles):
        name = verifier.hex().encode()
        tells_again(v, f"CREATE {verifier.hex()} again", folder, name, handle, verifier)
        for asked in verifiers:
            if asked != verifier:
                is_there(v, f"CREATE {asked.hex()} of {verifier.hex()}", folder, name, asked)
    name = VERIFIER.hex().encode()
    for bit in range(64):
        asked = (int.from_bytes(VERIFIER, "big") ^ 1 << bit).to_bytes(8, "big")
        is_there(v, f"CREATE {asked.hex()}", folder, name, asked)
    tells_again(v, "CREATE after those", folder, name, handles[0])
    second = makes(v, "CREATE of another name", folder, b"second")
    third = makes(v, "CREATE in another folder", other, name)
    v.equal("three files of one verifier", len({handles[0], second, third}), 3)
    for directory, called, handle in ((folder, name, handles[0]), (folder, b"second", second), (other, name, third)):
        tells_again(v, "CREATE of one verifier again", directory, called, handle)


def exclusive_files_stay(v):
    """What changes nothing of a file leaves its verifier, also a call that is refused."""
    folder = v.folder(v.root, b"stays", mode=0o777)
    file = makes(v, "CREATE", folder, b"file", by=OWNER)
    here = opaque(file)
    for what, procedure, arguments in (
        ("GETATTR", GETATTR, here),
        ("ACCESS", ACCESS, here + words(63)),
        ("READ", READ, at_place(file, 0, 100)),
        ("COMMIT", COMMIT, at_place(file, 0, 0)),
        ("FSINFO", FSINFO, here),
        ("LOOKUP", LOOKUP, entry(folder, b"file")),
        ("WRITE of nothing", WRITE, written(file, 10, b"")),
        ("SETATTR of nothing", SETATTR, here + settings() + words(0)),
        ("SETATTR of the time of access", SETATTR, here + settings(read=FromServer) + words(0)),
        ("CREATE UNCHECKED without a size", CREATE, entry(folder, b"file") + words(UNCHECKED) + settings(mode=0o777)),
        ("RENAME to itself", RENAME, entry(folder, b"file") + entry(folder, b"file")),
        ("CREATE of another name", CREATE, entry(folder, b"other") + words(GUARDED) + settings()),
        ("REMOVE of another name", REMOVE, entry(folder, b"other")),
        ("SETATTR of its folder", SETATTR, opaque(folder) + settings(mode=0o755) + words(0)),
        ("RENAME of its folder", RENAME, entry(v.root, b"stays") + entry(v.root, b"moved")),
    ):
        v.does(what, procedure, arguments)
        tells_again(v, f"CREATE after {what}", folder, b"file", file)
    for what, status, procedure, arguments, by in (
        ("SETATTR by another", PERM, SETATTR, here + settings(mode=0o777) + words(0), STRANGER),
        ("SETATTR that is guarded", NOT_SYNC, SETATTR, here + settings(mode=0o777) + words(1, 1, 1), ROOT_USER),
        ("SETATTR of too great a size", FBIG, SETATTR, here + settings(size=LARGEST_FILE + 1) + words(0), ROOT_USER),
        ("WRITE by another", ACCES, WRITE, written(file, 0, b"x"), STRANGER),
        ("WRITE past the greatest size", FBIG, WRITE, written(file, LARGEST_FILE, b"x"), ROOT_USER),
        ("CREATE GUARDED", EXIST, CREATE, entry(folder, b"file") + words(GUARDED) + settings(), ROOT_USER),
        ("MKDIR", EXIST, MKDIR, entry(folder, b"file") + settings(), ROOT_USER),
        ("RMDIR", NOTDIR, RMDIR, entry(folder, b"file"), ROOT_USER),
        ("REMOVE by another", ACCES, REMOVE, entry(folder, b"file"), STRANGER),
    ):
        v.refuses(what, status, procedure, arguments, by)
        tells_again(v, f"CREATE after {what}", folder, b"file", file)


def exclusive_files_that_change(v):
    """Each change takes the verifier away for ever, also one to what was there before."""
    folder = v.folder(v.root, b"changes")
    made = lambda name: (makes(v, f"CREATE {name}", folder, name), v.attributes(there(v, folder, name)))
    changes = {
        b"mode": lambda file, was: v.set(file, mode=0),
        b"owner": lambda file, was: v.set(file, user=was.user),
        b"group": lambda file, was: v.set(file, group=was.group),
        b"size": lambda file, was: v.set(file, size=0),
        b"mtime": lambda file, was: v.set(file, changed=was.mtime),
        b"mtime now": lambda file, was: v.set(file, changed=FromServer),
        b"write": lambda file, was: v.write(file, b"\0"),
        b"unstable write": lambda file, was: v.does("WRITE", WRITE, written(file, 5, b"x", UNSTABLE)),
        b"size by CREATE": lambda file, was: v.does("CREATE", CREATE, entry(folder, b"size by CREATE") + words(UNCHECKED) + settings(size=0)),
        b"rename": lambda file, was: rename_and_back(v, folder, b"rename"),
        b"replaced": lambda file, was: replace(v, folder, b"replaced"),
    }
    for name, change in changes.items():
        handle, was = made(name)
        tells_again(v, f"CREATE {name} again", folder, name, handle)
        change(handle, was)
        is_there(v, f"CREATE {name} after its change", folder, name)
        is_there(v, f"CREATE {name} of another verifier", folder, name, bytes(8))
        v.does("REMOVE", REMOVE, entry(folder, name))
        v.holds(f"CREATE {name} once it is removed", makes(v, f"CREATE {name} anew", folder, name) != handle)


def there(v, directory, name):
    return v.does(f"LOOKUP {name}", LOOKUP, entry(directory, name)).handle


def rename_and_back(v, folder, name):
    for one, other in ((name, b"other"), (b"other", name)):
        v.does("RENAME", RENAME, entry(folder, one) + entry(folder, other))


def replace(v, folder, name):
    """An exclusive file of the same verifier takes the name, and has it no more."""
    makes(v, "CREATE beside", folder, b"beside")
    v.does("RENAME", RENAME, entry(folder, b"beside") + entry(folder, name))


# ---- who asks, and what for


def exclusive_by_others(v):
    """Whoever may search the folder is told the file again. To make one he must be let write it."""
    folder = v.folder(v.root, b"of others", mode=0o755)
    v.set(folder, user=1000, group=100)
    file = makes(v, "CREATE by the owner", folder, b"file", by=OWNER)
    v.looks("CREATE by the owner", v.attributes(file), user=1000, group=100)
    for what, by in (("root", ROOT_USER), ("a member", MEMBER), ("a stranger", STRANGER), ("nobody", ANYBODY)):
        tells_again(v, f"CREATE again by {what}", folder, b"file", file, by=by)
        is_there(v, f"CREATE of another verifier by {what}", folder, b"file", bytes(8), by)
    for what, by in (("a member", MEMBER), ("a stranger", STRANGER), ("nobody", ANYBODY)):
        v.refuses(f"CREATE by {what}", ACCES, CREATE, spelled(folder, b"new"), by)
    v.set(folder, mode=0o750)
    tells_again(v, "CREATE again by a member who searches", folder, b"file", file, by=MEMBER)
    v.refuses("CREATE again by one who does not", ACCES, CREATE, spelled(folder, b"file"), STRANGER)
    v.set(folder, mode=0o2777)
    shared = makes(v, "CREATE in a folder of a group", folder, b"shared", by=STRANGER)
    v.looks("CREATE in a folder of a group", v.attributes(shared), user=1002, group=100, mode=0)


def exclusive_as_a_kernel_asks(v):
    """A kernel makes the file exclusively, and then sets what its user asked for. The user may, and
    writes, though the mode was 0."""
    folder = v.folder(v.root, b"as a kernel", mode=0o777)
    file = makes(v, "CREATE", folder, b"file", by=OWNER)
    told = v.set(file, OWNER, mode=0o644, read=FromServer, changed=FromServer).after
    v.looks("SETATTR", told, mode=0o644, user=1000, group=100, size=0)
    v.write(file, b"bytes", by=OWNER)
    v.equal("the bytes", v.content(file), b"bytes")
    is_there(v, "CREATE once it is set", folder, b"file", by=OWNER)
    v.does("UNCHECKED", CREATE, entry(folder, b"file") + words(UNCHECKED) + settings(mode=0o600))
    v.equal("its bytes stay", v.content(file), b"bytes")


def exclusive_that_are_none(v):
    """What is wrong with a call is told in the order of other CREATEs, and makes nothing."""
    folder = v.folder(v.root, b"none", mode=0o755)
    file, gone = v.make(folder, b"file"), v.folder(folder, b"gone")
    v.does("RMDIR", RMDIR, entry(folder, b"gone"))
    before = v.attributes(folder)
    for what, status, arguments, by in (
        ("in a file", NOTDIR, spelled(file, b"x"), ROOT_USER),
        ("in a folder that is gone", STALE, spelled(gone, b"x"), ROOT_USER),
        ("of no name", INVAL, spelled(folder, b""), ROOT_USER),
        ("of two names", INVAL, spelled(folder, b"a/b"), ROOT_USER),
        ("of too long a name", NAMETOOLONG, spelled(folder, LONG_NAME), ROOT_USER),
        ("of `.`", EXIST, spelled(folder, b"."), ROOT_USER),
        ("of `..`", EXIST, spelled(folder, b".."), ROOT_USER),
        ("of a file that no such call made", EXIST, spelled(folder, b"file", bytes(8)), ROOT_USER),
        ("by a stranger", ACCES, spelled(folder, b"x"), STRANGER),
    ):
        v.refuses(f"CREATE {what}", status, CREATE, arguments, by)
    head = entry(folder, b"x") + words(EXCLUSIVE)
    for arguments in (head, head + bytes(4), head + bytes(7), head + bytes(12), head + VERIFIER + settings()):
        reply = v.connection.call(NFS, 3, CREATE, arguments)
        v.equal(f"CREATE of {len(arguments)} bytes", reply, GARBAGE)
    v.equal("nothing was made", v.attributes(folder), before)


def exclusive_at_once(v):
    """Many send one call at once: all are told one file. Of many verifiers one makes it."""
    folder = v.folder(v.root, b"at once")
    for number in range(ROUNDS):
        name = b"same%d" % number
        told = at_once(v, [spelled(folder, name)] * CLIENTS)
        v.equal(f"round {number}: statuses", [status for status, _ in told], [OK] * CLIENTS)
        v.equal(f"round {number}: one file", len({made.handle for _, made in told}), 1)
        name = b"other%d" % number
        told = at_once(v, [spelled(folder, name, bytes([it]) * 8) for it in range(CLIENTS)])
        v.equal(f"round {number}: statuses", sorted(status for status, _ in told), [OK] + [EXIST] * (CLIENTS - 1))
        winner = [status for status, _ in told].index(OK)
        tells_again(v, f"round {number}: the one that made it", folder, name, told[winner][1].handle, bytes([winner]) * 8)


def at_once(v, calls):
    """What each of these CREATEs is told, all sent at once by connections of their own. One that is
    answered JUKEBOX is sent again, as the standard says."""
    told, begin = [None] * len(calls), threading.Barrier(len(calls))

    def ask(number):
        with Connection(v.connection.socket.getpeername()[1]) as connection:
            begin.wait()
            told[number] = connection.ask(CREATE, calls[number])
            while told[number][0] == JUKEBOX:
                told[number] = connection.ask(CREATE, calls[number])

    threads = [threading.Thread(target=ask, args=(number,)) for number in range(len(calls))]
    for thread in threads:
        thread.start()
    for thread in threads:
        thread.join()
    v.holds("each is answered", None not in told)
    return told


GROUPS = (
    exclusive_verifiers,
    exclusive_files_stay,
    exclusive_files_that_change,
    exclusive_by_others,
    exclusive_as_a_kernel_asks,
    exclusive_that_are_none,
    exclusive_at_once,
)


# ---- groups that need a disk of their own


def exclusive_without_room(jnlfs, folder):
    """Without a free inode no file is made, and one that was made is told again."""
    disk = Disk(jnlfs, folder, "exclusive_room.disk", 660)
    with disk.serve() as service:
        v = disk.vectors(service)
        file = makes(v, "CREATE", v.root, b"file")
        for number in range(disk.inodes - 4):
            v.make(v.root, b"n%d" % number)
        last = makes(v, "CREATE of the last inode", v.root, b"last")
        v.refuses("CREATE without a free inode", NOSPC, CREATE, spelled(v.root, b"x"))
        tells_again(v, "CREATE again without a free inode", v.root, b"file", file)
        tells_again(v, "CREATE of the last one again", v.root, b"last", last)
        is_there(v, "CREATE of another verifier", v.root, b"last", bytes(8))
        v.does("REMOVE", REMOVE, entry(v.root, b"last"))
        new = makes(v, "CREATE in its inode", v.root, b"last")
        v.equal("its inode", v.number_of(new), v.number_of(last))
        v.refuses("the handle of the last one", STALE, GETATTR, opaque(last))
        v.does("REMOVE", REMOVE, entry(v.root, b"last"))
        plain = v.make(v.root, b"last")
        v.equal("its inode again", v.number_of(plain), v.number_of(last))
        is_there(v, "a file that CREATE GUARDED made there", v.root, b"last")
        return v.compared


def exclusive_to_read(jnlfs, folder):
    """With --read-only each is ROFS, and --squash makes it nobody's."""
    disk = Disk(jnlfs, folder, "exclusive_read.disk", 2000)
    with disk.serve("--squash") as service:
        v = disk.vectors(service)
        v.refuses("CREATE by root", ACCES, CREATE, spelled(v.root, b"x"))
    with disk.serve() as service:
        v = disk.vectors(service)
        file, shared = makes(v, "CREATE", v.root, b"file"), v.folder(v.root, b"shared", mode=0o777)
    with disk.serve("--squash") as service:
        v = disk.vectors(service)
        made = makes(v, "CREATE by root that is nobody", shared, b"nobody")
        v.looks("CREATE by root that is nobody", v.attributes(made), user=NOBODY, group=NOBODY)
        tells_again(v, "CREATE again in another run", v.root, b"file", file)
    with disk.serve("--read-only") as service:
        v = disk.vectors(service)
        for what, name in (("of a file that is there", b"file"), ("of a new one", b"x")):
            v.refuses(f"CREATE {what}", ROFS, CREATE, spelled(v.root, name))
        return v.compared


DISKS = (exclusive_without_room, exclusive_to_read)
