"""What RFC 1813, section 3.3.14, asks for of RENAME in a tree of files, case by case.

A module: `tree_vectors.py` takes its groups. Where the standard leaves something open, what is
written down here is what docs/FORMATS.md and docs/OPERATING.md say that this tree does: which
refusal comes first, that a RENAME of a node to itself needs the same rights as another, and that a
name that is given another within a folder keeps its place in listings.
"""

import threading
import time

from tree_asking import *

ROUNDS_AT_ONCE, LISTINGS_AT_ONCE = 60, 300
# What is free is counted at most once in so many seconds.
COUNTED_AFTER = 1.1
LONG = b"n" * (LONGEST_NAME + 1)
# What is no name, and how it is refused, both as the old one and as the new one.
NO_NAMES = {b".": INVAL, b"..": INVAL, b"": INVAL, b"a/b": INVAL, b"/": INVAL, b"a\0b": INVAL, LONG: NAMETOOLONG, LONG + b"/": INVAL}


# ---- what each RENAME is asked for


def spelled(source, name, goal, new_name):
    """RENAME3args."""
    return entry(source, name) + entry(goal, new_name)


def found(v, directory, name):
    return v.does(f"LOOKUP {name[:9]}", LOOKUP, entry(directory, name))


def there(v, directory, name):
    """The handle of a name, or None."""
    status, results = v.ask(f"LOOKUP {name[:9]}", LOOKUP, entry(directory, name))
    return results.handle if status == OK else None


def listing(v, directory):
    """The lines of a folder, with `.` and `..`."""
    return v.connection.must(READDIR, listed(directory, 0, TRANSFER)).lines


def free_room(v):
    """How many inodes and bytes are free, once they were counted again."""
    time.sleep(COUNTED_AFTER)
    space = v.does("FSSTAT", FSSTAT, opaque(v.root))
    return space.free_files, space.free_bytes


def moves(v, what, source, name, goal, new_name, by=ROOT_USER):
    """A RENAME must be done. Its reply must tell of both directories what was told of them before,
    and what is told of them afterwards. The node is found under the new name and not under the old
    one, and its time of change alone is another. What stood under the new name is gone."""
    node, before, _ = found(v, source, name)
    replaced = there(v, goal, new_name)
    directories = [v.attributes(source), v.attributes(goal)]
    told = v.does(what, RENAME, spelled(source, name, goal, new_name), by)
    changes_names(v, f"{what}: from", told.source, directories[0], source)
    changes_names(v, f"{what}: to", told.goal, directories[1], goal)
    after = v.attributes(node)
    v.holds(f"{what}: ctime grows", after.ctime > before.ctime)
    v.equal(f"{what}: all else stays", after._replace(ctime=before.ctime), before)
    v.refuses(f"{what}: the old name", NOENT, LOOKUP, entry(source, name))
    v.equal(f"{what}: the new name", found(v, goal, new_name), Found(node, after, told.goal.after))
    if replaced:
        v.refuses(f"{what}: what stood there", STALE, GETATTR, opaque(replaced))


def changes_names(v, what, change, before, directory):
    """Of a directory whose names change."""
    v.changes(what, change, before, directory)
    v.holds(f"{what}: ctime grows", change.after.ctime > before.ctime)
    v.holds(f"{what}: mtime is another", change.after.mtime != before.mtime)
    v.equal(f"{what}: mtime is ctime", change.after.mtime, change.after.ctime)


def all_of(v, directories):
    """What is told of these directories, and of all that is in them."""
    return [(v.attributes(directory), v.connection.list_all(directory)) for directory in directories]


def nothing_moves(v, what, source, name, by=ROOT_USER):
    """A RENAME of a node to itself is done, and changes nothing, not even a time."""
    before = all_of(v, [source])
    told = v.does(what, RENAME, spelled(source, name, source, name), by)
    v.equal(f"{what}: both directories", told.source, told.goal)
    v.changes(what, told.source, before[0][0], source)
    v.equal(f"{what}: all stays", all_of(v, [source]), before)


def is_refused(v, what, status, source, name, goal, new_name, by=ROOT_USER):
    """A RENAME is refused, and nothing has changed."""
    before = all_of(v, [source, goal])
    v.refuses(what, status, RENAME, spelled(source, name, goal, new_name), by)
    v.equal(f"{what}: nothing changes", all_of(v, [source, goal]), before)


# ---- what is done


def renames_of_files(v):
    """Within a folder, to another one, to the root and from it, under every name."""
    top = v.folder(v.root, b"renames")
    here, other = v.folder(top, b"here"), v.folder(top, b"other")
    file = v.make(here, b"file", mode=0o640, user=7, group=8)
    v.write(file, b"content")
    v.set(file, mode=0o6751, changed=Time(5, 6))
    v.make(here, b"stays")
    every = bytes(byte for byte in range(1, 256) if byte != ord("/"))
    for what, source, name, goal, new_name in (
        ("within a folder", here, b"file", here, b"renamed"),
        ("to another folder", here, b"renamed", other, b"renamed"),
        ("to another folder and name", other, b"renamed", here, b"file"),
        ("to the root", here, b"file", v.root, b"renames of files"),
        ("from the root", v.root, b"renames of files", other, b"f"),
        ("to the longest name", other, b"f", here, b"n" * LONGEST_NAME),
        ("to all bytes", here, b"n" * LONGEST_NAME, here, every[:LONGEST_NAME]),
        ("to upper case", here, every[:LONGEST_NAME], here, b"FILE"),
        ("to lower case", here, b"FILE", here, b"file"),
        ("to three dots", here, b"file", here, b"..."),
        ("from three dots", here, b"...", here, b"file"),
    ):
        moves(v, what, source, name, goal, new_name)
        v.equal(f"{what}: the handle", there(v, goal, new_name), file)
        v.equal(f"{what}: the bytes", v.content(file), b"content")
    v.equal("the names", sorted(line.name for line in v.connection.list_all(here)), [b"file", b"stays"])
    names_that_change_places(v, here)


def names_that_change_places(v, folder):
    """Two names are exchanged by a third."""
    first, second = v.make(folder, b"first"), v.make(folder, b"second")
    for name, new_name in ((b"first", b"third"), (b"second", b"first"), (b"third", b"second")):
        moves(v, f"{name} to {new_name}", folder, name, folder, new_name)
    v.equal("both are exchanged", (there(v, folder, b"first"), there(v, folder, b"second")), (second, first))


def renames_of_folders(v):
    """A folder goes to any parent, with all that is below it, and its `..` leads to that."""
    top = v.folder(v.root, b"moved")
    here, other = v.folder(top, b"here"), v.folder(top, b"other")
    folder = v.folder(here, b"folder")
    deep = v.folder(folder, b"deep")
    file = v.make(deep, b"file")
    v.write(file, b"deep down")
    for what, source, name, goal, new_name in (
        ("a folder within its own", here, b"folder", here, b"renamed"),
        ("a folder to another", here, b"renamed", other, b"folder"),
        ("a folder upward", other, b"folder", top, b"folder"),
        ("a folder to the root", top, b"folder", v.root, b"moved folder"),
        ("a folder from the root", v.root, b"moved folder", here, b"folder"),
        ("a folder beside its parent", folder, b"deep", here, b"deep"),
        ("a folder into one beside it", here, b"folder", deep, b"folder"),
    ):
        moves(v, what, source, name, goal, new_name)
        hangs_in(v, what, there(v, goal, new_name), goal)
        v.equal(f"{what}: what is deep below", v.content(file), b"deep down")
    # Now `deep`, which was below `folder`, has it.
    v.equal("what hangs in the one", there(v, deep, b"folder"), folder)
    v.equal("and in the other", listing(v, folder)[2:], [])


def hangs_in(v, what, folder, parent):
    """`..` of a folder is this one, by each call that tells of it."""
    v.equal(f"{what}: LOOKUP ..", there(v, folder, b".."), parent)
    v.equal(f"{what}: READDIR", listing(v, folder)[1], Line(v.number_of(parent), b"..", 2))
    page = v.does("READDIRPLUS", READDIRPLUS, listed(folder, 0, TRANSFER, TRANSFER))
    v.equal(f"{what}: READDIRPLUS", page.lines[1], Line(v.number_of(parent), b"..", 2, v.attributes(parent), parent))


def renames_onto_others(v):
    """A file replaces a file and an empty folder's place is taken by a folder; its number and
    blocks are free then."""
    top = v.folder(v.root, b"onto")
    here, other = v.folder(top, b"here"), v.folder(top, b"other")
    for number, goal in enumerate((here, other)):
        v.write(v.make(here, b"new"), b"new bytes")
        v.write(v.make(goal, b"old"), b"o" * (3 * BLOCK))
        files, free_bytes = free_room(v)
        moves(v, "a file onto a file", here, b"new", goal, b"old")
        v.equal("its bytes", v.content(there(v, goal, b"old")), b"new bytes")
        v.equal("what is free then", free_room(v), (files + 1, free_bytes + 3 * BLOCK))
        v.make(v.folder(here, b"full"), b"inner")
        v.folder(goal, b"empty")
        moves(v, "a full folder onto an empty one", here, b"full", goal, b"empty")
        hangs_in(v, "a full folder onto an empty one", there(v, goal, b"empty"), goal)
        v.folder(here, b"again")
        v.does("REMOVE", REMOVE, entry(there(v, goal, b"empty"), b"inner"))
        moves(v, "an empty folder onto an emptied one", here, b"again", goal, b"empty")
        v.does("RMDIR", RMDIR, entry(goal, b"empty"))
        v.does("REMOVE", REMOVE, entry(goal, b"old"))
    v.equal("nothing is left", (listing(v, here)[2:], listing(v, other)[2:]), ([], []))
    saved_again_and_again(v, here)


def saved_again_and_again(v, folder):
    """A file that is written beside another and then takes its name, as editors do."""
    handles = set()
    for number in range(40):
        handle = v.make(folder, b"beside")
        v.write(handle, b"version %d" % number)
        moves(v, f"version {number}", folder, b"beside", folder, b"saved")
        v.equal(f"version {number}: the bytes", v.content(there(v, folder, b"saved")), b"version %d" % number)
        handles.add(handle)
    v.equal("each was another file", len(handles), 40)
    v.refuses("WRITE of a replaced file", STALE, WRITE, written(min(handles - {handle}), 0, b"x"))
    v.equal("the names", [line.name for line in listing(v, folder)[2:]], [b"saved"])


def renames_to_itself(v):
    """Both names are one node's: nothing is done, and it is answered OK."""
    top = v.folder(v.root, b"itself", mode=0o777)
    v.make(top, b"file", OWNER)
    v.make(v.folder(top, b"folder", OWNER), b"inner")
    for name in (b"file", b"folder"):
        nothing_moves(v, f"the {name}", top, name)
        nothing_moves(v, f"the {name} by a stranger", top, name, STRANGER)


def times_of_renames(v):
    """Times grow also over an mtime that a client has set, now or ahead."""
    top = v.folder(v.root, b"times of renames")
    here, other = v.folder(top, b"here"), v.folder(top, b"other")
    v.make(here, b"file")
    for number in range(8):
        for folder in (here, other):
            ctime = v.attributes(folder).ctime
            v.set(folder, changed=Time(ctime.secs + number // 4 * 1000, ctime.nanos + number % 4))
        source, goal = (here, other)[number % 2], (other, here)[number % 2]
        moves(v, f"with an mtime that was set, {number}", source, b"file", goal, b"file")
        moves(v, f"within, {number}", goal, b"file", goal, b"other")
        moves(v, f"within and back, {number}", goal, b"other", goal, b"file")


# ---- what is refused


def renames_that_are_refused(v):
    """Each refusal by itself."""
    top = v.folder(v.root, b"refused")
    file, folder = v.make(top, b"file"), v.folder(top, b"folder")
    v.make(folder, b"inner")
    v.make(top, b"other")
    v.folder(top, b"empty")
    gone = gone_folder(v)
    there_at = spelled(top, b"file", top, b"new")
    for what, status, source, name, goal, new_name in (
        ("from a removed folder", STALE, gone, b"file", top, b"new"),
        ("to a removed folder", STALE, top, b"file", gone, b"new"),
        ("from a file", NOTDIR, file, b"file", top, b"new"),
        ("to a file", NOTDIR, top, b"file", file, b"new"),
    ):
        v.refuses(what, status, RENAME, spelled(source, name, goal, new_name))
    for name, status in NO_NAMES.items():
        is_refused(v, f"of {name[:9]}", status, top, name, folder, b"new")
        is_refused(v, f"to {name[:9]}", status, top, b"file", folder, name)
        is_refused(v, f"of {name[:9]} to itself", status, top, name, top, name)
    for what, status, name, goal, new_name in (
        ("of nothing", NOENT, b"nothing", top, b"new"),
        ("of nothing to itself", NOENT, b"nothing", top, b"nothing"),
        ("of nothing onto a file", NOENT, b"nothing", top, b"file"),
        ("a file onto an empty folder", EXIST, b"file", top, b"empty"),
        ("a file onto a full folder", EXIST, b"file", top, b"folder"),
        ("a folder onto a file", EXIST, b"empty", top, b"file"),
        ("a folder onto a full one", EXIST, b"empty", top, b"folder"),
        ("a full folder onto a file of another", EXIST, b"empty", folder, b"inner"),
    ):
        is_refused(v, what, status, top, name, goal, new_name)
    v.does("and it can be renamed", RENAME, there_at)
    below_itself(v, v.folder(top, b"below"))


def gone_folder(v):
    """The handle of a folder that was removed."""
    handle = v.folder(v.root, b"gone")
    v.does("RMDIR", RMDIR, entry(v.root, b"gone"))
    return handle


def below_itself(v, top):
    """A folder cannot go into itself, nor below itself, and onto its own parent neither."""
    first = v.folder(top, b"first")
    second = v.folder(first, b"second")
    third = v.folder(second, b"third")
    v.folder(third, b"fourth")
    v.make(third, b"file")
    for depth, goal in enumerate((first, second, third)):
        for new_name in (b"new", b"first"):
            is_refused(v, f"into itself, {depth} deep", INVAL, top, b"first", goal, new_name)
    is_refused(v, "below itself, onto an empty folder", INVAL, top, b"first", third, b"fourth")
    is_refused(v, "below itself, onto a file", INVAL, top, b"first", third, b"file")
    is_refused(v, "one further down, below itself", INVAL, first, b"second", third, b"new")
    is_refused(v, "onto its own parent", EXIST, first, b"second", top, b"first")
    is_refused(v, "two deep onto the first", EXIST, second, b"third", top, b"first")
    moves(v, "upward", second, b"third", top, b"third")
    moves(v, "and what it was below, into it", top, b"first", third, b"first")
    is_refused(v, "now it is below the other", INVAL, top, b"third", second, b"third")


def the_first_refusal_is_answered(v):
    """Two or more refusals hold at once: which one is answered."""
    top = v.folder(v.root, b"order", mode=0o777)
    file = v.make(top, b"file", STRANGER)
    closed = v.folder(top, b"closed", mode=0o700)
    read_only = v.folder(top, b"read only", mode=0o755)
    v.folder(read_only, b"his", mode=0o777, user=1002)
    v.make(read_only, b"a file")
    gone = gone_folder(v)
    for what, status, source, name, goal, new_name in (
        ("from a file to a removed folder", STALE, file, b"x", gone, b"y"),
        ("from a removed folder to a file", STALE, gone, b"x", file, b"y"),
        ("from a file to a closed folder", NOTDIR, file, b"x", closed, b"y"),
        ("from a closed folder to a file", ACCES, closed, b"x", file, b"y"),
        ("no name to a file", NOTDIR, top, b"", file, b"y"),
        ("no name to a closed folder", ACCES, top, b"", closed, b"y"),
        ("no name from a closed folder", ACCES, closed, b"", top, b"y"),
        ("no name, and too long a new one", INVAL, top, b".", top, LONG),
        ("too long a name, and no new one", NAMETOOLONG, top, LONG, top, b"."),
        ("nothing to no name", INVAL, top, b"nothing", top, b".."),
        ("nothing of a folder that he may not write", NOENT, read_only, b"nothing", top, b"y"),
        ("nothing to a folder that he may not write", NOENT, top, b"nothing", read_only, b"y"),
        ("a folder into itself out of one that he may not write", ACCES, read_only, b"his", there(v, read_only, b"his"), b"y"),
        ("to itself in a folder that he may not write", ACCES, read_only, b"a file", read_only, b"a file"),
        ("onto another kind in a folder that he may not write", ACCES, read_only, b"a file", read_only, b"his"),
    ):
        v.refuses(what, status, RENAME, spelled(source, name, goal, new_name), STRANGER)
    refusals_of_a_sticky_goal(v, top)


def refusals_of_a_sticky_goal(v, top):
    """A folder into a sticky one below itself, and onto another kind in it."""
    outer = v.folder(top, b"outer", STRANGER, mode=0o777)
    sticky = v.folder(outer, b"sticky", mode=0o1777)
    v.make(sticky, b"roots file")
    v.folder(sticky, b"roots folder")
    v.make(sticky, b"his", STRANGER)
    for what, status, source, name, new_name in (
        ("below itself, onto what he may not take", INVAL, top, b"outer", b"roots folder"),
        ("onto another kind that he may not take", ACCES, sticky, b"his", b"roots folder"),
        ("onto the same kind that he may not take", ACCES, sticky, b"his", b"roots file"),
    ):
        v.refuses(what, status, RENAME, spelled(source, name, sticky, new_name), STRANGER)


# ---- rights


def rights_to_rename(v):
    """Both directories must be written and searched, by each mode and caller."""
    callers = {"owner": (OWNER, 6), "member": (MEMBER, 3), "stranger": (STRANGER, 0), "nobody": (ANYBODY, 0)}
    base = v.folder(v.root, b"rights to rename", mode=0o755)
    by_mode = v.folder(base, b"by mode", user=1000, group=100)
    free = v.folder(base, b"free", mode=0o777)
    v.make(by_mode, b"file", mode=0)
    for mode in (0o777, 0o700, 0o730, 0o703, 0o310, 0o130, 0o013, 0o321, 0o222, 0o111, 0o666, 0o000):
        v.set(by_mode, mode=mode)
        for who, (by, shift) in callers.items():
            may = mode >> shift & 3 == 3
            what = f"{who}, {mode:03o}"
            may_move(v, f"within, {what}", may, by, by_mode, by_mode)
            may_move(v, f"out of it, {what}", may, by, by_mode, free)
            may_move(v, f"into it, {what}", may, by, free, by_mode)
        may_move(v, f"root, {mode:03o}", True, ROOT_USER, by_mode, by_mode)
    folders_that_he_may_not_write(v, base, free)


def may_move(v, what, may, by, source, goal):
    """A file may be renamed, or it is ACCES. It is in the folder that has a mode, and goes back to
    it."""
    home = source if there(v, source, b"file") else goal
    if home != source:
        v.does("there", RENAME, spelled(home, b"file", source, b"file"))
    if may:
        moves(v, what, source, b"file", goal, b"renamed", by)
        v.does("back", RENAME, spelled(goal, b"renamed", home, b"file"))
        return
    is_refused(v, what, ACCES, source, b"file", goal, b"renamed", by)
    if home != source:
        v.does("back", RENAME, spelled(source, b"file", home, b"file"))


def folders_that_he_may_not_write(v, base, free):
    """A folder goes to another parent only by who may write it, because its `..` changes. Within
    its folder it may be renamed, and a file anywhere."""
    other = v.folder(base, b"also free", mode=0o777)
    for mode, is_free in ((0o755, False), (0o775, False), (0o757, True), (0o772, True), (0o700, False)):
        v.folder(free, b"folder", user=1000, group=100, mode=mode)
        moves(v, f"a folder of {mode:o} within", free, b"folder", free, b"renamed", STRANGER)
        if is_free:
            moves(v, f"a folder of {mode:o}", free, b"renamed", other, b"folder", STRANGER)
            moves(v, "and back", other, b"folder", free, b"renamed", STRANGER)
        else:
            is_refused(v, f"a folder of {mode:o}", ACCES, free, b"renamed", other, b"folder", STRANGER)
        moves(v, f"a folder of {mode:o} by root", free, b"renamed", other, b"folder")
        v.does("RMDIR", RMDIR, entry(other, b"folder"))
    v.make(free, b"closed", mode=0, user=1000)
    moves(v, "a file of 000", free, b"closed", other, b"closed", STRANGER)


def sticky_folders(v):
    """Out of a sticky folder a node is taken, and replaced in it, by who owns the node or the
    folder, and by root."""
    base = v.folder(v.root, b"sticky ones", mode=0o777)
    sticky, free = v.folder(base, b"sticky", mode=0o1777, user=1001), v.folder(base, b"free", mode=0o777)
    callers = ((STRANGER, False), (ANYBODY, False), (OWNER, True), (MEMBER, True), (ROOT_USER, True))
    for make, name in ((v.make, b"file"), (v.folder, b"folder")):
        for number, (by, may) in enumerate(callers):
            asked = {"mode": 0o777, "user": 1000}
            make(sticky, name, **asked)
            tried = moves if may else lambda v, what, *words: is_refused(v, what, ACCES, *words)
            tried(v, f"within a sticky folder, {number}", sticky, name, sticky, b"renamed", by)
            v.ask("back", RENAME, spelled(sticky, b"renamed", sticky, name))
            tried(v, f"out of a sticky folder, {number}", sticky, name, free, b"renamed", by)
            v.ask("back", RENAME, spelled(free, b"renamed", sticky, name))
            make(free, b"his", **asked)
            tried(v, f"onto a node of a sticky folder, {number}", free, b"his", sticky, name, by)
            v.ask("what may be left", RMDIR if make == v.folder else REMOVE, entry(free, b"his"))
            make(free, b"his", **asked)
            moves(v, f"into a sticky folder, {number}", free, b"his", sticky, b"new", by)
            for left in (name, b"new"):
                v.does("cleared", RMDIR if make == v.folder else REMOVE, entry(sticky, left))


# ---- listings


def renames_while_a_folder_is_listed(v):
    """Whatever is renamed while a folder is listed over several calls: a node that is in it
    throughout is told once, under one of its names."""
    for procedure, plus in ((READDIR, False), (READDIRPLUS, True)):
        folder, other = v.folder(v.root, b"listed %d" % procedure), v.folder(v.root, b"beside %d" % procedure)
        numbers = {v.number_of(v.make(folder, b"f%02d" % number)) for number in range(40)}
        first = page_of(v, procedure, folder, 0)
        rest = listing(v, folder)[2 + len(first) :]
        for what, name, new_name in (
            ("one that was told", first[3].name, b"z told"),
            ("one that was not told yet", rest[5].name, b"a not told"),
            ("one that was told, to a name behind", first[4].name, rest[7].name + b"x"),
            ("one that was not told, to a name before", rest[9].name, first[5].name + b"x"),
        ):
            cookie = cookie_of(v, folder, name)
            moves(v, what, folder, name, folder, new_name)
            v.equal(f"{what}: its place", cookie_of(v, folder, new_name), cookie)
        lines = first + all_pages(v, procedure, folder, first[-1].cookie)
        v.equal("each node is told once", sorted(line.number for line in lines), sorted(numbers))
        v.equal("cookies ascend", [line.cookie for line in lines], sorted({line.cookie for line in lines}))
        replaced_while_listed(v, procedure, folder)
        moved_while_listed(v, procedure, folder, other)


def cookie_of(v, folder, name):
    return next(line.cookie for line in listing(v, folder) if line.name == name)


def page_of(v, procedure, folder, cookie):
    """A short page without `.` and `..`."""
    counts = (600,) if procedure == READDIR else (300, 4096)
    lines = v.does("a page", procedure, listed(folder, cookie, *counts)).lines
    return [line for line in lines if line.name not in (b".", b"..")]


def all_pages(v, procedure, folder, cookie):
    """The pages from a cookie to the end."""
    lines = []
    while page := page_of(v, procedure, folder, cookie):
        lines, cookie = lines + page, page[-1].cookie
    return lines


def replaced_while_listed(v, procedure, folder):
    """One that was told replaces one that was not told yet, and the other way round."""
    lines = listing(v, folder)[2:]
    numbers = {line.number for line in lines} - {lines[20].number, lines[2].number}
    first = page_of(v, procedure, folder, 0)
    moves(v, "a told one onto one not told", folder, lines[1].name, folder, lines[20].name)
    moves(v, "one not told onto a told one", folder, lines[21].name, folder, lines[2].name)
    v.equal("it keeps its place", cookie_of(v, folder, lines[2].name), lines[21].cookie)
    told = [line.number for line in first + all_pages(v, procedure, folder, first[-1].cookie)]
    v.equal("what stays is told once", sorted(number for number in told if number in numbers), sorted(numbers))
    v.equal("what was replaced later is not told", lines[20].number in told, False)


def moved_while_listed(v, procedure, folder, other):
    """Nodes leave the folder for another one, and come back; in the other one each takes the place
    of what it replaces."""
    lines = listing(v, folder)[2:]
    leaves, stays = lines[-1], {line.number for line in lines[:-1]}
    first = page_of(v, procedure, folder, 0)
    for number in range(3):
        v.make(other, b"o%d" % number)
    cookie = cookie_of(v, other, b"o1")
    moves(v, "one that leaves", folder, leaves.name, other, b"o1")
    v.equal("it has the place of what it replaces", cookie_of(v, other, b"o1"), cookie)
    told = [line.number for line in first + all_pages(v, procedure, folder, first[-1].cookie)]
    v.equal("what stays is told once, what left is not", sorted(told), sorted(stays))
    moves(v, "and comes back", other, b"o1", folder, b"back")
    moves(v, "another comes", other, b"o2", folder, b"came")
    cookies = [line.cookie for line in listing(v, folder)]
    v.equal("no two have one place", cookies, sorted(set(cookies)))


# ---- several at once


def at_once(v, *asked):
    """Calls by a connection each, which are sent at the same moment. The status of each. One that
    is answered JUKEBOX is sent again."""
    ready, statuses = threading.Barrier(len(asked)), [None] * len(asked)

    def ask(number, port, arguments):
        with Connection(port) as connection:
            ready.wait()
            while statuses[number] in (None, JUKEBOX):
                statuses[number] = connection.ask(RENAME, arguments)[0]

    port = v.connection.socket.getpeername()[1]
    threads = [threading.Thread(target=ask, args=(number, port, arguments)) for number, arguments in enumerate(asked)]
    for thread in threads:
        thread.start()
    for thread in threads:
        thread.join()
    return statuses


def two_folders_into_each_other(v):
    """Two folders are moved into each other at once: one of both is done, and the other is refused.
    Else both would hang in each other, and in nothing else."""
    top = v.folder(v.root, b"circles")
    for number in range(ROUNDS_AT_ONCE):
        first, second = v.folder(top, b"first"), v.folder(top, b"second")
        inner = v.folder(second, b"inner")
        statuses = at_once(v, spelled(top, b"first", inner, b"f"), spelled(top, b"second", first, b"s"))
        v.equal(f"round {number}: statuses", sorted(statuses), [OK, INVAL])
        v.equal(f"round {number}: one hangs in the top", len(listing(v, top)), 3)
        is_first = statuses[0] == OK
        if is_first:
            v.does("out", RENAME, spelled(inner, b"f", top, b"first"))
        else:
            v.does("out", RENAME, spelled(first, b"s", top, b"second"))
        for directory, name in ((second, b"inner"), (top, b"first"), (top, b"second")):
            v.does("RMDIR", RMDIR, entry(directory, name))


def one_name_for_all(v):
    """Four files get one name at once: one of them has it, and the others are gone."""
    top = v.folder(v.root, b"one name")
    files = free_room(v)[0]
    for number in range(ROUNDS_AT_ONCE // 2):
        handles = [v.make(top, b"f%d" % name) for name in range(4)]
        statuses = at_once(v, *(spelled(top, b"f%d" % name, top, b"one") for name in range(4)))
        v.equal(f"round {number}: statuses", statuses, [OK] * 4)
        v.equal(f"round {number}: names", [line.name for line in listing(v, top)[2:]], [b"one"])
        left = there(v, top, b"one")
        v.holds(f"round {number}: it is one of them", left in handles)
        for handle in handles:
            if handle != left:
                v.refuses(f"round {number}: the others", STALE, GETATTR, opaque(handle))
        v.does("REMOVE", REMOVE, entry(top, b"one"))
    v.equal("no number is lost", free_room(v)[0], files)


def never_under_both_names(v):
    """While a file goes to and fro, each listing tells one of its names, and never both or none."""
    top = v.folder(v.root, b"to and fro")
    v.make(top, b"to")
    names, ended, told = (b"to", b"fro"), threading.Event(), []

    def go(port):
        status = OK
        with Connection(port) as connection:
            while status in (OK, JUKEBOX) and not ended.is_set():
                name, new_name = names[len(told) % 2], names[(len(told) + 1) % 2]
                status = connection.ask(RENAME, spelled(top, name, top, new_name))[0]
                if status == OK:
                    told.append(new_name)

    thread = threading.Thread(target=go, args=(v.connection.socket.getpeername()[1],))
    thread.start()
    try:
        while len(told) < LISTINGS_AT_ONCE and thread.is_alive():
            shown = [line.name for line in listing(v, top)[2:]]
            v.holds(f"a listing has one of both, and not {shown}", len(shown) == 1 and shown[0] in names)
    finally:
        ended.set()
        thread.join()
    v.holds("it went to and fro", len(told) >= LISTINGS_AT_ONCE)


GROUPS = (
    renames_of_files,
    renames_of_folders,
    renames_onto_others,
    renames_to_itself,
    times_of_renames,
    renames_that_are_refused,
    the_first_refusal_is_answered,
    rights_to_rename,
    sticky_folders,
    renames_while_a_folder_is_listed,
    two_folders_into_each_other,
    one_name_for_all,
    never_under_both_names,
)


# ---- groups that need a disk of their own


def renames_on_a_full_disk(jnlfs, folder):
    """A folder without a free place gets none where the disk is full, and what needs no new place is
    done all the same."""
    disk = Disk(jnlfs, folder, "rename.disk", 660)
    with disk.serve() as service:
        v = disk.vectors(service)
        crowded, other = v.folder(v.root, b"crowded"), v.folder(v.root, b"other")
        for number in range(BLOCK // 8):
            v.make(crowded, b"n%d" % number)
        for name in (b"x", b"y", b"z"):
            v.make(other, name)
        v.folder(other, b"folder")
        v.equal("the folder is crowded", v.attributes(crowded).size, BLOCK)
        fill(v, disk)
        is_refused(v, "into a crowded folder", NOSPC, other, b"x", crowded, b"new")
        is_refused(v, "a folder into a crowded one", NOSPC, other, b"folder", crowded, b"new")
        v.make(v.root, b"an inode can be had")
        is_refused(v, "a file onto a folder", EXIST, crowded, b"n5", other, b"folder")
        moves(v, "within a crowded folder", crowded, b"n5", crowded, b"renamed")
        moves(v, "onto a file of a crowded folder", other, b"y", crowded, b"n6")
        moves(v, "out of a crowded folder", crowded, b"n7", other, b"out")
        moves(v, "to the place that is free then", other, b"x", crowded, b"new")
        is_refused(v, "into a crowded folder again", NOSPC, other, b"z", crowded, b"newer")
        moves(v, "within it, onto another", crowded, b"n8", crowded, b"n9")
        moves(v, "to that one's place", other, b"z", crowded, b"newer")
        v.equal("it has not grown", v.attributes(crowded).size, BLOCK)
        is_refused(v, "into a folder without a block", NOSPC, crowded, b"n1", v.folder(other, b"empty"), b"new")
        return v.compared


def fill(v, disk):
    """Writes until there is no free block."""
    file, number = v.make(v.root, b"fills"), 0
    while v.does("FSSTAT", FSSTAT, opaque(v.root)).free_bytes:
        v.write(file, b"f" * BLOCK, BLOCK * number)
        number += 1
    v.refuses("WRITE on a full disk", NOSPC, WRITE, written(file, BLOCK * number, b"x"))


def first_level_block(name):
    """The block of a folder's first level that takes this name: 48 and its tag (FNV-1a) mod 4."""
    tag = 0x811C9DC5
    for byte in name:
        tag = (tag ^ byte) * 0x01000193 % (1 << 32)
    return 48 + tag % 4


def a_folder_that_grows(jnlfs, folder):
    """A RENAME into a folder whose first block is full takes the first level's block for the name."""
    disk = Disk(jnlfs, folder, "grows.disk", 2000, "--inodes", "2048")
    with disk.serve() as service:
        v = disk.vectors(service)
        crowded, other = v.folder(v.root, b"crowded"), v.folder(v.root, b"other")
        for number in range(BLOCK // 8):
            v.make(crowded, b"n%d" % number)
        v.make(v.root, b"file")
        free = free_room(v)[1]
        moves(v, "within it", crowded, b"n0", crowded, b"m0")
        moves(v, "into it", v.root, b"file", crowded, b"file")
        v.equal("its size", v.attributes(crowded).size, (first_level_block(b"file") + 1) * BLOCK)
        v.equal("a block, its index block and the block with its number", free - free_room(v)[1], 3 * BLOCK)
        moves(v, "into one without a block", crowded, b"file", other, b"file")
        v.equal("its size", v.attributes(other).size, BLOCK)
        names = {line.name for line in v.connection.list_all(crowded)}
        v.equal("all names", names, {b"m0"} | {b"n%d" % number for number in range(1, BLOCK // 8)})
        return v.compared


def renames_to_read_and_squashed(jnlfs, folder):
    """With --read-only each RENAME is ROFS, and with --squash root is nobody."""
    disk = Disk(jnlfs, folder, "refuses.disk", 2000)
    with disk.serve() as service:
        v = disk.vectors(service)
        v.make(v.root, b"file")
        v.folder(v.root, b"folder", mode=0o777)
    with disk.serve("--read-only") as service:
        v = disk.vectors(service)
        shared = there(v, v.root, b"folder")
        for what, name, goal, new_name in (
            ("to another name", b"file", v.root, b"new"),
            ("to itself", b"file", v.root, b"file"),
            ("of nothing", b"nothing", shared, b"new"),
            ("below itself", b"folder", shared, b"new"),
            ("onto another kind", b"file", v.root, b"folder"),
        ):
            is_refused(v, f"{what}, to read alone", ROFS, v.root, name, goal, new_name)
        compared = v.compared
    with disk.serve("--squash") as service:
        v = disk.vectors(service)
        shared = there(v, v.root, b"folder")
        is_refused(v, "by root, who is nobody", ACCES, v.root, b"file", v.root, b"new")
        v.make(shared, b"his")
        moves(v, "in a folder that is free", shared, b"his", shared, b"new")
        return v.compared + compared


def renames_in_another_run(jnlfs, folder):
    """What was renamed is so after a kill."""
    disk = Disk(jnlfs, folder, "again.disk", 2000)
    with disk.serve() as service:
        v = disk.vectors(service)
        here, other = v.folder(v.root, b"here"), v.folder(v.root, b"other")
        v.write(v.make(here, b"file"), b"first")
        v.write(v.make(here, b"beside"), b"second")
        v.make(v.folder(here, b"folder"), b"inner")
        moves(v, "a file onto another", here, b"beside", here, b"file")
        moves(v, "a folder to another", here, b"folder", other, b"moved")
        moved = there(v, other, b"moved")
        before = all_of(v, (v.root, here, other, moved))
    with disk.serve() as service:
        v = disk.vectors(service)
        v.equal("all is as it was", all_of(v, (v.root, here, other, moved)), before)
        v.equal("the bytes", v.content(there(v, here, b"file")), b"second")
        hangs_in(v, "the folder", moved, other)
        return v.compared


DISKS = (renames_on_a_full_disk, a_folder_that_grows, renames_to_read_and_squashed, renames_in_another_run)
