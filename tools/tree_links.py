"""What RFC 1813, sections 3.3.5 and 3.3.10, ask for of READLINK and SYMLINK in a tree of files, case
by case.

A module: `tree_vectors.py` takes its groups. Where the standard leaves something open, what is
written down here is what docs/FORMATS.md and docs/OPERATING.md say that this tree does: which
refusal comes first, that a text has 1 to 4095 bytes, and that READLINK asks for no right.
"""

from tree_asking import *

TEXT = b"../where/it leads"
LONG_NAME = b"n" * (LONGEST_NAME + 1)


def spelled(directory, name, text=TEXT, **asked):
    """SYMLINK3args."""
    return entry(directory, name) + settings(**asked) + opaque(text)


def text_of(v, link, by=ROOT_USER):
    return v.does("READLINK", READLINK, opaque(link), by).text


def makes(v, what, directory, name, text, by=ROOT_USER, **asked):
    """A SYMLINK must be done. Its reply tells what GETATTR and LOOKUP tell of the link and of its
    directory, and READLINK tells the text, and the link's attributes. The link's handle."""
    before = v.attributes(directory)
    made = v.does(what, SYMLINK, spelled(directory, name, text, **asked), by)
    v.looks(what, made.attributes, kind=SYMBOLIC_LINK, size=len(text), number=v.number_of(made.handle))
    v.equal(f"{what}: the handle's disk", made.handle[:8], v.root[:8])
    v.shows(what, made.attributes, made.handle)
    v.changes(f"{what}: its directory", made.directory, before, directory)
    v.holds(f"{what}: its directory's ctime grows", made.directory.after.ctime > before.ctime)
    found = v.does(f"{what}: LOOKUP", LOOKUP, entry(directory, name))
    v.equal(f"{what}: LOOKUP", found, Found(made.handle, made.attributes, made.directory.after))
    told = v.does(f"{what}: READLINK", READLINK, opaque(made.handle))
    v.equal(f"{what}: READLINK", told, LinkText(made.attributes, text))
    return made.handle


# ---- what is done


def links_of_any_text(v):
    """A text has 1 to 4095 bytes of any value, and nobody looks where it leads."""
    folder = v.folder(v.root, b"texts")
    texts = {
        b"nowhere": TEXT,
        b"one byte": b"x",
        b"itself": b"itself",
        b"folder": b"folder/",
        b"above": b"../..",
        b"absolute": b"/etc/passwd",
        b"no path": b"//.//\n\xff ",
        b"all bytes": bytes(range(256)),
        b"zeros": bytes(7),
        b"a name": b"n" * LONGEST_NAME,
        b"more than a name": b"n" * (LONGEST_NAME + 1),
        b"long": b"abc/" * 1000,
        b"almost longest": b"y" * (LONGEST_TEXT - 1),
        b"longest": b"z" * LONGEST_TEXT,
    }
    handles = {name: makes(v, f"SYMLINK {name}", folder, name, text) for name, text in texts.items()}
    for name, text in texts.items():
        v.equal(f"READLINK {name} again", text_of(v, handles[name]), text)
    lines = {line.name: line for line in v.connection.list_all(folder)}
    v.equal("the names of the links", sorted(lines), sorted(texts))
    for name, handle in handles.items():
        v.equal(f"READDIRPLUS {name}: the handle", lines[name].handle, handle)
        v.equal(f"READDIRPLUS {name}: the number", lines[name].number, v.number_of(handle))
        v.shows(f"READDIRPLUS {name}", lines[name].attributes, handle)


def settings_of_links(v):
    """Whose a new link is, and what SYMLINK and SETATTR set of it."""
    folder = v.folder(v.root, b"links set", mode=0o777)
    link = makes(v, "SYMLINK", folder, b"plain", TEXT)
    made = v.attributes(link)
    v.looks("SYMLINK without settings", made, mode=0o777, user=0, group=0, mtime=made.ctime)
    asked = {"mode": 0o640, "user": 7, "group": 8, "size": 5, "read": Time(1, 1), "changed": Time(5, 6)}
    link = makes(v, "SYMLINK", folder, b"set", TEXT, **asked)
    v.looks("SYMLINK with settings", v.attributes(link), mode=0o640, user=7, group=8, size=len(TEXT), mtime=Time(5, 6))
    link = makes(v, "SYMLINK by a user", folder, b"his", TEXT, OWNER)
    v.looks("SYMLINK by a user", v.attributes(link), mode=0o777, user=1000, group=100)
    for by, wanted in ((ROOT_USER, 0o6777), (OWNER, 0o6640)):
        link = makes(v, "SYMLINK with bits", folder, b"bits%o" % wanted, TEXT, by, mode=wanted)
        v.looks("SYMLINK with bits", v.attributes(link), mode=wanted)
    group = v.folder(folder, b"group", mode=0o2777, group=77)
    link = makes(v, "SYMLINK in a set-group-ID folder", group, b"link", TEXT, OWNER)
    v.looks("SYMLINK in a set-group-ID folder", v.attributes(link), user=1000, group=77, mode=0o777)
    for asked in ({"mode": 0o4711}, {"user": 1000}, {"group": 100}, {"changed": Time(9, 9)}, {"changed": FromServer}):
        before = v.attributes(link)
        change = v.does(f"SETATTR {asked}", SETATTR, opaque(link) + settings(**asked) + words(0))
        v.changes(f"SETATTR {asked}", change, before, link)
        wanted = {name: value for name, value in asked.items() if name != "changed"}
        v.looks(f"SETATTR {asked}", change.after, kind=SYMBOLIC_LINK, size=len(TEXT), **wanted)
        v.holds(f"SETATTR {asked}: ctime grows", change.after.ctime > before.ctime)
        v.equal(f"SETATTR {asked}: the text", text_of(v, link), TEXT)


def rights_of_links(v):
    """READLINK asks for no right, and ACCESS grants READ alone, as the mode has it."""
    folder = v.folder(v.root, b"links of others", mode=0o700)
    link = makes(v, "SYMLINK", folder, b"link", TEXT, mode=0o740, user=1000, group=100)
    for who, by, granted in (
        ("root", ROOT_USER, 1),
        ("the owner", OWNER, 1),
        ("a member", MEMBER, 1),
        ("a stranger", STRANGER, 0),
        ("nobody", ANYBODY, 0),
    ):
        v.equal(f"READLINK by {who}", text_of(v, link, by), TEXT)
        access = v.does(f"ACCESS by {who}", ACCESS, opaque(link) + words(63), by)
        v.equal(f"ACCESS by {who}", access.rights, granted)
        v.shows(f"ACCESS by {who}", access.attributes, link)


def links_that_go(v):
    """REMOVE takes the link, and leaves what it leads to."""
    folder = v.folder(v.root, b"links removed", mode=0o1777)
    file = v.make(folder, b"file")
    v.write(file, b"content")
    link = makes(v, "SYMLINK", folder, b"link", b"file")
    v.refuses("RMDIR of a link", NOTDIR, RMDIR, entry(folder, b"link"))
    v.refuses("REMOVE of another's link in a sticky folder", ACCES, REMOVE, entry(folder, b"link"), STRANGER)
    before = v.attributes(folder)
    v.changes("REMOVE", v.does("REMOVE", REMOVE, entry(folder, b"link")), before, folder)
    for procedure in (GETATTR, READLINK):
        v.refuses(f"{NAMES[procedure]} of a removed link", STALE, procedure, opaque(link))
    v.refuses("LOOKUP of a removed link", NOENT, LOOKUP, entry(folder, b"link"))
    v.equal("what it led to", v.content(file), b"content")
    again = makes(v, "SYMLINK again", folder, b"link", b"other")
    v.holds("a new link has another handle", again != link)
    v.refuses("READLINK by the old handle", STALE, READLINK, opaque(link))
    # The number and the block of a link are those of a file afterwards.
    v.does("REMOVE", REMOVE, entry(folder, b"link"))
    v.equal("a file in its place", v.content(v.make(folder, b"link", size=BLOCK)), bytes(BLOCK))


def renames_of_links(v):
    """A link is renamed as a file is: over a file, over a link, and not over a folder."""
    folder, other = v.folder(v.root, b"links renamed"), v.folder(v.root, b"links to")
    link = makes(v, "SYMLINK", folder, b"link", TEXT)

    def moves(source, name, goal, new_name):
        before = v.attributes(link)
        v.does("RENAME", RENAME, entry(source, name) + entry(goal, new_name))
        after = v.attributes(link)
        v.equal("RENAME: all but ctime stays", after._replace(ctime=before.ctime), before)
        found = v.does("LOOKUP", LOOKUP, entry(goal, new_name))
        v.equal("RENAME: the link", (found.handle, found.attributes, text_of(v, link)), (link, after, TEXT))
        v.refuses("RENAME: the old name", NOENT, LOOKUP, entry(source, name))

    moves(folder, b"link", folder, b"renamed")
    moves(folder, b"renamed", other, b"link")
    for name, replaced in ((b"file", v.make(folder, b"file")), (b"second", v.link(folder, b"second", b"x"))):
        moves(other, b"link", folder, name)
        v.refuses(f"what stood under {name}", STALE, GETATTR, opaque(replaced))
        moves(folder, name, other, b"link")
    below = v.folder(folder, b"folder")
    v.refuses("RENAME of a link over a folder", EXIST, RENAME, entry(other, b"link") + entry(folder, b"folder"))
    v.refuses("RENAME of a folder over a link", EXIST, RENAME, entry(folder, b"folder") + entry(other, b"link"))
    v.equal("both stay", (text_of(v, link), v.attributes(below).kind), (TEXT, DIRECTORY))
    file = v.make(folder, b"file")
    v.does("RENAME of a file over a link", RENAME, entry(folder, b"file") + entry(other, b"link"))
    v.equal("what stands there", v.does("LOOKUP", LOOKUP, entry(other, b"link")).handle, file)
    v.refuses("the link that stood there", STALE, READLINK, opaque(link))


# ---- what is refused


def refusals_of_symlink(v):
    """The first case that holds is answered, and nothing is made."""
    top = v.folder(v.root, b"refused links", mode=0o777)
    closed = v.folder(top, b"closed", mode=0o666)
    read = v.folder(top, b"read", mode=0o755)
    file, link = v.make(top, b"file"), v.link(top, b"link", TEXT)
    long_text = b"t" * (LONGEST_TEXT + 1)
    before = [v.attributes(it) for it in (top, closed, read, file, link)]
    for what, status, by, arguments in (
        ("in a file", NOTDIR, STRANGER, spelled(file, LONG_NAME, b"")),
        ("in a link", NOTDIR, STRANGER, spelled(link, b"new")),
        ("in a folder that he may not search", ACCES, STRANGER, spelled(closed, LONG_NAME, b"")),
        ("of the name .", EXIST, STRANGER, spelled(read, b".", b"")),
        ("of the name ..", EXIST, STRANGER, spelled(read, b"..", b"")),
        ("of no name", INVAL, STRANGER, spelled(read, b"", b"")),
        ("of a name with /", INVAL, STRANGER, spelled(read, b"a/b", b"")),
        ("of a long name", NAMETOOLONG, STRANGER, spelled(read, LONG_NAME, b"")),
        ("of a file that is there", EXIST, STRANGER, spelled(top, b"file", b"")),
        ("of a folder that is there", EXIST, STRANGER, spelled(top, b"read", b"")),
        ("of a link that is there", EXIST, STRANGER, spelled(top, b"link", long_text)),
        ("in a folder that he may not write", ACCES, STRANGER, spelled(read, b"new", b"")),
        ("with no time", INVAL, ROOT_USER, spelled(top, b"new", long_text, changed=NO_TIME)),
        ("of an empty text", INVAL, ROOT_USER, spelled(top, b"new", b"")),
        ("of 4096 bytes", NAMETOOLONG, ROOT_USER, spelled(top, b"new", long_text)),
        ("of 65000 bytes", NAMETOOLONG, ROOT_USER, spelled(top, b"new", b"t" * 65000)),
    ):
        v.refuses(f"SYMLINK {what}", status, SYMLINK, arguments, by)
    v.equal("no refusal changes a time", [v.attributes(it) for it in (top, closed, read, file, link)], before)
    v.equal("nothing was made", [len(v.connection.list_all(it)) for it in (top, closed, read)], [4, 0, 0])


def calls_that_want_another_kind(v):
    """READLINK of what is no link, and other calls on a link. None is led to where it leads."""
    folder = v.folder(v.root, b"other kinds")
    file = v.make(folder, b"file")
    to_file, to_folder = v.link(folder, b"to file", b"file"), v.link(folder, b"to folder", b".")
    v.refuses("READLINK of a file", INVAL, READLINK, opaque(file))
    v.refuses("READLINK of a folder", INVAL, READLINK, opaque(folder))
    for link in (to_file, to_folder):
        before = v.attributes(link)
        for procedure, status, arguments in (
            (READ, INVAL, at_place(link, 0, 10)),
            (WRITE, INVAL, written(link, 0, b"x")),
            (COMMIT, INVAL, at_place(link, 0, 0)),
            (SETATTR, INVAL, opaque(link) + settings(size=0) + words(0)),
            (SETATTR, INVAL, opaque(link) + settings(size=len(b"file")) + words(0)),
            (LOOKUP, NOTDIR, entry(link, b"file")),
            (CREATE, NOTDIR, entry(link, b"new") + words(UNCHECKED) + settings()),
            (MKDIR, NOTDIR, entry(link, b"new") + settings()),
            (REMOVE, NOTDIR, entry(link, b"file")),
            (RMDIR, NOTDIR, entry(link, b"file")),
            (READDIR, NOTDIR, listed(link, 0, 8192)),
            (READDIRPLUS, NOTDIR, listed(link, 0, 8192, 8192)),
        ):
            v.refuses(f"{NAMES[procedure]} of a link", status, procedure, arguments)
        v.equal("no refusal changes the link", v.attributes(link), before)
        for procedure in (FSSTAT, FSINFO, PATHCONF):
            v.shows(f"{NAMES[procedure]} of a link", v.does(NAMES[procedure], procedure, opaque(link))[0], link)
    for name in (b"to file", b"to folder"):
        for mode in (UNCHECKED, GUARDED):
            v.refuses("CREATE over a link", EXIST, CREATE, entry(folder, name) + words(mode) + settings(size=0))
        v.refuses("MKDIR over a link", EXIST, MKDIR, entry(folder, name) + settings())
    v.equal("the file stays", v.content(file), b"")


GROUPS = (
    links_of_any_text,
    settings_of_links,
    rights_of_links,
    links_that_go,
    renames_of_links,
    refusals_of_symlink,
    calls_that_want_another_kind,
)


# ---- groups that need a disk of their own


def links_without_room(jnlfs, folder):
    """A link takes one block, and its directory another where that grows."""
    disk = Disk(jnlfs, folder, "links.disk", 660)
    with disk.serve() as service:
        v = disk.vectors(service)
        # The root's names take one block, and the file all others but one.
        file, other = v.make(v.root, b"file"), v.folder(v.root, b"folder")
        for number in range(disk.data_blocks - 2):
            v.write(file, b"b" * BLOCK, BLOCK * number)
        before = v.attributes(other)
        v.refuses("SYMLINK that needs two blocks", NOSPC, SYMLINK, spelled(other, b"link"))
        v.equal("a refusal changes nothing", (v.attributes(other), v.connection.list_all(other)), (before, []))
        makes(v, "SYMLINK into the last block", v.root, b"link", b"t" * LONGEST_TEXT)
        space = v.does("FSSTAT", FSSTAT, opaque(v.root))
        v.equal("FSSTAT of a full disk", space.free_bytes, 0)
        v.refuses("SYMLINK without a block", NOSPC, SYMLINK, spelled(v.root, b"second"))
        v.does("REMOVE of the link", REMOVE, entry(v.root, b"link"))
        makes(v, "SYMLINK into its block", v.root, b"second", TEXT)
        v.does("REMOVE of the second link", REMOVE, entry(v.root, b"second"))
        v.set(file, size=0)
        for number in range(disk.inodes - 5):
            v.make(v.root, b"n%d" % number)
        makes(v, "SYMLINK with the last inode", other, b"link", TEXT)
        v.refuses("SYMLINK without an inode", NOSPC, SYMLINK, spelled(v.root, b"second"))
        return v.compared


def links_of_another_run(jnlfs, folder):
    """A link that was told is there after a kill. Where the tree is only read, READLINK is answered
    and SYMLINK is ROFS."""
    disk, compared = Disk(jnlfs, folder, "link-runs.disk", 2000), 0
    with disk.serve() as service:
        v = disk.vectors(service)
        link = makes(v, "SYMLINK", v.root, b"link", b"t" * LONGEST_TEXT, changed=Time(3, 4))
        told, compared = v.attributes(link), v.compared
    for words_more in ((), ("--read-only",), ("--squash",)):
        with disk.serve(*words_more) as service:
            v = disk.vectors(service)
            v.equal("GETATTR by another run", v.attributes(link), told)
            v.equal("READLINK by another run", text_of(v, link), b"t" * LONGEST_TEXT)
            if words_more == ("--read-only",):
                v.refuses("SYMLINK where the tree is only read", ROFS, SYMLINK, spelled(v.root, b"new"))
                v.refuses("SYMLINK of a name that is there", ROFS, SYMLINK, spelled(v.root, b"link", b""))
            compared += v.compared
    return compared


DISKS = (links_without_room, links_of_another_run)
