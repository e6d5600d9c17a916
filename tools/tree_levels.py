"""What RFC 1813 asks for of a folder whose names lie in more than one block, beyond what
`tree_vectors.py` and `tree_renames.py` ask of small ones.

A module: `tree_vectors.py` takes its groups. Block 0 of a folder takes any name. Each further name
has one block in each of four levels, by its tag, and a name that a RENAME gives within the folder
may need a second entry (docs/FORMATS.md). So it is asked with names in the first two levels.
"""

import random

from tree_asking import *

NAMES_OF_ONE_BLOCK, MANY, RENAMED, PAGE = 512, 3200, 500, 2048
FOLDER_BLOCKS = 4000


class Names:
    """A folder of a service, and the handle of each name that is in it, in the order of a listing."""

    def __init__(self, v, directory, name):
        self.v, self.folder, self.handles = v, v.folder(directory, name), {}

    def make(self, name):
        self.handles[name] = self.v.make(self.folder, name)

    def rename(self, old, new):
        """Within the folder. The node keeps its place in a listing, and what has the new name goes."""
        self.v.does("RENAME", RENAME, entry(self.folder, old) + entry(self.folder, new))
        self.handles.pop(new, None)
        self.handles = {new if name == old else name: node for name, node in self.handles.items()}

    def remove(self, name):
        self.v.does("REMOVE", REMOVE, entry(self.folder, name))
        del self.handles[name]

    def check(self, what, gone=()):
        """Each name is found, those that are gone are not, and a listing has each name once."""
        for name, handle in self.handles.items():
            found = self.v.does(f"{what}: LOOKUP", LOOKUP, entry(self.folder, name)).handle
            self.v.equal(f"{what}: {name}", found, handle)
        for name in gone:
            self.v.refuses(f"{what}: LOOKUP {name}", NOENT, LOOKUP, entry(self.folder, name))
        self.v.equal(f"{what}: a listing", sorted(self.listing()), sorted(self.handles))

    def listing(self):
        """The names by READDIR, page after page."""
        cookie, names, is_end = 0, [], False
        while not is_end:
            page = self.v.does("READDIR", READDIR, listed(self.folder, cookie, PAGE))
            names += [line.name for line in page.lines if line.name not in (b".", b"..")]
            cookie, is_end = page.lines[-1].cookie, page.is_end
        return names


def names_in_levels(jnlfs, folder):
    """Names of many blocks are made, found, listed, renamed and removed, and all room comes back."""
    disk = Disk(jnlfs, folder, "levels.disk", FOLDER_BLOCKS, "--inodes", str(MANY + 64))
    with disk.serve() as service:
        v, choice = disk.vectors(service), random.Random(5)
        names = Names(v, v.root, b"folder")
        for number in range(MANY):
            names.make(b"name%d" % number)
        names.check("many names", (b"name%d" % MANY, b"name"))
        old, order = choice.sample(list(names.handles), RENAMED), names.listing()
        renamed_within(v, names, old, order)
        renamed_onto(names, choice)
        moved_away_and_back(v, names, choice)
        v.refuses("RMDIR of a folder with names", NOTEMPTY, RMDIR, entry(v.root, b"folder"))
        for name in list(names.handles):
            names.remove(name)
        names.check("no name", (b"name1",))
        for number in range(2 * NAMES_OF_ONE_BLOCK):
            names.make(b"again%d" % number)
        names.check("names again")
        for name in list(names.handles):
            names.remove(name)
        v.does("RMDIR", RMDIR, entry(v.root, b"folder"))
    sound(jnlfs, disk)
    return v.compared


def renamed_within(v, names, old, order):
    """Twice, so that a second entry is put, and then another in its stead. No place changes."""
    for before, after in ((b"", b"first-"), (b"first-", b"second-")):
        for name in old:
            names.rename(before + name, after + name)
        new = [after + name if name in old else name for name in order]
        v.equal(f"{after}: the order of a listing", names.listing(), new)
        names.check(f"names of {after}", [before + name for name in old[:100]])
    for name in old[::2]:
        names.rename(b"second-" + name, name)
    names.check("old names again", [b"second-" + name for name in old[::2]])


def renamed_onto(names, choice):
    """The node of the new name goes, with its entries."""
    pairs = choice.sample(list(names.handles), 400)
    for old, new in zip(pairs[::2], pairs[1::2]):
        names.rename(old, new)
    names.check("names of nodes that went", pairs[::2])


def moved_away_and_back(v, names, choice):
    """To another folder and back, under other names."""
    other = Names(v, v.root, b"other")
    movers = choice.sample(list(names.handles), 300)
    for name in movers:
        v.does("RENAME away", RENAME, entry(names.folder, name) + entry(other.folder, b"far-" + name))
        other.handles[b"far-" + name] = names.handles.pop(name)
    names.check("after moves", movers)
    other.check("where they went")
    for name in movers:
        v.does("RENAME back", RENAME, entry(other.folder, b"far-" + name) + entry(names.folder, b"back-" + name))
        names.handles[b"back-" + name] = other.handles.pop(b"far-" + name)
    names.check("after moves back")
    v.does("RMDIR", RMDIR, entry(v.root, b"other"))


def sound(jnlfs, disk):
    """The disk has a sound tree once it is no longer served."""
    done = subprocess.run([jnlfs, "check", disk.path], capture_output=True, text=True, check=False)
    if done.returncode:
        raise Differs(f"check: {done.stdout}{done.stderr}")


DISKS = (names_in_levels,)
