"""Loop devices and mounts, for the tools that need them. A module: `take-over`, `stop-serve`,
`backup-serve` and `fill-disk` use it.
"""

import os
import shutil
from pathlib import Path

from served_disk import must


def what_lacks(*programs):
    """What a tool lacks that makes loop devices and calls these programs, in words, or nothing."""
    if os.geteuid() != 0:
        return "it makes loop devices, so it must be run as root"
    if not Path("/dev/loop-control").exists():
        return "this system has no loop devices (/dev/loop-control)"
    absent = [name for name in ("losetup", *programs) if not shutil.which(name)]
    return f"these programs are not there: {', '.join(absent)}" if absent else ""


def what_lacks_mounts():
    """What a tool lacks that mounts file systems, in words, or nothing."""
    if os.geteuid() != 0:
        return "it mounts a file system, so it must be run as root"
    return ""


class Loop:
    """A loop device over a file or another device, until it is closed. It ends with the tool,
    however that ends."""

    def __init__(self, over, *words):
        self.path = must("losetup", "--find", "--show", *words, over).strip()
        self.file = os.open(self.path, os.O_RDONLY)
        self.refuses_writes = False
        # It is done once nobody has the device open any more.
        must("losetup", "--detach", self.path)

    def __enter__(self):
        return self

    def __exit__(self, *_):
        # The system remembers it of a device that is free.
        if self.refuses_writes:
            self.allow_writes()
        os.close(self.file)

    def flush(self):
        """Writes what the system keeps of the device, and forgets it."""
        must("blockdev", "--flushbufs", self.path)

    def refuse_writes(self):
        """Has each write refused that begins after this."""
        must("blockdev", "--setro", self.path)
        self.refuses_writes = True

    def allow_writes(self):
        must("blockdev", "--setrw", self.path)
        self.refuses_writes = False


class Mount:
    """A file system that is mounted in a folder, until it is closed."""

    def __init__(self, device, folder):
        self.folder = folder
        folder.mkdir()
        must("mount", device, folder)

    def __enter__(self):
        return self.folder

    def __exit__(self, *_):
        must("umount", self.folder)
        self.folder.rmdir()


class Tmpfs:
    """A file system of so many bytes in memory that is mounted in a new folder, until it is
    closed."""

    def __init__(self, folder, size):
        self.folder = folder
        folder.mkdir()
        must("mount", "-t", "tmpfs", "-o", f"size={size}", "tmpfs", folder)

    def __enter__(self):
        return self

    def __exit__(self, *_):
        must("umount", self.folder)
        self.folder.rmdir()

    def resize(self, size):
        """Gives it so many bytes."""
        must("mount", "-o", f"remount,size={size}", self.folder)
