"""A machine with a Linux kernel that mounts what this machine serves: Debian's user-mode Linux, a
program that needs no virtualisation.

A module: `mount-tree` and `tree-speed` use it. The machine's root is that of this one, read only,
so that its programs run there; below /mnt, where it mounts, lies memory of its own. It wants
Debian's `apt-get`, `ip` with tap devices, and the rights to make one.
"""

import os
import subprocess
import sys
from pathlib import Path

HOST, GUEST, NETWORK, TAP = "192.168.77.1", "192.168.77.2", "192.168.77.0/24", "taptree"
# More addresses of this machine, so that the other one has several connections.
HOSTS = tuple(f"192.168.77.{number}" for number in range(11, 15))
SENT_AGAIN = "1ms"
PACKAGES = ("user-mode-linux", "busybox-static")
MODULES = ("sunrpc", "grace", "nfs_acl", "lockd", "netfs", "fscache", "nfs", "nfsv3")

# The machine's first program. What it needs lies below /mnt, the one folder that may be written.
INIT = """#!/bin/sh
export PATH=/usr/sbin:/usr/bin:/sbin:/bin HOME=/ LANG=C.UTF-8 PYTHONDONTWRITEBYTECODE=1
mount -t proc proc /proc
mount -t sysfs sys /sys
mount -t tmpfs tmp /mnt
for module in {modules}; do {busybox} insmod $module 2>&1 | grep -v "File exists"; done
{busybox} ip link set lo up
device=$(ls /sys/class/net | grep -v lo | head -n 1)
{busybox} ip addr add {guest}/24 dev $device
{busybox} ip link set $device up
sleep 1
{python} {uses} {given} 2>&1
echo END
{busybox} poweroff -f
"""


def run(*words, **more):
    return subprocess.run([str(word) for word in words], check=True, **more)


def fetch(room):
    """The packages, unpacked and not installed."""
    folder = room / "debs"
    folder.mkdir(parents=True, exist_ok=True)
    for package in PACKAGES:
        if not list(folder.glob(f"{package}_*.deb")):
            run("apt-get", "download", package, cwd=folder, stdout=subprocess.DEVNULL, stderr=subprocess.DEVNULL)
        run("dpkg", "-x", next(folder.glob(f"{package}_*.deb")), room / "un")


def found(room, name):
    """A file of the packages."""
    return next(path for path in (room / "un").glob(f"**/{name}") if path.is_file())


class Tap:
    """The network between the machines."""

    def __enter__(self):
        if Path(f"/sys/class/net/{TAP}").exists():
            raise OSError(f"{TAP} is there: of another run, or of a killed one: ip tuntap del dev {TAP} mode tap")
        run("ip", "tuntap", "add", "dev", TAP, "mode", "tap")
        for host in (HOST, *HOSTS):
            run("ip", "addr", "add", f"{host}/24", "dev", TAP)
        run("ip", "link", "set", TAP, "up")
        # At times the machine does not wake for a packet, and waits until it is sent again: after a
        # fifth of a second, if no other time is set.
        run("ip", "route", "replace", NETWORK, "dev", TAP, "src", HOST, "rto_min", SENT_AGAIN)
        return self

    def __exit__(self, *_):
        run("ip", "link", "set", TAP, "down")
        run("ip", "tuntap", "del", "dev", TAP, "mode", "tap")


def write_init(room, path, uses, given):
    """Writes the machine's first program, which runs a Python program with one argument."""
    modules = " ".join(str(found(room, f"{name}.ko")) for name in MODULES)
    words = {"modules": modules, "busybox": found(room, "bin/busybox"), "guest": GUEST}
    path.write_text(INIT.format(python=os.path.realpath(sys.executable), uses=uses, given=given, **words))
    path.chmod(0o755)


def machine(room, init, seconds):
    """A run of the machine, which is ended after so many seconds."""
    words = [found(room, "linux.uml"), "mem=384M", "root=/dev/root", "rootfstype=hostfs", "hostfs=/", "ro", f"init={init}"]
    words += ["con=null", "con0=null,fd:1", f"vec0:transport=tap,ifname={TAP},depth=128,gro=1"]
    line = ["setpriv", "--pdeathsig", "TERM", "timeout", "--kill-after=5", str(seconds), *map(str, words)]
    return subprocess.Popen(line, stdin=subprocess.DEVNULL, stdout=subprocess.PIPE, stderr=subprocess.STDOUT, text=True, errors="replace")
