"""A run of nfs-ganesha over a folder, as another server beside which `jnlfs serve` is measured.

A module: `tree-speed` uses it. It wants Debian's packages nfs-ganesha, nfs-ganesha-vfs and rpcbind.
Ganesha does not begin where it cannot tell a portmapper its ports: one is started that reaches no
network but its own, since both find each other by a socket below /run.
"""

import signal
import socket
import subprocess
import time
from pathlib import Path

BEGINS = 20  # So many seconds it may take to begin.
PORTMAPPER = Path("/run/rpcbind.sock")
CONFIGURATION = """
NFS_CORE_PARAM {{
    Protocols = 3; NFS_Port = {port}; MNT_Port = {mount_port}; Bind_addr = {address};
    Enable_NLM = false; Enable_RQUOTA = false; Enable_UDP = false; mount_path_pseudo = false;
}}
NFSV4 {{ RecoveryRoot = {folder}; Graceless = true; }}
NFS_KRB5 {{ Active_krb5 = false; }}
EXPORT {{
    Export_Id = 1; Path = {export}; Pseudo = /files; Access_Type = RW; Squash = No_Root_Squash;
    Protocols = 3; Transports = TCP; SecType = sys; FSAL {{ Name = VFS; }}
}}
LOG {{ Default_Log_Level = WARN; }}
"""


def is_open(address, port):
    try:
        socket.create_connection((address, port), timeout=1).close()
    except OSError:
        return False
    return True


def start(words, log, environment=None):
    """A process that ends with this one."""
    line = ["setpriv", "--pdeathsig", "KILL", *map(str, words)]
    return subprocess.Popen(line, stdin=subprocess.DEVNULL, stdout=log, stderr=subprocess.STDOUT, env=environment)


class Ganesha:
    """A run of the server, with a portmapper of its own, in this environment."""

    def __init__(self, folder, export, address, port, mount_port, environment=None):
        self.folder, self.port, self.mount_port, self.processes = folder, port, mount_port, []
        if PORTMAPPER.exists() and is_portmapper():
            raise OSError(f"a portmapper runs already ({PORTMAPPER})")
        configuration = folder / "ganesha.conf"
        words = {"folder": folder, "export": export, "address": address, "port": port, "mount_port": mount_port}
        configuration.write_text(CONFIGURATION.format(**words))
        self.log = open(folder / "ganesha.out", "a")
        try:
            self.processes.append(start(["unshare", "--net", "rpcbind", "-f"], self.log))
            self.wait(is_portmapper)
            line = ["ganesha.nfsd", "-F", "-L", folder / "ganesha.log", "-f", configuration, "-p", folder / "ganesha.pid"]
            self.processes.append(start(line, self.log, environment))
            self.wait(lambda: is_open(address, port) and is_open(address, mount_port))
        except BaseException:
            self.stop()
            raise

    def wait(self, is_there):
        end = time.monotonic() + BEGINS
        while not is_there():
            if time.monotonic() > end or self.processes[-1].poll() is not None:
                raise OSError(f"nfs-ganesha does not begin: {self.last_words()}")
            time.sleep(0.1)

    def last_words(self):
        logs = [path.read_text().splitlines()[-2:] for path in self.folder.glob("ganesha.[lo]*") if path.exists()]
        return " | ".join(line for lines in logs for line in lines)

    def stop(self):
        for process in reversed(self.processes):
            process.send_signal(signal.SIGKILL)
            process.wait()
        self.processes = []
        self.log.close()

    def __enter__(self):
        return self

    def __exit__(self, *_):
        self.stop()


def is_portmapper():
    with socket.socket(socket.AF_UNIX) as it:
        try:
            it.connect(str(PORTMAPPER))
        except OSError:
            return False
    return True
