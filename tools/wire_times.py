"""How long servers have calls, as one sees it on the network between them and a kernel's machine
(`linux_machine.py`). What the machine itself takes does not count then, nor a packet that it misses.

A module: `tree-speed` uses it. It listens to a network device, which wants root's rights, and knows
calls and replies by the marks of their records (RFC 5531, section 11): those at the beginning of a
packet, and those after them as far as a packet was kept. A server has calls from a call's packet,
where it had none, until each call of it is answered.
"""

import socket
import struct
import threading
from typing import NamedTuple

KEPT = 2000  # So many bytes of a packet are looked at.
LAST_FRAGMENT = 1 << 31
ROOM = 64 << 20
# SO_RCVBUFFORCE and SO_TIMESTAMPNS of Linux, which Python has no names for.
ROOM_FORCED, STAMPED = 33, 35
TIME = struct.Struct("qq")


class Seen(NamedTuple):
    """A call, or a reply: when it came, between which ports, and its number."""

    time: float
    source: int
    goal: int
    number: int
    is_reply: bool


def records(payload):
    """The number of each record of a packet, and whether it is a reply."""
    at = 0
    while at + 12 <= len(payload):
        mark, number, kind = struct.unpack_from(">3I", payload, at)
        if not mark & LAST_FRAGMENT or kind > 1:
            return
        yield number, kind == 1
        at += 4 + (mark & ~LAST_FRAGMENT)


def segment(packet):
    """The ports and the payload of a packet of TCP over version 4 of IP, if it is one."""
    if packet[12:14] != b"\x08\x00" or packet[23] != socket.IPPROTO_TCP:
        return None
    begin, length = 14 + 4 * (packet[14] & 15), int.from_bytes(packet[16:18], "big")
    source, goal = struct.unpack_from(">2H", packet, begin)
    return source, goal, packet[begin + 4 * (packet[begin + 12] >> 4) : 14 + length]


class Wire:
    """What goes over a device, of these ports."""

    def __init__(self, device, ports):
        self.ports, self.seen, self.lock = set(ports), [], threading.Lock()
        self.socket = socket.socket(socket.AF_PACKET, socket.SOCK_RAW, socket.ntohs(3))
        self.socket.setsockopt(socket.SOL_SOCKET, ROOM_FORCED, ROOM)
        self.socket.setsockopt(socket.SOL_SOCKET, STAMPED, 1)
        self.socket.bind((device, 0))
        threading.Thread(target=self.listen, daemon=True).start()

    def listen(self):
        while True:
            try:
                packet, notes, _, _ = self.socket.recvmsg(KEPT, 256)
            except OSError:
                # The device is not up yet, or not there any more.
                if self.socket.fileno() < 0:
                    return
                continue
            found = segment(packet)
            if found and notes and self.ports & set(found[:2]):
                seconds, nanoseconds = TIME.unpack_from(notes[0][2])
                self.take(seconds + nanoseconds / 1e9, *found)

    def take(self, time, source, goal, payload):
        with self.lock:
            self.seen += (Seen(time, source, goal, *record) for record in records(payload))

    def time_with_calls(self, port, begin, end):
        """So many seconds between two moments the server of a port had calls. What came before the
        second one is forgotten."""
        with self.lock:
            seen = [it for it in self.seen if it.time <= end]
            self.seen = self.seen[len(seen) :]
        open_calls, since, spent = set(), begin, 0.0
        for it in (it for it in seen if begin <= it.time):
            if it.goal == port and not it.is_reply:
                since = since if open_calls else it.time
                open_calls.add(it.number)
            elif it.source == port and it.number in open_calls:
                open_calls.remove(it.number)
                spent += 0 if open_calls else it.time - since
        return spent

    def close(self):
        self.socket.close()
