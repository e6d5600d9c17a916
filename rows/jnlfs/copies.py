"""Calls on a tree that are sent again, as a client sends them whose reply was lost.

A record is sent twice, byte by byte the same: over one connection, over another one, at the same
time, from another address. This machine has each address of 127.0.0.0/8.
"""

import socket
import threading

from program_rows import LAST_FRAGMENT, SECONDS, Connection, Ended, wants, wants_run
from tree_calls import (
    ACCEPTED, CREATE, EXIST, GUARDED, LOOKUP, MKDIR, NFS, NOENT, OK, REMOVE, RENAME, RMDIR, ROOT_USER, SETATTR,
    SYMLINK, entry, opaque, settings, user, words, written, WRITE,
)
from tree_calls import Connection as Caller

FIRST = 70_000
# More calls than the table has replies.
MANY, AT_ONCE = 24_000, 400
RACES = 60


class Tree:
    """A service of a new tree, and the handle of its root."""

    def __init__(self, room, blocks=2000, **more):
        self.room = room
        wants_run(room.run(["jnlfs", "make", "disk", "--blocks", str(blocks)]), Ended(b"", b"", 0))
        self.serve()

    def serve(self):
        """Begins to serve the tree."""
        self.service = self.room.start(["jnlfs", "serve", "disk", "--port", "0", "--control", "s"])
        with Caller(self.service.port) as caller:
            self.root = caller.root()

    def connect(self, address="127.0.0.1"):
        """A connection from an address of this machine."""
        there = ("127.0.0.1", self.service.port)
        stream = socket.create_connection(there, timeout=SECONDS, source_address=(address, 0))
        return Connection(stream, LAST_FRAGMENT)

    def stop(self):
        """Ends the service, and wants that all is well."""
        wants_run(self.room.run(["jnlfs", "stop", "--control", "s"]), Ended(b"", b"", 0))
        wants_run(self.service.ended(), Ended(b"stopped\n", b"", 0))

    def calls(self):
        """One call of each procedure that is done once, in an order in which each can be done."""
        root, name = self.root, lambda text: entry(self.root, text)
        return [
            (MKDIR, name(b"folder") + settings(mode=0o755)),
            (CREATE, name(b"file") + words(GUARDED) + settings(mode=0o644)),
            (SYMLINK, name(b"link") + settings() + opaque(b"file")),
            (RENAME, name(b"file") + name(b"moved")),
            (REMOVE, name(b"link")),
            (RMDIR, name(b"folder")),
        ]


def record(number, procedure, arguments, credential=ROOT_USER):
    """The record of a call of NFS."""
    return words(number, 0, 2, NFS, 3, procedure) + credential + words(0, 0) + arguments


def answer(connection, call):
    """The reply to a call, as a record."""
    connection.send(call)
    return connection.receive()


def status_of(reply):
    """The status of results."""
    wants("how the call is accepted", reply[4:24], ACCEPTED + words(0))
    return int.from_bytes(reply[24:28], "big")


def wants_status(connection, call, status):
    reply = answer(connection, call)
    wants("the status", status_of(reply), status)
    return reply


# Of `journal_treeserver::TreeServer::answer_no_wait`: the reply to the second copy is the first's.
def a_copy_over_the_same_connection_gets_the_reply_again(room):
    tree = Tree(room)
    with tree.connect().stream as stream:
        connection = Connection(stream, LAST_FRAGMENT)
        for number, (procedure, arguments) in enumerate(tree.calls()):
            call = record(FIRST + number, procedure, arguments)
            reply = wants_status(connection, call, OK)
            wants("the reply to the copy", answer(connection, call), reply)
            wants("the reply to a third one", answer(connection, call), reply)
    tree.stop()


# Of `journal_clients::VisitsByClient::turn`: the port of a client is no matter.
def a_copy_over_another_connection_gets_the_reply_again(room):
    tree = Tree(room)
    calls = [record(FIRST + number, *call) for number, call in enumerate(tree.calls())]
    first = tree.connect()
    replies = [wants_status(first, call, OK) for call in calls]
    first.close()
    second = tree.connect()
    wants("the replies to the copies", [answer(second, call) for call in calls], replies)
    second.close()
    tree.stop()


# Of `journal_treeserver::TreeServer::answer_no_wait`: many copies in one piece.
def copies_that_are_sent_at_once_get_one_reply(room):
    tree = Tree(room)
    connection = tree.connect()
    for number, (procedure, arguments) in enumerate(tree.calls()):
        call = record(FIRST + number, procedure, arguments)
        connection.send(*[call] * 5)
        replies = [connection.receive() for _ in range(5)]
        wants("the first status", status_of(replies[0]), OK)
        wants("all replies", replies, [replies[0]] * 5)
    connection.close()
    tree.stop()


# Of `journal_treeserver::TreeServer::answer_no_wait`: a copy that comes while the call is being done
# waits for its end, and then gets its reply.
def a_copy_that_comes_meanwhile_gets_the_reply(room):
    tree = Tree(room)
    connections = [tree.connect() for _ in range(6)]
    for number in range(RACES):
        name = entry(tree.root, b"name%d" % (number // 2))
        arguments = [(MKDIR, name + settings()), (RMDIR, name)][number % 2]
        call, replies = record(FIRST + number, *arguments), [None] * len(connections)
        gate = threading.Barrier(len(connections))

        def race(place, call=call, replies=replies, gate=gate):
            gate.wait()
            replies[place] = answer(connections[place], call)

        threads = [threading.Thread(target=race, args=(place,)) for place in range(len(connections))]
        for thread in threads:
            thread.start()
        for thread in threads:
            thread.join()
        wants("the status", status_of(replies[0]), OK)
        wants("all replies", replies, [replies[0]] * len(replies))
    for connection in connections:
        connection.close()
    tree.stop()


# Of `journal_treeserver::TreeServer::answer_no_wait`: what differs in anything is another call.
def a_call_that_differs_is_done(room):
    tree = Tree(room)
    connection, other = tree.connect(), tree.connect("127.0.0.2")
    name, call = entry(tree.root, b"a"), (MKDIR, entry(tree.root, b"a") + settings(mode=0o777))
    made = wants_status(connection, record(FIRST, *call), OK)
    wants_status(other, record(FIRST, *call), EXIST)
    wants_status(connection, record(FIRST + 1, *call), EXIST)
    wants_status(connection, record(FIRST, *call, user(7)), EXIST)
    wants_status(connection, record(FIRST, MKDIR, name + settings(mode=0o755)), EXIST)
    wants_status(connection, record(FIRST, RMDIR, name), OK)
    wants("the reply to the copy", answer(connection, record(FIRST, *call)), made)
    wants_status(connection, record(FIRST, LOOKUP, name), NOENT)
    connection.close()
    other.close()
    tree.stop()


# Of `journal_treeserver::TreeServer::answer_no_wait`: a copy of a call that was refused is not done,
# also where it could be by then.
def a_refusal_is_given_again(room):
    tree = Tree(room)
    connection = tree.connect()
    name = entry(tree.root, b"a")
    remove, folder = record(FIRST, REMOVE, name), entry(tree.root, b"b")
    refused = wants_status(connection, remove, NOENT)
    wants_status(connection, record(FIRST + 1, CREATE, name + words(GUARDED) + settings()), OK)
    wants("the reply to the copy", answer(connection, remove), refused)
    wants_status(connection, record(FIRST + 2, LOOKUP, name), OK)
    wants_status(connection, record(FIRST + 3, REMOVE, name), OK)
    wants("the reply to the copy", answer(connection, remove), refused)
    wants_status(connection, record(FIRST + 4, RMDIR, folder), NOENT)
    connection.close()
    tree.stop()


# Of `journal_treeserver::TreeServer::answer_no_wait`: what is no call of a name is done each time.
def other_calls_are_done_each_time(room):
    tree = Tree(room)
    connection = tree.connect()
    made = answer(connection, record(FIRST, CREATE, entry(tree.root, b"a") + words(GUARDED) + settings()))
    handle = made[36:52]
    write = record(FIRST + 1, WRITE, written(handle, 0, b"first"))
    wants_status(connection, write, OK)
    wants_status(connection, record(FIRST + 2, WRITE, written(handle, 0, b"other")), OK)
    wants_status(connection, write, OK)
    with Caller(tree.service.port) as caller:
        wants("the bytes", caller.read_all(handle), b"first")
    cut = record(FIRST + 3, SETATTR, opaque(handle) + settings(size=2) + words(0))
    wants_status(connection, cut, OK)
    wants_status(connection, cut, OK)
    connection.close()
    tree.stop()


# Of `journal_treeserver::ReplyTable::new`: a reply that newer ones have pushed out is forgotten, and the
# copy is done as a call of its own.
def a_full_table_forgets_the_oldest_replies(room):
    tree = Tree(room)
    connection = tree.connect()
    call = record(FIRST, MKDIR, entry(tree.root, b"a") + settings())
    made = wants_status(connection, call, OK)
    wants("the reply to the copy", answer(connection, call), made)
    for number in range(0, MANY, AT_ONCE):
        numbers = range(FIRST + 1 + number, FIRST + 1 + number + AT_ONCE)
        connection.send(*(record(it, REMOVE, entry(tree.root, b"none")) for it in numbers))
        for _ in numbers:
            wants("the status", status_of(connection.receive()), NOENT)
    wants_status(connection, call, EXIST)
    connection.close()
    tree.stop()


# Of `journal_treeserver::ReplyTable::new`: it is in memory alone. After another start a copy is done, and
# finds what the first has left.
def another_run_knows_no_replies(room):
    tree = Tree(room)
    calls = [record(FIRST + number, *call) for number, call in enumerate(tree.calls())]
    connection = tree.connect()
    for call in calls[:5]:
        wants_status(connection, call, OK)
    connection.close()
    tree.stop()
    tree.serve()
    connection = tree.connect()
    wants_status(connection, calls[0], EXIST)
    wants_status(connection, calls[3], NOENT)
    wants_status(connection, calls[4], NOENT)
    connection.close()
    tree.stop()
