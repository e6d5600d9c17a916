"""Several connections to a service of jtool, and records that are cut."""

import struct
import threading
import time
from pathlib import Path

from program_rows import SECONDS, Ended, Wrong, items_of, read_rows, read_words, record_of, wants
from program_rows import wants_run

HERE = Path(__file__).parent
NAMES = read_words(HERE.parent / "words")
HEADER_BYTES = 40  # The bytes of a call before its arguments.
STATUS_AT = 24  # The place of the status in a reply.
JUKEBOX, NO_SPACE = 10008, 28
LIVES = 100
FILES = (2, 3, 4, 5)
BLOCKS, FIRST_DATA = 600, 531


def record(text):
    return record_of(text, NAMES)


NULL, NULL_REPLY, GARBAGE = map(record, ("NULL", "DONE", "GARBAGE"))


def serve(room, blocks, connections):
    """Serves a new disk to so many connections."""
    wants_run(room.run(["jtool", "format", "disk", str(blocks)]), Ended(b"", b"", 0))
    return room.start(["jtool", "serve", "disk", "0", str(connections)])


def has_served(service, connections):
    """Ends the row's connection. Wants that the service has ended well, after so many."""
    service.hang_up()
    wants_run(service.ended(), Ended(b"served %d\n" % connections, b"", 0))


# Of `journal_service::serve`: each connection that was taken counts, however it ended.
def connections_count_however_they_end(room):
    """The first sends nothing, the next part of a record, the third calls and reads no reply."""
    service = serve(room, 532, 4)
    service.connect().close()
    partly = service.connect()
    partly.stream.sendall(partly.framed(NULL)[:30])
    partly.close()
    deaf = service.connect()
    deaf.send(*[NULL] * 100)
    deaf.receive_exactly(1)
    deaf.close()
    service.send(NULL)
    wants("the reply to the fourth", service.connection.receive(), NULL_REPLY)
    has_served(service, 4)


def calls_of(row):
    """The calls of a row. A moment in them is 0."""
    for step in row.steps:
        if step.verb == "?":
            words = [it if isinstance(it, int) else 0 for it in items_of(step.text, NAMES)]
            yield struct.pack(f">{len(words)}I", *words)


def arguments_cut_short_or_with_more_behind(room):
    """The calls of `each_procedure_has_its_reply`, wherever they are cut, and with a byte more."""
    rows = read_rows(HERE / "nfs.rows", NAMES)
    (row,) = [it for it in rows if it.name == "each_procedure_has_its_reply"]
    service = serve(room, 532, 1)
    for call in calls_of(row):
        cut = [call[:length] for length in range(HEADER_BYTES, len(call))] + [call + b"\0"]
        service.send(*cut)
        for one in cut:
            wants(f"the reply to {one.hex()}", service.connection.receive(), GARBAGE)
    has_served(service, 1)


def status_of(connection, call):
    """The status that a call is answered by, which is made again where a slot was held."""
    status, deadline = JUKEBOX, time.monotonic() + SECONDS
    while status == JUKEBOX and time.monotonic() < deadline:
        connection.send(call)
        (status,) = struct.unpack_from(">I", connection.receive(), STATUS_AT)
    return status


def name_of(number):
    """The name of a file, as the words of a record have it."""
    return f"4 {int.from_bytes(b'f%03d' % number, 'big'):#x}"


def comes_and_goes(connection, number):
    """Makes a file, writes and removes it, in each of its lives."""
    name, handle = name_of(number), f"12 0x4a4e4c31 {number}"
    for life in range(1, LIVES + 1):
        write = f"WRITE {handle} {life} 0 9 4 0 4 0x64617461"
        calls = [f"CREATE ROOT {name} 1 NOTHING", write, f"REMOVE ROOT {name}"]
        statuses = [status_of(connection, record(call)) for call in calls]
        wants(f"the statuses of life {life} of file {number}", statuses, [0, 0, 0])


def in_threads(errands):
    """Does the errands, each in a thread of its own. Raises the first fault of one."""
    faults = []

    def do(errand):
        try:
            errand()
        except (Wrong, OSError) as wrong:
            faults.append(wrong)

    threads = [threading.Thread(target=do, args=[errand]) for errand in errands]
    for thread in threads:
        thread.start()
    for thread in threads:
        thread.join()
    if faults:
        raise Wrong(str(faults[0]))


def four_connections_leave_no_file_and_no_block(room):
    """After them there is room for as many files as on a new disk."""
    service = serve(room, BLOCKS, len(FILES) + 1)
    peers = [(service.connect(), number) for number in FILES]
    in_threads([lambda peer=peer: comes_and_goes(*peer) for peer in peers])
    for connection, _ in peers:
        connection.hang_up()
    service.connection = service.connect()
    made = range(2, 2 + BLOCKS - FIRST_DATA)
    calls = [record(f"CREATE ROOT {name_of(it)} 1 NOTHING") for it in (*made, made.stop)]
    statuses = [status_of(service.connection, call) for call in calls]
    wants("the statuses of CREATE", statuses, [0] * len(made) + [NO_SPACE])
    has_served(service, len(FILES) + 1)
