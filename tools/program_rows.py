"""What tools/test-programs needs: how files of rows are read, and what a row does with programs.

rows/README.md says how a row is written. A `Room` is the folder of one row that runs: its programs,
its services, and the moments that were told. All that it started has ended once it is closed.
"""

import errno
import fcntl
import hashlib
import math
import os
import re
import select
import shlex
import shutil
import signal
import socket
import struct
import subprocess
import tempfile
import time
from pathlib import Path
from typing import NamedTuple

PROGRAMS = ("jtool", "jnl", "jnlfs")
SECONDS = 120  # The most that a program or an answer may take. A loaded machine is far below it.
NOBODY = 65534
LOCK_BYTES = 4096  # The bytes of a disk's file that its user locks.
F_OFD_SETLK = 37  # Python 3.8 has no name for it.
LOCKS = {"exclusive": fcntl.F_WRLCK, "shared": fcntl.F_RDLCK}
LAST_FRAGMENT = 1 << 31  # The mark of a record's last fragment (RFC 5531, section 11).
LONGEST_RECORD = 1 << 22
SECOND = 10**9
BLOCK = 4096
LONG_AGO = 10**9 * SECOND  # In 2001. Each file system keeps a whole second.

STREAMS = ("<", ">", "!", "=")
RUNS = ("$", "&", "end", "kill")
RECORDS = ("?", ":")
# What is done with a file, and how many words that takes.
FILES = {
    "write": 3,
    "length": 2,
    "size": 2,
    "holds": 3,
    "keep": 1,
    "kept": 1,
    "unwritten": 1,
    "absent": 1,
    "lock": 2,
    "unlock": 1,
    "readonly": 1,
}
MOMENT = re.compile(r"T\d+|NOW|BORN|MOUNTED")
NAME = re.compile(r"\{([A-Za-z]\w*)\}")
TIMES = re.compile(r"\{(\d+) times ([^{}]*)\}")
RANGE = re.compile(r"\{(\d+)\.\.(\d+)\}")
ESCAPE = re.compile(rb"\\(x[0-9a-f]{2}|[ntr\\])")
ESCAPES = {b"n": b"\n", b"t": b"\t", b"r": b"\r", b"\\": b"\\"}


class Wrong(Exception):
    """What came is not what a row wants."""


# What a step raises where it goes wrong.
FAILURES = (Wrong, OSError, subprocess.SubprocessError)


class BadRow(Exception):
    """A file of rows cannot be read."""


class Ended(NamedTuple):
    """What a program printed, and its status."""

    output: bytes
    faults: bytes
    status: int


class Step(NamedTuple):
    """A step of a row, and the lines of its run: each a mark and a text."""

    line: int
    verb: str
    text: str
    run: list


class Row(NamedTuple):
    """A row; the columns and the cells of its table, if it has one; and the names of its file."""

    path: Path
    line: int
    name: str
    steps: list
    columns: list
    cells: list
    names: dict

    def programs(self):
        """The programs that it runs, also those that its table names."""
        texts = [step.text for step in self.steps if step.verb in ("$", "&")]
        return {program_of(text, names) for text in texts for names in self.alternatives()}

    def alternatives(self):
        """The names of each of its cases: those of the file, and those of the table's columns."""
        for cells in self.cells or [[]]:
            yield {**self.names, **dict(zip(self.columns, cells))}


def program_of(text, names):
    """The program of a line of words, whose first word may be a name."""
    for name, value in names.items():
        text = text.replace("{" + name + "}", value)
    return shlex.split(text)[0]


# How a file of rows is read.


def first_word(line):
    """The mark or the verb that a line begins with, and what follows it."""
    if line[0] in "$&?:<>!=":
        return line[0], line[2:] if line[1:2] == " " else line[1:]
    word, _, rest = line.partition(" ")
    return word, rest


class Reader:
    """A file of rows that is read line by line."""

    def __init__(self, path, names):
        self.path, self.names, self.rows, self.in_table = path, dict(names), [], False

    def bad(self, number, why):
        return BadRow(f"{self.path}:{number}: {why}")

    def take(self, number, line):
        """Takes the next line."""
        if line.startswith("#"):
            return
        if not line.strip():
            self.in_table = False
        elif self.in_table:
            self.take_cells(number, line)
        else:
            self.take_word(number, *first_word(line))

    def take_word(self, number, word, rest):
        if word == "let":
            name, _, text = rest.partition(" ")
            self.names[name] = text.strip()
        elif word == "row":
            self.take_name(number, rest)
        elif not self.rows:
            raise self.bad(number, "a line before the first row")
        elif word == "each":
            self.rows[-1].columns.extend(it.strip() for it in rest.split(" | "))
            self.in_table = True
        else:
            self.take_step(number, word, rest)

    def take_name(self, number, name):
        if not re.fullmatch(r"[a-z0-9_]+", name):
            raise self.bad(number, f"{name!r} has more than lower-case letters, digits and _")
        self.rows.append(Row(self.path, number, name, [], [], [], self.names))

    def take_step(self, number, word, rest):
        steps = self.rows[-1].steps
        if word in RUNS or word in RECORDS or word in FILES:
            steps.append(Step(number, word, rest, []))
        elif word in STREAMS and steps and steps[-1].verb in ("$", "end"):
            steps[-1].run.append((word, rest))
        else:
            raise self.bad(number, f"no step of a row begins with {word!r} here")

    def take_cells(self, number, line):
        row, cells = self.rows[-1], [it.strip() for it in line.split(" | ")]
        if len(cells) != len(row.columns):
            raise self.bad(number, f"{len(cells)} cells under {len(row.columns)} columns")
        row.cells.append(cells)

    def check(self):
        """Wants that each row can be read, and that no two have one name."""
        all_names = [row.name for row in self.rows]
        for row in self.rows:
            if all_names.count(row.name) > 1:
                raise self.bad(row.line, f"{row.name} is there twice")
            self.check_row(row)
            for names in row.alternatives():
                self.check_steps(row, names)

    def check_row(self, row):
        """Wants that it runs a program and fills its table."""
        if not any(step.verb in ("$", "&") for step in row.steps):
            raise self.bad(row.line, f"{row.name} runs no program")
        if row.columns and not row.cells:
            raise self.bad(row.line, f"the table of {row.name} is empty")
        self.check_services(row)

    def check_services(self, row):
        """Wants that it asks its services alone, one at a time, and ends each of them."""
        is_open, unanswered = False, 0
        for step in row.steps:
            unanswered += {"?": 1, ":": -1}.get(step.verb, 0)
            if step.verb == "&" and is_open:
                raise self.bad(step.line, "the service before it has to end first")
            if step.verb in ("?", ":", "end", "kill") and not is_open:
                raise self.bad(step.line, f"no service is there for {step.verb!r}")
            if unanswered < 0:
                raise self.bad(step.line, "an answer to nothing that was asked")
            if step.verb in ("&", "end", "kill"):
                is_open, unanswered = step.verb == "&", 0
        if is_open:
            raise self.bad(row.line, f"{row.name} has to end its service, by end or kill")

    def check_steps(self, row, names):
        for step in row.steps:
            try:
                check_step(step, names)
            except (BadRow, ValueError, RecursionError) as bad:
                raise self.bad(step.line, f"{step.verb} {step.text}: {bad}") from None


def read_rows(path, names):
    """The rows of a file. It may use these names beside its own."""
    reader = Reader(path, names)
    for number, line in enumerate(path.read_text().split("\n"), 1):
        reader.take(number, line)
    reader.check()
    return reader.rows


def read_words(path):
    """The names of rows/words. Each stands for the words behind it."""
    lines = [it for it in path.read_text().split("\n") if it.strip() and not it.startswith("#")]
    return {name: words for name, _, words in (it.partition(": ") for it in lines)}


# What the text of a line stands for.


def filled(text, names):
    """The text with each `{NAME}` replaced, and each `{N times TEXT}` written out."""

    def named(found):
        if found[1] not in names:
            raise BadRow(f"nothing has the name {found[1]}")
        return filled(names[found[1]], names)

    return TIMES.sub(lambda found: found[2] * int(found[1]), NAME.sub(named, text))


def repeated(text):
    """The text once, or once for each number where it has `{FIRST..LAST}`."""
    found = RANGE.search(text)
    if not found:
        return [text]
    numbers = range(int(found[1]), int(found[2]) + 1)
    return [f"{text[: found.start()]}{number}{text[found.end() :]}" for number in numbers]


def unescaped(found):
    escape = found[1]
    return bytes([int(escape[1:], 16)]) if escape[:1] == b"x" else ESCAPES[escape]


def line_bytes(text):
    """The bytes of a line. A backslash at its end says that no newline follows."""
    is_cut = re.search(r"(?<!\\)(\\\\)*\\$", text)
    text, end = (text[:-1], b"") if is_cut else (text, b"\n")
    return ESCAPE.sub(unescaped, text.encode()) + end


def stream_bytes(run, mark, names):
    """The bytes of the lines of a run that have this mark."""
    texts = [filled(text, names) for it, text in run if it == mark]
    return b"".join(line_bytes(line) for text in texts for line in repeated(text))


def number_of(text):
    """A number, or a sum of products of numbers."""
    return sum(math.prod(int(factor, 0) for factor in term.split("*")) for term in text.split("+"))


def value_of(text):
    """The bytes of a value as a script has them: `01+00*127`."""
    terms = (term.partition("*") for term in text.split("+"))
    return b"".join(bytes.fromhex(byte) * int(times or 1) for byte, _, times in terms)


def items_of(text, names):
    """The 32-bit words of a record, and the names of moments, each of which has two words."""
    for token in text.split():
        word, _, times = token.partition("*")
        if token in names:
            yield from items_of(names[token], names)
        elif MOMENT.fullmatch(word):
            yield from [word] * int(times or 1)
        elif re.fullmatch(r"\d+|0x[0-9a-f]+", word):
            yield from [int(word, 0)] * int(times or 1)
        else:
            raise BadRow(f"{token} is no word of a record")


def record_of(text, names, moments=None):
    """The bytes of a record's words. A moment that was told stands for its two words."""
    words = []
    for item in items_of(text, names):
        words += [item] if isinstance(item, int) else moments[item]
    return struct.pack(f">{len(words)}I", *words)


def wanted_of(run, names):
    """What a run is to print, with its status, and whether it may say anything of a fault."""
    statuses = [int(text) for mark, text in run if mark == "="]
    if len(statuses) > 1:
        raise BadRow("a run has one status")
    says_something = ("!", "...") in run
    faults = b"" if says_something else stream_bytes(run, "!", names)
    wanted = Ended(stream_bytes(run, ">", names), faults, statuses[0] if statuses else 0)
    return wanted, says_something


def check_step(step, names):
    """Wants that a step can be read."""
    text = filled(step.text, {**names, "port": "0"})
    if step.verb in RECORDS:
        list(items_of(text, names))
    elif step.verb in FILES:
        check_file_step(step.verb, shlex.split(text))
    else:
        wanted_of(step.run, names)
        stream_bytes(step.run, "<", names)
        check_run(step.verb, shlex.split(text))


def check_run(verb, words):
    """Wants that a run begins with a program, and that an end has no word."""
    if verb in ("end", "kill") and words:
        raise BadRow("it takes no word")
    if verb in ("$", "&") and words[:1] not in [[it] for it in PROGRAMS]:
        raise BadRow(f"its first word is none of {', '.join(PROGRAMS)}")


def check_file_step(verb, words):
    """Wants that what is done with a file has the words that it takes."""
    if len(words) != FILES[verb]:
        raise BadRow(f"{verb} takes {FILES[verb]} words")
    if verb in ("write", "length", "size", "holds"):
        number_of(words[1])
    if verb in ("write", "holds"):
        value_of(words[2])
    if verb == "lock" and words[1] not in LOCKS:
        raise BadRow(f"a lock is one of {', '.join(LOCKS)}")


# What is wanted, and what came.


def first_difference(came, wanted):
    """The place of the first item by which two lists differ."""
    places = (place for place, pair in enumerate(zip(came, wanted)) if pair[0] != pair[1])
    return next(places, min(len(came), len(wanted)))


def line_that_differs(what, came, wanted):
    """Says at which line two texts differ, and how."""
    lines = [wanted.split(b"\n"), came.split(b"\n")]
    place = first_difference(*lines)
    shown = [repr(part[place])[1:200] if place < len(part) else "the end" for part in lines]
    return f"{what}, line {place + 1}: wanted {shown[0]}, came {shown[1]}"


def wants(what, came, wanted):
    """Wants the two to be equal."""
    if came != wanted:
        raise Wrong(f"{what}: wanted {wanted!r}, came {came!r}")


def wants_run(came, wanted, says_something=False):
    """Wants that a program printed this, and ended so. With says_something any fault is wanted."""
    wrong = []
    if came.output != wanted.output:
        wrong.append(line_that_differs("standard output", came.output, wanted.output))
    if says_something and not came.faults:
        wrong.append("standard error: wanted something, came nothing")
    elif not says_something and came.faults != wanted.faults:
        wrong.append(line_that_differs("standard error", came.faults, wanted.faults))
    if came.status != wanted.status:
        said = came.faults[:200]
        wrong.append(f"status: wanted {wanted.status}, came {came.status}; it said {said!r}")
    if wrong:
        raise Wrong("; ".join(wrong))


class Moments:
    """The moments that replies told, by their names, as rows/README.md has them."""

    def __init__(self):
        self.began, self.known = time.time_ns(), {}

    def forget(self, name):
        self.known.pop(name, None)

    def is_right(self, name, pair, windows):
        """Whether these two words are the moment of the name.

        Of a name that is not known yet, the windows say between which two times it may be.
        """
        if name not in self.known:
            first, last = windows[name if name in windows else "T"]
            secs, nanos = pair
            if nanos >= SECOND or not first <= secs * SECOND + nanos <= last:
                return False
        return self.known.setdefault(name, pair) == pair


def first_wrong_word(came, wanted, is_moment):
    """The place of the first word that is not as wanted, and what is wanted there, or None.

    The name of a moment is wanted of two words.
    """
    place = 0
    for item in wanted:
        width = 1 if isinstance(item, int) else 2
        words = tuple(came[place : place + width])
        if len(words) < width or not (words == (item,) if width == 1 else is_moment(item, words)):
            return place, item
        place += width
    return None if place == len(came) else (place, "the end")


def shown_words(items):
    """Words of a record as a row has them: equal ones once, with their number."""
    shown, place = [], 0
    while place < len(items):
        others = (at for at, it in enumerate(items[place:]) if it != items[place])
        length = next(others, len(items) - place)
        item = items[place]
        word = item if isinstance(item, str) or item < 4096 else hex(item)
        shown.append(f"{word}*{length}" if length > 1 else str(word))
        place += length
    return " ".join(shown) or "nothing"


# The bytes of a file.


def places_of(file):
    """The numbers of a file's blocks that are no holes."""
    at, end = 0, file.seek(0, os.SEEK_END)
    while at < end:
        try:
            first = os.lseek(file.fileno(), at, os.SEEK_DATA)
        except OSError as why:
            if why.errno != errno.ENXIO:
                raise
            return  # Nothing but a hole follows.
        at = os.lseek(file.fileno(), first, os.SEEK_HOLE)
        yield from range(first // BLOCK, -(-at // BLOCK))


def digest_of(path):
    """The same for two files with the same bytes: of the length, and of each block but zeros."""
    digest = hashlib.sha256(str(path.stat().st_size).encode())
    with open(path, "rb") as file:
        for place in places_of(file):
            block = os.pread(file.fileno(), BLOCK, place * BLOCK)
            if block.strip(b"\0"):
                digest.update(struct.pack("<Q", place) + block)
    return digest.digest()


# Programs that run.


class Connection:
    """A connection to a service. Its mark stands beside a record's length in its first word."""

    def __init__(self, stream, mark):
        self.stream, self.mark, self.sent = stream, mark, 0

    def framed(self, record):
        """The bytes of a record as they are sent."""
        return struct.pack(">I", self.mark | len(record)) + record

    def send(self, *records):
        """Sends records, all at once."""
        self.sent = time.time_ns()
        self.stream.sendall(b"".join(map(self.framed, records)))

    def receive(self):
        """The next record that comes."""
        (head,) = struct.unpack(">I", self.receive_exactly(4))
        length = head ^ self.mark
        if length > LONGEST_RECORD:
            raise Wrong(f"a record begins with {head:#x}")
        return self.receive_exactly(length)

    def receive_exactly(self, count):
        """So many bytes."""
        data = b""
        while len(data) < count:
            piece = self.stream.recv(count - len(data))
            if not piece:
                raise Wrong(f"the connection ends after {len(data)} of {count} bytes")
            data += piece
        return data

    def hang_up(self):
        """Sends no more. Nothing more comes."""
        with self.stream as stream:
            stream.shutdown(socket.SHUT_WR)
            wants("what comes after the last answer", stream.recv(1), b"")

    def close(self):
        self.stream.close()


def read_pipe(pipe, is_whole, what):
    """What comes from a pipe until it is whole, or until it ends. It may not take too long."""
    data, deadline = b"", time.monotonic() + SECONDS
    while not is_whole(data):
        if not select.select([pipe], [], [], max(0, deadline - time.monotonic()))[0]:
            raise Wrong(f"{what} within {SECONDS} seconds")
        piece = os.read(pipe.fileno(), 1)
        if not piece:
            break
        data += piece
    return data


def kill(process):
    """Ends a program that a room started and that has not ended, with what it started itself."""
    if process.poll() is None:
        os.killpg(process.pid, signal.SIGKILL)
    process.wait()


class Service:
    """A run of a program that listens, and the row's connection to it."""

    def __init__(self, room, words, more):
        self.room, self.connection, self.faults = room, None, tempfile.TemporaryFile()
        self.port = self.path = None
        self.began = self.listens = time.time_ns()
        self.process = room.popen(words, stdout=subprocess.PIPE, stderr=self.faults, **more)

    def listen(self):
        """Waits for the line by which it says where it listens."""
        is_line = lambda data: data.endswith(b"\n")
        line = read_pipe(self.process.stdout, is_line, "it does not say where it listens")
        self.listens = time.time_ns()
        found = re.fullmatch(rb"listening (?:(\d+)|on (.+))\n", line)
        if not found:
            kill(self.process)
            raise Wrong(f"it prints {line!r} and does not listen; {self.ended()}")
        self.port = int(found[1]) if found[1] else None
        self.path = found[2].decode() if found[2] else None
        if self.port and self.is_heard_elsewhere():
            raise Wrong("it listens on 127.0.0.2 too")

    def connect(self):
        """A new connection to it."""
        if self.port:
            address = ("127.0.0.1", self.port)
            return Connection(socket.create_connection(address, timeout=SECONDS), LAST_FRAGMENT)
        stream = socket.socket(socket.AF_UNIX)
        stream.settimeout(SECONDS)
        stream.connect(str(self.room.path(self.path)))
        return Connection(stream, 0)

    def is_heard_elsewhere(self):
        """Whether its port takes connections at another address of this machine.

        The system gives all addresses of 127.0.0.0/8 to it (RFC 1122, section 3.2.1.3).
        """
        try:
            socket.create_connection(("127.0.0.2", self.port), timeout=SECONDS).close()
        except OSError:
            return False
        return True

    def send(self, *records):
        """Sends records over the row's connection."""
        self.connection = self.connection or self.connect()
        self.connection.send(*records)

    def hang_up(self):
        """Ends the row's connection, where there is one."""
        if self.connection:
            self.connection.hang_up()
            self.connection = None

    def ended(self):
        """What else it printed, and its status, once it has ended by itself."""
        output = read_pipe(self.process.stdout, lambda data: False, "it does not end")
        status = self.process.wait(SECONDS)
        self.faults.seek(0)
        return Ended(output, self.faults.read(), status)

    def close(self):
        """Ends it, and what belongs to it."""
        kill(self.process)
        self.process.stdout.close()
        self.faults.close()
        if self.connection:
            self.connection.close()


def become_nobody():
    """Gives up the rights of the superuser, in a process that is about to run a program."""
    os.setgroups([])
    os.setgid(NOBODY)
    os.setuid(NOBODY)


class Room:
    """The folder of a row that runs. Its programs run there."""

    def __init__(self, folder, programs):
        self.folder, self.programs = Path(folder), programs
        self.services, self.locks, self.kept = [], {}, {}
        self.moments, self.asked, self.is_nobody = Moments(), [], False

    def __enter__(self):
        return self

    def __exit__(self, *_):
        for service in self.services:
            service.close()
        for lock in self.locks.values():
            os.close(lock)

    @property
    def service(self):
        """The service that was started last."""
        return self.services[-1]

    def path(self, name):
        return self.folder / name

    def popen(self, words, **more):
        """Starts a program. Its standard input is empty where nothing else is said."""
        how = {"stdin": subprocess.DEVNULL, "cwd": self.folder, "start_new_session": True}
        if self.is_nobody:
            how["preexec_fn"] = become_nobody
        return subprocess.Popen([self.programs[words[0]], *words[1:]], **{**how, **more})

    def run(self, words, text=b"", **more):
        """Runs a program to its end, with this on its standard input. More says how it is run."""
        pipes = dict.fromkeys(("stdin", "stdout", "stderr"), subprocess.PIPE)
        with self.popen(words, **pipes, **more) as process:
            try:
                output, faults = process.communicate(text, timeout=SECONDS)
            except subprocess.TimeoutExpired:
                raise Wrong(f"it does not end within {SECONDS} seconds") from None
            finally:
                kill(process)
        return Ended(output, faults, process.returncode)

    def start(self, words, **more):
        """Starts a service. More says how it is run."""
        self.moments.forget("MOUNTED")
        self.services.append(Service(self, words, more))
        self.service.listen()
        return self.service

    # The steps of a row.

    def do(self, step, names):
        """Does a step."""
        if step.verb != "?":
            self.send_asked()
        own = {"port": str(self.service.port)} if self.services else {}
        text = filled(step.text, {**names, **own})
        if step.verb == "?":
            self.asked.append(record_of(text, names, self.moments.known))
        elif step.verb == ":":
            self.do_answer(text, names)
        elif step.verb in FILES:
            getattr(self, f"do_{step.verb}")(*shlex.split(text))
        else:
            self.do_program(step, shlex.split(text), names)

    def do_program(self, step, words, names):
        """Runs a program, or starts or ends a service."""
        if step.verb == "$":
            text = stream_bytes(step.run, "<", names)
            wants_run(self.run(words, text), *wanted_of(step.run, names))
        elif step.verb == "&":
            self.start(words)
        elif step.verb == "end":
            self.service.hang_up()
            wants_run(self.service.ended(), *wanted_of(step.run, names))
        else:
            self.service.close()

    def send_asked(self):
        """Sends the records that stand on lines one below the other."""
        if self.asked:
            self.service.send(*self.asked)
            self.asked = []

    def do_answer(self, text, names):
        """Receives a record, and wants these words of it."""
        record = self.service.connection.receive()
        windows = self.windows(time.time_ns())
        self.moments.forget("NOW")
        wanted = list(items_of(text, names))
        whole = len(record) // 4
        came = list(struct.unpack(f">{whole}I", record[: whole * 4]))
        is_moment = lambda name, pair: self.moments.is_right(name, pair, windows)
        wrong = first_wrong_word(came, wanted, is_moment)
        if wrong or len(record) % 4:
            place, item = wrong or (whole, "the end")
            there = f"word {place + 1}: wanted {item}, came {shown_words(came[place:place + 2])}"
            raise Wrong(f"{there}; all that came: {shown_words(came)}")

    def windows(self, now):
        """Between which two times the moments of a reply may be that has just come."""
        call = (self.service.connection.sent, now)
        mounted = (self.service.began, self.service.listens)
        return {"T": call, "NOW": call, "BORN": (self.moments.began, now), "MOUNTED": mounted}

    def do_write(self, name, at, value):
        with open(self.path(name), "r+b") as file:
            file.seek(number_of(at))
            file.write(value_of(value))

    def do_length(self, name, length):
        """Cuts the file, or makes it longer by zeros. Makes it where it is not there."""
        with open(self.path(name), "ab") as file:
            file.truncate(number_of(length))

    def do_size(self, name, size):
        wants(f"the size of {name}", self.path(name).stat().st_size, number_of(size))

    def do_holds(self, name, at, value):
        wanted = value_of(value)
        with open(self.path(name), "rb") as file:
            file.seek(number_of(at))
            came = file.read(len(wanted))
        if came != wanted:
            place = first_difference(came, wanted)
            shown = [part[place : place + 1].hex() or "none" for part in (wanted, came)]
            raise Wrong(f"byte {place} from there on: wanted {shown[0]}, came {shown[1]}")

    def do_keep(self, name):
        """Remembers all bytes of the file, and says that it was written long ago."""
        path = self.path(name)
        self.kept[name] = digest_of(path)
        os.utime(path, ns=(path.stat().st_atime_ns, LONG_AGO))

    def do_kept(self, name):
        if digest_of(self.path(name)) != self.kept[name]:
            raise Wrong(f"{name} has changed")

    def do_unwritten(self, name):
        """Wants that nobody wrote to the file since then, not even the bytes that it has."""
        self.do_kept(name)
        if self.path(name).stat().st_mtime_ns != LONG_AGO:
            raise Wrong(f"{name} was written, with the bytes that it had")

    def do_absent(self, name):
        if os.path.lexists(self.path(name)):
            raise Wrong(f"{name} is there")

    def do_lock(self, name, how):
        """Locks the disk of a file, as who serves it does (exclusive) or as who reads it."""
        lock = self.locks[name] = os.open(self.path(name), os.O_RDWR)
        words = struct.pack("hh4xqqi4x", LOCKS[how], os.SEEK_SET, 0, LOCK_BYTES, 0)
        fcntl.fcntl(lock, F_OFD_SETLK, words)

    def do_unlock(self, name):
        os.close(self.locks.pop(name))

    def do_readonly(self, name):
        """Says that the file may only be read, also by what runs from then on."""
        self.path(name).chmod(0o444)
        if os.geteuid() == 0:
            self.is_nobody = True
            self.folder.chmod(0o755)
            # Another user may not be able to reach the programs where they are.
            copies = {it: self.path(f"program-{it}") for it in self.programs}
            for it, copy in copies.items():
                shutil.copy(self.programs[it], copy)
            self.programs = copies
