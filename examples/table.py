#!/usr/bin/env python3
"""A table over a service of jnl: rows by their keys, with values of 0 to 1800 bytes.

    jnl create table.disk --blocks 1024 --region 513:block --region 514:bit --region 515:record2048
    jnl serve table.disk --socket table.sock &
    PYTHONPATH=clients/python python3 examples/table.py table.sock

It does what the lines of its input say, and prints a line for each: `put KEY VALUE` and `delete KEY`
print `ok` once no crash takes them back, `get KEY` and `list` print rows, and `ok` or `none`. Keys
and values are words.

A row is in one record of 2048 bytes: the length of its key in two bytes, the key, the length of its
value in two bytes, and the value. A bit of block 514 says that the record of its number is in use.
One program at a time has the table, since it keeps the keys in memory.
"""

import sys

import jnl

BITS, FIRST, RECORD_BYTES, RECORDS_OF_BLOCK = 514, 515, 2048, 2
MOST_KEY, MOST_VALUE, MOST_READS = 200, 1800, 256


def place(record):
    """The address of a record."""
    return FIRST + record // RECORDS_OF_BLOCK, record % RECORDS_OF_BLOCK * 8 * RECORD_BYTES


def spelled(key, value):
    """A row, as its record has it."""
    if len(key) > MOST_KEY or len(value) > MOST_VALUE:
        raise ValueError("a key or a value is too long")
    parts = [len(key).to_bytes(2, "big"), key, len(value).to_bytes(2, "big"), value]
    return b"".join(parts).ljust(RECORD_BYTES, b"\0")


def row_of(record):
    """The key and the value that a record has."""
    key, rest = front_of(record)
    return key, front_of(rest)[0]


def front_of(data):
    """Bytes behind their length, and what is behind them."""
    end = 2 + int.from_bytes(data[:2], "big")
    return data[2:end], data[end:]


class Table:
    """The rows of a disk. `records` has the record of each key."""

    def __init__(self, journal):
        self.journal = journal
        count = min((journal.blocks - FIRST) * RECORDS_OF_BLOCK, 32768)
        self.pool = jnl.Pool(journal, BITS, range(count))
        self.records = {key: record for record, (key, _) in self.rows()}

    def rows(self):
        """Each record that is in use, with its row."""
        used = self.journal.scan(BITS, 0, True)
        for at in range(0, len(used), MOST_READS):
            some = used[at : at + MOST_READS]
            yield from zip(some, map(row_of, self.journal.read(list(map(place, some)))))

    def put(self, key, value):
        """Sets the value of a key. Its record is taken and written at once, or neither."""
        row = spelled(key, value)

        def work(t):
            record = self.records.get(key)
            if record is None:
                record = self.pool.take(t)
            t.write(*place(record), row)
            return record

        self.records[key] = self.journal.run(work)

    def delete(self, key):
        """Removes a key, if it is there."""
        if key in self.records:
            self.journal.run(lambda t: self.pool.give(t, self.records[key]))
            del self.records[key]

    def get(self, key):
        """The value of a key, or None."""
        if key not in self.records:
            return None
        return row_of(self.journal.read([place(self.records[key])])[0])[1]


def show(key, value):
    print(key.decode(), value.decode())


def do(table, word, *words):
    """Does a line. Answers what is printed last."""
    words = [each.encode() for each in words]
    if word == "put":
        table.put(words[0], words[1] if len(words) > 1 else b"")
    elif word == "delete":
        table.delete(words[0])
    elif word == "list":
        for _, row in table.rows():
            show(*row)
    else:
        value = table.get(words[0])
        if value is None:
            return "none"
        show(words[0], value)
    return "ok"


def main():
    if len(sys.argv) != 2:
        print("usage: table.py SOCKET, with lines of input as put KEY VALUE", file=sys.stderr)
        return 2
    with jnl.connect(sys.argv[1]) as journal:
        table = Table(journal)
        for line in sys.stdin:
            print(do(table, *line.split()), flush=True)
    return 0


if __name__ == "__main__":
    sys.exit(main())
