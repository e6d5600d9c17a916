"""The bytes of a file of any size, by the blocks of it that were written. All else is zeros.

A module: `tree_large.py`, `tree_watch.py` and `tree_clients.py` use it. A file of a GiB takes some
memory for each of its WRITEs, and not for each block: blocks in a row with the same bytes are one.
"""

from typing import NamedTuple

BLOCK = 4096
PAGE = 256
ZEROS = bytes(BLOCK)


def pieces(offset, data):
    """The blocks of bytes at an offset, each with those that lie in it, and where in it."""
    for place in range(offset // BLOCK, -(-(offset + len(data)) // BLOCK)):
        start = max(offset - BLOCK * place, 0)
        yield place, start, data[BLOCK * place + start - offset : BLOCK * (place + 1) - offset]


class Blocks:
    """Blocks by their places, in pages. A change makes another one, which has the same pages but for
    those that it touches."""

    def __init__(self, pages):
        self.pages = pages

    def __iter__(self):
        return (place for page in self.pages.values() for place in page)

    def __len__(self):
        return sum(map(len, self.pages.values()))

    def get(self, place, default=None):
        return self.pages.get(place // PAGE, {}).get(place, default)

    def with_blocks(self, blocks):
        pages, own = dict(self.pages), {}
        for place, block in blocks:
            number = place // PAGE
            if number not in own:
                own[number] = pages[number] = dict(pages.get(number, {}))
            own[number][place] = block
        return Blocks(pages)

    def below(self, end):
        """Those whose places are below the end."""
        pages = {number: page for number, page in self.pages.items() if PAGE * number < end}
        last = end // PAGE
        if last in pages:
            pages[last] = {place: block for place, block in pages[last].items() if place < end}
        return Blocks(pages)

    def is_same(self, other):
        """Whether both have the same bytes. A block of zeros may be there or not."""
        numbers = self.pages.keys() | other.pages.keys()
        return all(is_same_page(self.pages.get(it, {}), other.pages.get(it, {})) for it in numbers)


def is_same_page(one, other):
    if one is other or one == other:
        return True
    return all(one.get(place, ZEROS) == other.get(place, ZEROS) for place in one.keys() | other.keys())


class Content(NamedTuple):
    """What a file has at a moment. A change makes another one."""

    size: int
    blocks: Blocks

    def overlaid(self, offset, data):
        """With other bytes from an offset on, and zeros in a gap before them."""
        if not data:
            return self
        return Content(max(self.size, offset + len(data)), self.blocks.with_blocks(self.changed(offset, data)))

    def changed(self, offset, data):
        """The blocks that are other ones then."""
        last = ZEROS
        for place, start, part in pieces(offset, data):
            if len(part) < BLOCK:
                before = self.blocks.get(place, ZEROS)
                part = before[:start] + part + before[start + len(part) :]
            last = last if part == last else part
            yield place, last

    def resized(self, size):
        """With so many bytes, the new ones zeros."""
        last, rest = divmod(size, BLOCK)
        blocks, cut = self.blocks.below(last + (rest > 0)), self.blocks.get(last)
        if rest and cut:
            blocks = blocks.with_blocks([(last, cut[:rest].ljust(BLOCK, b"\0"))])
        return Content(size, blocks)

    def part(self, offset, count):
        """So many bytes from an offset on, as far as there are any."""
        count = max(min(offset + count, self.size) - offset, 0)
        found = (self.blocks.get(place, ZEROS) for place in range(offset // BLOCK, -(-(offset + count) // BLOCK)))
        return b"".join(found)[offset % BLOCK :][:count]

    def is_same(self, other):
        """Whether both have the same bytes."""
        return self.size == other.size and self.blocks.is_same(other.blocks)


EMPTY = Content(0, Blocks({}))
