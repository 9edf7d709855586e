"""The reading of a capture in blocks (pcapng, in this project's profile): its records, or the first test that fails."""
import collections

from .reading import ETHERNET, LONGEST_FRAME, MOST_RECORDS, Malformed, Record

FIRST = bytes.fromhex("0a0d0d0a")
SECTION, INTERFACE, SIMPLE, ENHANCED = 0x0A0D0D0A, 1, 3, 6
# The least total length of a block; of any other it is 12.
LEAST = {SECTION: 28, INTERFACE: 20, SIMPLE: 16, ENHANCED: 32}
MARK, MAJOR, MOST_BLOCKS = 0x1A2B3C4D, 1, 4_000_000
UNIT_CODE, LATEST = 9, 2**64 - 1

Interface = collections.namedtuple("Interface", "link snap units")


class Fault(Exception):
    """The cause of a block."""


def number(data, at, size, order):
    return int.from_bytes(data[at:at + size], order)


def padded(size):
    return (size + 3) // 4 * 4


def records(data):
    """The records of a capture, which are its packets in order, with their times in microseconds."""
    reader, at, block = Reader(), 0, 0
    while at < len(data):
        if block == MOST_BLOCKS:
            raise Malformed(7, f"more than {MOST_BLOCKS} blocks")
        block += 1
        try:
            at += reader.take(data, at)
        except Fault as fault:
            raise Malformed(7, f"block {block}: {fault}") from None
    return reader.found


def block_at(data, at, order):
    """The kind of the block there, its order and its bytes. The order of a section is its own."""
    front = data[at:at + 12]
    kind = number(front, 0, 4, order)
    if len(front) < (12 if kind == SECTION else 8):
        raise Fault("Cut")
    order = order_of(front) if kind == SECTION else order
    total = number(front, 4, 4, order)
    if total % 4 or total < LEAST.get(kind, 12):
        raise Fault("Length")
    block = data[at:at + total]
    if len(block) < total:
        raise Fault("Cut")
    if number(block, total - 4, 4, order) != total:
        raise Fault("Length")
    return kind, order, block


def order_of(front):
    """The order in which a section's mark has its value."""
    for order in ("little", "big"):
        if number(front, 8, 4, order) == MARK:
            return order
    raise Fault("Mark")


def unit_value(options, order):
    """The value that tells the unit: that of the first option for it. Code 0, or an option past the end, stops the list."""
    at = 0
    while at + 4 <= len(options):
        code, length = number(options, at, 2, order), number(options, at + 2, 2, order)
        behind = at + 4 + padded(length)
        if code == 0 or behind > len(options):
            break
        if (code, length) == (UNIT_CODE, 1):
            return options[at + 4]
        at = behind
    return None


def units_of(value):
    """Units a second."""
    if value is None:
        return 1_000_000
    if 20 <= value < 128 or value > 191:
        raise Fault("Resolution")
    return 10**value if value < 128 else 2**(value - 128)


class Reader:
    """What the blocks so far tell: the order and the interfaces of the section, and the records."""

    def __init__(self):
        self.order, self.interfaces, self.found = "little", [], []

    def take(self, data, at):
        """Takes the block there, and answers its length."""
        kind, self.order, block = block_at(data, at, self.order)
        if kind == SECTION:
            if self.number(block, 12, 2) != MAJOR:
                raise Fault("Version")
            self.interfaces = []
        elif kind == INTERFACE:
            units = units_of(unit_value(block[16:-4], self.order))
            self.interfaces.append(Interface(self.number(block, 8, 2), self.number(block, 12, 4), units))
        elif kind in (SIMPLE, ENHANCED):
            self.found.append(self.packet(kind, block))
        return len(block)

    def number(self, block, at, size):
        return number(block, at, size, self.order)

    def packet(self, kind, block):
        which, place = (0, 12) if kind == SIMPLE else (self.number(block, 8, 4), 28)
        if which >= len(self.interfaces):
            raise Fault("Interface")
        interface = self.interfaces[which]
        if kind == SIMPLE:
            time, original = 0, self.number(block, 8, 4)
            captured = min(original, interface.snap) if interface.snap else original
        else:
            time = self.number(block, 12, 4) * 2**32 + self.number(block, 16, 4)
            captured = self.number(block, 20, 4)
        if captured > LONGEST_FRAME or place + padded(captured) + 4 > len(block):
            raise Fault(f"Captured {captured}")
        if interface.link != ETHERNET:
            raise Fault("LinkType")
        if len(self.found) == MOST_RECORDS:
            raise Malformed(6, f"more than {MOST_RECORDS} records")
        return Record(min(time * 1_000_000 // interface.units, LATEST), block[place:place + captured])
