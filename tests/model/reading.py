"""The reading of a capture (libpcap file format 2.4): its records, or the first test that fails."""
import collections

MICROSECONDS, NANOSECONDS = 0xA1B2C3D4, 0xA1B23C4D
ETHERNET = 1
MOST_RECORDS, LONGEST_FRAME = 1_000_000, 262_144

Record = collections.namedtuple("Record", "time frame")


class Malformed(Exception):
    """A capture that can't be read to its end: the status, and the cause that is told."""

    def __init__(self, status, cause):
        super().__init__(status, cause)
        self.status, self.cause = status, cause


def header(data):
    """The byte order and the unit of the fractions, once the header is tested."""
    if len(data) < 24:
        raise Malformed(2, "header: ShortHeader")
    for order in ("little", "big"):
        magic, major, minor, link = (int.from_bytes(data[at:at + size], order) for at, size in ((0, 4), (4, 2), (6, 2), (20, 4)))
        if magic in (MICROSECONDS, NANOSECONDS):
            if (major, minor) != (2, 4):
                raise Malformed(2, "header: Version")
            if link % 65_536 != ETHERNET:
                raise Malformed(2, "header: LinkType")
            return order, magic
    raise Malformed(2, "header: Magic")


def records(data):
    """The records of a capture, with their times in microseconds."""
    order, unit = header(data)
    found, at = [], 24
    while at < len(data):
        number = len(found) + 1
        if number > MOST_RECORDS:
            raise Malformed(6, f"more than {MOST_RECORDS} records")
        if len(data) - at < 16:
            raise Malformed(2, f"record {number}: ShortRecord")
        seconds, fraction, captured = (int.from_bytes(data[at + place:at + place + 4], order) for place in (0, 4, 8))
        if captured > LONGEST_FRAME:
            raise Malformed(2, f"record {number}: LongRecord {captured}")
        frame = data[at + 16:at + 16 + captured]
        if len(frame) < captured:
            raise Malformed(2, f"record {number}: ShortRecord")
        found.append(Record(seconds * 1_000_000 + (fraction if unit == MICROSECONDS else fraction // 1_000), frame))
        at += 16 + captured
    return found
