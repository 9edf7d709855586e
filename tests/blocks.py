"""Captures in blocks (pcapng) as bytes: a block is its type, its length, a body, and its length again."""
import struct

SECTION, INTERFACE, OBSOLETE, SIMPLE, NAMES, STATISTICS, ENHANCED = 0x0A0D0D0A, 1, 2, 3, 4, 5, 6
MARK = 0x1A2B3C4D


def padded(data):
    return data + bytes(-len(data) % 4)


def block(kind, body, order="<", first=None, second=None):
    """A block; first and second are its two lengths where they aren't what they must be."""
    length = 12 + len(body)
    first, second = (length if it is None else it for it in (first, second))
    return struct.pack(order + "II", kind, first) + body + struct.pack(order + "I", second)


def option(code, value=b"", order="<"):
    return struct.pack(order + "HH", code, len(value)) + padded(value)


def unit(value, order="<"):
    """The option that tells the unit of times."""
    return option(9, bytes([value]), order)


def section(order="<", mark=MARK, version=(1, 0), size=2**64 - 1, options=b"", **lengths):
    return block(SECTION, struct.pack(order + "IHHQ", mark, *version, size) + options, order, **lengths)


def interface(link=1, snap=262_144, options=b"", order="<", **lengths):
    return block(INTERFACE, struct.pack(order + "HHI", link, 0, snap) + options, order, **lengths)


def enhanced(frame, time=0, which=0, captured=None, original=None, behind=b"", order="<", **lengths):
    """A packet; captured and original are its length where they aren't given."""
    captured, original = (len(frame) if it is None else it for it in (captured, original))
    fields = struct.pack(order + "IIIII", which, time >> 32, time % 2**32, captured, original)
    return block(ENHANCED, fields + padded(frame) + behind, order, **lengths)


def simple(frame, original=None, behind=b"", order="<", **lengths):
    """A packet without a time, of the first interface."""
    original = len(frame) if original is None else original
    return block(SIMPLE, struct.pack(order + "I", original) + padded(frame) + behind, order, **lengths)


def capture(frames, order="<"):
    """A capture of the frames, a second apart, on one interface with the usual unit."""
    packets = (enhanced(frame, seconds * 1_000_000, order=order) for seconds, frame in enumerate(frames, 1))
    return section(order) + interface(order=order) + b"".join(packets)
