"""Captures that can't be read to their end, and the limits of those that can."""
from captures import capture, header, put, record
from model import fault
from running import compare, difference, good, outcome

from .known import FOUR, SOURCE, one_core, plain

LONGEST_FRAME, MOST_RECORDS = 262_144, 1_000_000
RUN, PLAIN = "run program=ddos threshold=2", "plain program=ddos threshold=2"
MILLION_LOADED = """
    frames 1000000 delivered 1000000 kept 1000000
    core 0 delivered 1000000 carried 1000000 recovered 0 skipped 0
    flows 2
    verdict PASS 0
    verdict DROP 1000000
    verdict OTHER 0
"""
HEADERS = [
    ("no bytes", b"", "ShortHeader"),
    ("23 bytes", header()[:23], "ShortHeader"),
    ("a short header with another magic", bytes(23), "ShortHeader"),
    ("24 zero bytes", bytes(24), "Magic"),
    ("a type of blocks in the other order", bytes.fromhex("0a0d0a0d") + bytes(20), "Magic"),
    ("a magic with one bit more", header(magic=0xA1B2C3D5), "Magic"),
    ("a magic with its halves swapped", header(magic=0xC3D4A1B2), "Magic"),
    ("another magic and another version", header(magic=1, version=(2, 3)), "Magic"),
    ("version 2.3", header(version=(2, 3)), "Version"),
    ("version 2.5", header(version=(2, 5)), "Version"),
    ("version 3.4", header(version=(3, 4)), "Version"),
    ("version 4.2", header(version=(4, 2)), "Version"),
    ("version 2.4 in the other order", put(header(order=">"), 4, b"\2\0\4\0"), "Version"),
    ("another version and another link type", header(version=(2, 3), link=113), "Version"),
    ("link type 113", header(link=113), "LinkType"),
    ("link type 0", header(link=0), "LinkType"),
    ("link type 0x101", header(link=0x101), "LinkType"),
    ("link type 0x10000", header(link=0x10000), "LinkType"),
    ("link type 1 in the other order", put(header(order=">"), 20, b"\1\0\0\0"), "LinkType"),
]


def headers(program):
    for name, data, cause in HEADERS:
        wanted = fault(2, f"header: {cause}")
        yield name, compare(program, RUN, data, wanted)
        if len(data) >= 24:
            yield f"{name}, a frame behind it", compare(program, PLAIN, data + record(SOURCE), wanted)
    for link in (0x10000001, 0xFFFF0001):
        yield f"link type {link:#x}", compare(program, RUN, header(link=link) + record(SOURCE), one_core("PASS", 1))


def prefixes(program):
    """Each prefix of the capture of four frames: whole up to a record's end, else cut in the record behind."""
    for length in range(len(FOUR) + 1):
        whole_records, more = divmod(length - 24, 58)
        if whole_records < 0:
            known = fault(2, "header: ShortHeader")
        elif more:
            known = fault(2, f"record {whole_records + 1}: ShortRecord")
        elif length % 2:
            known = plain(" ".join("PASS PASS DROP DROP".split()[:whole_records]), min(whole_records, 1))
        else:
            known = one_core(" ".join("PASS PASS DROP DROP".split()[:whole_records]), min(whole_records, 1))
        words = PLAIN if length % 2 else RUN
        yield f"the first {length} bytes", compare(program, words, FOUR[:length], known)


def with_captured(number, captured):
    """The four frames, where record number says another captured length."""
    return put(FOUR, 24 + 58 * (number - 1) + 8, captured.to_bytes(4, "little"))


def lengths(program):
    """Captured lengths that the bytes don't bear out, and the longest frame."""
    for number, captured, cause in (
            (1, 4_294_967_295, "record 1: LongRecord 4294967295"), (1, 262_145, "record 1: LongRecord 262145"),
            (3, 262_145, "record 3: LongRecord 262145"), (1, 262_144, "record 1: ShortRecord"),
            (1, 0, "record 2: LongRecord 16777216"), (4, 43, "record 4: ShortRecord"), (4, 41, "record 5: ShortRecord")):
        for words in (RUN, PLAIN, f"{RUN} cores=3"):
            yield f"captured length {captured} in record {number}, {words}", compare(program, words,
                                                                                     with_captured(number, captured),
                                                                                     fault(2, cause))
    big = header(order=">") + record(SOURCE, captured=262_145, order=">")
    yield "a long record, big-endian", compare(program, RUN, big, fault(2, "record 1: LongRecord 262145"))
    alone = header() + record(b"", 1, captured=262_145)
    yield "a long record without its frame", compare(program, RUN, alone, fault(2, "record 1: LongRecord 262145"))
    yield "a long record whose header is cut", compare(program, RUN, alone[:-1], fault(2, "record 1: ShortRecord"))
    longest = SOURCE + bytes(LONGEST_FRAME - len(SOURCE))
    data = capture([longest, SOURCE, longest])
    yield "the longest frames", compare(program, "run program=ddos threshold=1", data, one_core("PASS DROP DROP", 1))
    data = header() + record(longest)[:-1]
    yield "the longest frame less a byte", compare(program, RUN, data, fault(2, "record 1: ShortRecord"))


def record_limit(program):
    """A million records and more. The model is asked about two of these alone, since each takes it seconds."""
    data, other = header() + record(b"") * MOST_RECORDS, "OTHER " * MOST_RECORDS
    many = fault(6, "more than 1000000 records")
    yield "a million empty records", compare(program, RUN, data, one_core(other, 0))
    yield "a byte behind them", compare(program, RUN, data + b"\0", many)
    for name, words, more, wanted in (
            ("a million empty records, plain", PLAIN, data, plain(other, 0)),
            ("a record behind them", f"{RUN} cores=2", data + record(SOURCE), many),
            ("a record behind them, plain", PLAIN, data + record(SOURCE), many),
            ("the last of them cut", RUN, data[:-1], fault(2, "record 1000000: ShortRecord")),
            ("a million frames by load", "load program=ddos frames=1000000 hosts=1 threshold=0", b"", good(MILLION_LOADED))):
        yield name, difference(outcome(program, words.split(), more), wanted, words.split())
