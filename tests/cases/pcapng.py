"""Captures in blocks (pcapng): what is taken, what is passed over, and the first test that a block fails."""
import fractions
import math
import random
import shutil
import subprocess
import tempfile

import traffic
from blocks import (ENHANCED, INTERFACE, NAMES, OBSOLETE, SECTION, SIMPLE, STATISTICS, block, capture, enhanced, interface, option,
                    section, simple, unit)
from captures import capture as classic, header, put, record
from model import fault
from running import compare, difference, ended, outcome, start

from .known import FOUR, HEAVY, SOURCE, one_core, plain, timed

RUN = "run program=ddos threshold=2"
BEGIN = section() + interface()
FOUR_BLOCKS = capture([SOURCE] * 4)
assert len(FOUR_BLOCKS) == 352
# Where the blocks of the four packets end.
ENDS = [28, 48, 124, 200, 276, 352]


def foreign(kind, body=b"", order="<", **lengths):
    """A block that is passed over."""
    return block(kind, body, order, **lengths)


def of_front(length):
    """The outcome of so many bytes of the four packets."""
    if length < 4:
        return fault(2, "header: ShortHeader")
    if length not in ENDS:
        return fault(7, f"block {1 + sum(end < length for end in ENDS)}: Cut")
    packets = max(0, ENDS.index(length) - 1)
    return one_core(" ".join("PASS PASS DROP DROP".split()[:packets]), min(packets, 1))


def rows(program):
    """Whole captures, in both orders, and each front of one."""
    yield "four packets", compare(program, RUN, FOUR_BLOCKS, of_front(352))
    yield "big-endian", compare(program, RUN, capture([SOURCE] * 4, ">"), of_front(352))
    yield "on three cores", compare(program, f"{RUN} cores=3", FOUR_BLOCKS)
    about = {end + more for end in ENDS[2:] for more in (-13, -4, -1, 0, 1, 7, 8, 11, 12, 31, 32)}
    for length in sorted({*range(60), *about}):
        yield f"the first {length} bytes", compare(program, RUN, FOUR_BLOCKS[:min(length, 352)], of_front(min(length, 352)))
    yield "a byte behind", compare(program, RUN, FOUR_BLOCKS + b"\n", fault(7, "block 7: Cut"))
    other = FOUR_BLOCKS[:4] + FOUR[4:]
    yield "a header of the other format behind the type", compare(program, RUN, other, fault(7, "block 1: Mark"))
    yield "the type and 20 zeros", compare(program, RUN, FOUR_BLOCKS[:4] + bytes(20), fault(7, "block 1: Mark"))
    yield "not the type", compare(program, RUN, b"\x0a\x0d\x0d\x0b" + FOUR_BLOCKS[4:], fault(2, "header: Magic"))
    yield "another block first", compare(program, RUN, foreign(NAMES) + FOUR_BLOCKS, fault(2, "header: Magic"))


PACKET, LONG = enhanced(SOURCE, 1), 262_145
# What stands before a block that is refused, the block, and its cause.
FAULTS = [
    ("a mark with one bit more", b"", section(mark=0x1A2B3C4C), "Mark"), ("no mark", b"", section(mark=0), "Mark"),
    ("the mark of a second section", BEGIN, section(mark=0x4D3C2B1B), "Mark"),
    ("a mark and a length", BEGIN, section(mark=7, first=7, second=7), "Mark"),
    ("a mark and more than there is", BEGIN, section(mark=7, first=4_000), "Mark"),
    ("less than a mark", BEGIN, section()[:11], "Cut"), ("a type alone", BEGIN, PACKET[:4], "Cut"),
    *((f"a section of {size}", BEGIN, section(first=size, second=size), "Length")
      for size in (0, 12, 24, 27, 29, 30, 31, 2**32 - 1)),
    *((f"an interface of {size}", section(), interface(first=size), "Length") for size in (0, 12, 16, 19, 21, 22, 23)),
    *((f"a packet of {size}", BEGIN, enhanced(SOURCE, first=size), "Length")
      for size in (0, 12, 28, 31, 33, 77, 78, 2**31 + 1)),
    *((f"a simple packet of {size}", BEGIN, simple(SOURCE, first=size), "Length") for size in (0, 12, 15, 17, 2**32 - 3)),
    *((f"another block of {size}", BEGIN, foreign(NAMES, first=size), "Length") for size in (0, 4, 8, 11, 13, 14, 15)),
    ("a section that has all but 4 bytes", BEGIN, block(SECTION, section()[8:20]), "Length"),
    ("an interface that has all but 4 bytes", section(), block(INTERFACE, interface()[8:12]), "Length"),
    ("a packet that has all but 4 bytes", BEGIN, block(ENHANCED, enhanced(b"")[8:24]), "Length"),
    ("a simple packet that has all but 4 bytes", BEGIN, block(SIMPLE, b""), "Length"),
    ("another block that has all but 4 bytes", BEGIN, NAMES.to_bytes(4, "little") + bytes([8, 0, 0, 0]), "Length"),
    ("a length in the other order", BEGIN, foreign(NAMES, first=12 << 24), "Cut"),
    ("a length above what is there", BEGIN, foreign(NAMES, bytes(8), first=24), "Cut"),
    ("the greatest length", BEGIN, enhanced(SOURCE, first=2**32 - 4), "Cut"),
    ("4 GB to pass over", BEGIN, foreign(99, bytes(100), first=2**32 - 4), "Cut"),
    *((f"a second length of {size}, {name}", before, put(made, len(made) - 4, size.to_bytes(4, "little")), "Length")
      for size in (0, 12, 2**32 - 1) for name, before, made in (
          ("a section", b"", section()), ("an interface", section(), interface()), ("a packet", BEGIN, PACKET),
          ("a simple packet", BEGIN, simple(SOURCE)), ("another block", BEGIN, foreign(NAMES, bytes(4))))),
    ("a second length in the other order", BEGIN, put(PACKET, len(PACKET) - 4, (76).to_bytes(4, "big")), "Length"),
    ("a second length and a version", b"", section(version=(2, 0), second=32), "Length"),
    ("a second length and a unit", section(), interface(options=unit(20), second=20), "Length"),
    ("a second length and an interface", BEGIN, enhanced(SOURCE, which=1, second=72), "Length"),
    ("a version and more than there is", b"", section(version=(2, 0), first=32), "Cut"),
    ("version 0", b"", section(version=(0, 1)), "Version"), ("version 2", BEGIN, section(version=(2, 0)), "Version"),
    ("version 1 in the other order", BEGIN, put(section(), 12, b"\0\1"), "Version"),
    *((f"unit {value}", section(), interface(options=unit(value)), "Resolution") for value in (20, 99, 127, 192, 255)),
    ("a unit of the second interface", BEGIN, interface(link=7, options=option(2, b"eth") + unit(20)), "Resolution"),
    ("a unit behind others", section(), interface(options=option(1, b"a") + option(9, b"\6\6") + option(9) + unit(21)),
     "Resolution"),
    ("no interface", section(), PACKET, "Interface"), ("a simple packet, no interface", section(), simple(SOURCE), "Interface"),
    ("interface 1", BEGIN, enhanced(SOURCE, which=1), "Interface"),
    ("interface 2^32 - 1", BEGIN + interface(), enhanced(SOURCE, which=2**32 - 1), "Interface"),
    ("interface 0 in the other order", BEGIN + interface(), enhanced(SOURCE, which=1 << 24), "Interface"),
    ("an interface of the section before", BEGIN + PACKET + section(), PACKET, "Interface"),
    ("an interface and a length", BEGIN, enhanced(SOURCE, which=1, captured=LONG), "Interface"),
    ("45 bytes of 44", BEGIN, enhanced(SOURCE, captured=45), "Captured 45"),
    ("a long packet", BEGIN, enhanced(bytes(LONG)), f"Captured {LONG}"),
    ("a length of 2^32 - 1", BEGIN, enhanced(SOURCE, captured=2**32 - 1), "Captured 4294967295"),
    ("a length in the other order", BEGIN, enhanced(SOURCE, captured=1 << 24), f"Captured {1 << 24}"),
    ("options don't count", BEGIN, enhanced(SOURCE, captured=49, behind=b""), "Captured 49"),
    ("a simple packet of 45 bytes in 44", BEGIN, simple(SOURCE, 45), "Captured 45"),
    ("a long simple packet", section() + interface(snap=0), simple(bytes(LONG)), f"Captured {LONG}"),
    ("a long simple packet cut by the snap length", section() + interface(snap=LONG), simple(bytes(LONG), 2**32 - 1),
     f"Captured {LONG}"),
    ("a simple packet of 2^32 - 1", section() + interface(snap=0), simple(b"", 2**32 - 1), "Captured 4294967295"),
    ("a length and a link type", section() + interface(link=113), enhanced(SOURCE, captured=LONG), f"Captured {LONG}"),
    *((f"link type {link}", section() + interface(link=link), made, "LinkType") for link in (0, 113, 0x101, 0x100)
      for made in (PACKET, simple(SOURCE))),
    ("the link type of interface 1", BEGIN + interface(link=113) + PACKET, enhanced(SOURCE, which=1), "LinkType"),
]


def faults(program):
    """Each test, failing where it can; and what it comes before."""
    for name, before, damaged, cause in FAULTS:
        line = f"block {1 + blocks_in(before)}: {cause}"
        for behind in (b"", PACKET) if cause not in ("Cut",) else (b"",):
            yield f"{name}{', more behind' * bool(behind)}", compare(program, RUN, before + damaged + behind, fault(7, line))
    for order, other in ("<>", "><"):
        good = section(order) + interface(order=order) + enhanced(SOURCE, order=order)
        for name, damaged in (("an interface in the other order", interface(order=other)),
                              ("a cut section", section(other)[:27]), ("the length of a section", section(other, first=30)),
                              ("the version of a section", section(other, version=(256, 0)))):
            yield f"behind {order}: {name}", compare(program, RUN, good + damaged)


def blocks_in(data):
    """How many blocks there are in a part of a capture that is little-endian."""
    count = 0
    while data:
        data, count = data[int.from_bytes(data[4:8], "little"):], count + 1
    return count


def taken(program):
    """What is taken, and what is passed over."""
    two = one_core("PASS PASS", 1)
    for name, data in (
            ("minor version 99", section(version=(1, 99)) + interface() + PACKET * 2),
            ("any section length", section(size=7) + interface() + PACKET * 2),
            ("options of a section", section(options=option(2, b"Linux") + b"junk") + interface() + PACKET * 2),
            ("options of a packet, which aren't read",
             BEGIN + enhanced(SOURCE, behind=option(1, b"a comment")) + enhanced(SOURCE, behind=b"\xff" * 8)),
            ("blocks of other types", BEGIN + PACKET + b"".join(foreign(kind, bytes(kind % 9 * 4)) for kind in (
                0, 4, 5, 7, 10, 0x80000001, 0xFFFFFFFF, 0x06000000, 0x0D0A0A0D)) + PACKET),
            ("an obsolete packet", BEGIN + PACKET + block(OBSOLETE, PACKET[8:-4]) + PACKET),
            ("an interface between", BEGIN + PACKET + interface(link=113) + PACKET),
            ("interfaces of other link types, without packets", BEGIN + interface(link=113) + interface(link=0) + PACKET * 2),
            ("several interfaces",
             BEGIN + interface(options=unit(9)) * 2 + enhanced(SOURCE, which=2) + enhanced(SOURCE, which=1)),
            ("sections of both orders", BEGIN + PACKET + section(">") + interface(order=">") + enhanced(SOURCE, order=">")),
            ("a big section before", section(">") + interface(order=">") + enhanced(SOURCE, order=">") + BEGIN + PACKET),
            ("a section without blocks", section(">") + section() + BEGIN + PACKET * 2 + section(">")),
            ("more than the snap length", section() + interface(snap=1) + PACKET * 2),
            ("more behind a simple packet", BEGIN + simple(SOURCE, behind=bytes(8)) * 2),
            ("padding that isn't zero", BEGIN + enhanced(SOURCE + b"\xff\xff", captured=42, original=9_999) * 2),
            ("code 0 stops the options", section() + interface(options=option(0) + unit(99)) + PACKET * 2),
            ("code 0 of any length", section() + interface(options=option(0, b"12345") + unit(99)) + PACKET * 2),
            ("an option past the end stops them", section() + interface(options=b"\x01\0\x40\0" + unit(99)) + PACKET * 2),
            ("a unit past the end is none", section() + interface(options=b"\x09\0\x01\0") + PACKET * 2),
            ("the first unit counts", section() + interface(options=unit(6) + unit(99)) + PACKET * 2),
            ("a unit of two bytes is none", section() + interface(options=option(9, b"\x63\0")) + PACKET * 2)):
        yield name, compare(program, "run program=ddos", data, two)
    # Frames whose length is told by their captured bytes, of a flow each.
    one, other, third = (put(put(SOURCE, 16, b"\0\0"), 26, bytes([10, 0, 0, host])) for host in (1, 7, 8))
    words = "run program=heavy bytes=29"
    sizes = section() + interface(snap=0) + enhanced(one) + simple(other + bytes(4)) + simple(third + b"\1\1", 42)
    yield "the captured length counts, without padding", compare(program, words, sizes, one_core("PASS HEAVY PASS", 3, HEAVY))
    cut = section() + interface(snap=42) + simple(other + bytes(4)) + simple(third + bytes(400), 500)
    yield "a simple packet is cut by the snap length", compare(program, words, cut, one_core("PASS PASS", 2, HEAVY))
    longest = SOURCE + bytes(262_144 - len(SOURCE))
    data = section() + interface(snap=0) + enhanced(longest) + simple(longest) + PACKET
    yield "the longest packets", compare(program, RUN, data, one_core("PASS PASS DROP", 1))
    yield "no packets", compare(program, "run program=ddos", section(), one_core("", 0))


TOKEN = "plain program=bucket rate=1000000 burst=1"


def units(program):
    """Each unit: the first time at which a microsecond has gone by, and the one before."""
    for value in range(256):
        begin = section() + interface(options=unit(value))
        if 20 <= value < 128 or value > 191:
            yield f"unit {value}", compare(program, TOKEN, begin, fault(7, "block 2: Resolution"))
            continue
        units = 10**value if value < 128 else 2**(value - 128)
        first = math.ceil(fractions.Fraction(units, 1_000_000))
        data = begin + b"".join(enhanced(SOURCE, time) for time in (0, first - 1, first))
        yield f"unit {value}", compare(program, TOKEN, data, plain("PASS DROP PASS", 1))
    latest = 2**64 - 1
    for name, options, times, verdicts in (
            ("seconds saturate", unit(0), (0, latest, latest - 1, 2**63), "PASS PASS DROP DROP"),
            ("the last second that doesn't", unit(0), (latest // 10**6 - 1, latest // 10**6), "PASS PASS"),
            ("the first that does", unit(0), (latest // 10**6 + 1, latest // 10**6 + 2), "PASS DROP"),
            ("microseconds up to the last", b"", (latest - 1, latest), "PASS PASS"),
            ("the high half comes first", b"", (2**32, 2**32 + 1, 2**32 - 1), "PASS PASS DROP")):
        data = section() + interface(options=options) + b"".join(enhanced(SOURCE, time) for time in times)
        verdicts = one_core(verdicts, 1)
        yield name, compare(program, TOKEN.replace("plain", "run"), data, verdicts)
    data = BEGIN + enhanced(SOURCE, 5) + simple(SOURCE) + enhanced(SOURCE, 6)
    yield "a simple packet has time 0", compare(program, TOKEN.replace("plain", "run"), data, one_core("PASS DROP PASS", 1))


class Writer:
    """Writes random blocks, and beside them the records that they tell."""

    def __init__(self, seed):
        self.dice, self.parts, self.told = random.Random(seed), [], []
        self.begin()

    def begin(self):
        self.order, self.interfaces = self.dice.choice("<>"), []
        options = self.dice.choice([b"", option(4, b"scr", self.order)])
        self.parts.append(section(self.order, version=(1, self.dice.choice([0, 2])), options=options))
        self.add_interface()

    def add_interface(self):
        value = self.dice.choice([None, None, 0, 3, 6, 9, 19, 128, 138, 148, 191])
        snap = self.dice.choice([0, 0, 60, 262_144])
        options = self.dice.choice([b"", option(2, b"eth0", self.order)])
        if value is not None:
            options += unit(value, self.order) + self.dice.choice([b"", option(0, b"", self.order) + unit(77, self.order)])
        self.parts.append(interface(snap=snap, options=options, order=self.order))
        units = 1_000_000 if value is None else 10**value if value < 128 else 2**(value - 128)
        self.interfaces.append((snap, units))

    def add_other(self):
        kind = self.dice.choice([OBSOLETE, NAMES, STATISTICS, 10, 0x80000001])
        self.parts.append(foreign(kind, bytes(self.dice.choice([0, 4, 20, 400])), self.order))

    def add_packet(self, frame, micros):
        if self.dice.random() < 0.15:
            snap = self.interfaces[0][0]
            self.parts.append(simple(frame, behind=bytes(self.dice.choice([0, 0, 4])), order=self.order))
            return self.told.append((frame[:snap] if snap else frame, 0))
        which = self.dice.randrange(len(self.interfaces))
        units = self.interfaces[which][1]
        time = min(micros * units // 1_000_000 + self.dice.choice([0, 0, 1]), 2**64 - 1)
        behind = self.dice.choice([b"", b"", option(2, bytes(4), self.order)])
        original = len(frame) + self.dice.choice([0, 0, 1_000])
        self.parts.append(enhanced(frame, time, which, original=original, behind=behind, order=self.order))
        return self.told.append((frame, min(math.floor(fractions.Fraction(time * 1_000_000, units)), 2**64 - 1)))


def written(seed, frames):
    """A capture in blocks, and the same records in the libpcap file format."""
    writer = Writer(seed)
    connections, micros = traffic.Connections(writer.dice), 1_000_000
    while len(writer.told) < frames:
        step = writer.dice.random()
        if step < 0.03:
            writer.begin()
        elif step < 0.08:
            writer.add_interface()
        elif step < 0.15:
            writer.add_other()
        else:
            micros += writer.dice.choice([0, 1, 10, 1_000, 250_000])
            writer.add_packet(traffic.frame(writer.dice, connections), micros)
    records = b"".join(record(frame, *divmod(time, 1_000_000)) for frame, time in writer.told)
    return b"".join(writer.parts), header() + records


def random_blocks(program):
    """Random captures in blocks, against the model and against the same records in the other format; and damaged ones."""
    for seed in range(9_000, 9_035):
        data, other = written(seed, 150)
        chosen = traffic.RUN[seed % 7]
        words = f"{('run', 'plain')[seed % 2]} program={chosen} {traffic.settings(seed, chosen)}".split()
        words += [f"cores={1 + seed % 5}", "drop=" + traffic.drop_list(seed, 150)] if seed % 2 == 0 else []
        yield f"seed {seed}", compare(program, words, data)
        wanted = outcome(program, words, other)
        yield f"seed {seed}, as the other format", difference(outcome(program, words, data), wanted, words)
    for seed in range(9_100, 9_160):
        dice, (data, _) = random.Random(seed), written(seed, 20)
        at = dice.randrange(4, len(data))
        word = bytes([dice.choice([0, 1, 3, 6, 12, 32]), 0, 0, 0])
        damaged = dice.choice([data[:at], data[:at] + bytes(4) + data[at:], data[:at] + data[at + 4:],
                               put(data, at, bytes([dice.randrange(256)])), put(data, at // 4 * 4, word)])
        yield f"damaged, seed {seed}", compare(program, RUN, damaged)


def block_limits(program):
    """A million packets and more, four million blocks and more, and blocks that are far longer than memory."""
    other, empty = "OTHER " * 1_000_000, simple(b"")
    data = BEGIN + empty * 1_000_000
    many = fault(6, "more than 1000000 records")
    for name, more, wanted in (
            ("a million packets", b"", one_core(other, 0)), ("another block behind them", foreign(NAMES), one_core(other, 0)),
            ("a packet behind them", PACKET, many), ("a packet that is cut", PACKET[:-1], fault(7, "block 1000003: Cut")),
            ("a packet of another interface", enhanced(SOURCE, which=1), fault(7, "block 1000003: Interface"))):
        yield name, difference(outcome(program, RUN.split(), data + more), wanted, RUN.split())
    data = section() + foreign(NAMES) * 3_999_999
    for name, more, wanted in (("four million blocks", b"", one_core("", 0)),
                               ("a byte behind them", b"\n", fault(7, "more than 4000000 blocks"))):
        yield name, difference(outcome(program, RUN.split(), data + more), wanted, RUN.split())
    size = (2**28).to_bytes(4, "little")
    for name, front, verdicts in (("a long block", BEGIN + (99).to_bytes(4, "little") + size, "PASS"),
                                  ("long options of a packet", BEGIN + put(PACKET[:-4], 4, size), "PASS PASS")):
        with tempfile.TemporaryFile() as file:
            file.write(front)
            file.seek(len(BEGIN) + 2**28 - 4)
            file.write(size + PACKET)
            file.seek(0)
            found = ended(start(program, RUN.split(), memory=2**27, stdin=file))
        yield f"{name}, in little memory", difference(found, one_core(verdicts, 1), RUN.split())


def converted(program):
    """What other programs make of a capture has the same report. Where they aren't there nothing is tried."""
    for tool in filter(shutil.which, ("tcpdump", "editcap")):
        for seed in range(9_200, 9_206):
            dice = random.Random(seed)
            connections = traffic.Connections(dice)
            frames = [traffic.frame(dice, connections) for _ in range(120)]
            # tcpdump writes the libpcap file format alone.
            in_blocks = tool == "tcpdump" or seed % 2 == 0
            data = capture(frames, dice.choice("<>")) if in_blocks else classic(frames)
            words = f"plain program={traffic.PROGRAMS[seed % 5]}".split()
            found = outcome(program, words, made_by(tool, data, "pcap" if in_blocks else "pcapng"))
            yield f"{tool}, seed {seed}", difference(found, outcome(program, words, data), words)


def merged(program):
    """A capture that mergecap makes of another and itself: two interfaces, with each frame twice."""
    if not shutil.which("mergecap"):
        return
    for seed in range(9_300, 9_304):
        dice = random.Random(seed)
        connections = traffic.Connections(dice)
        frames = [traffic.frame(dice, connections) for _ in range(80)]
        twice = timed([frame for frame in frames for _ in range(2)], [second // 2 * 1_000_000 for second in range(2, 162)])
        words = f"plain program={traffic.PROGRAMS[seed % 5]}".split()
        found = outcome(program, words, made_by("mergecap", classic(frames), "pcapng"))
        yield f"seed {seed}", difference(found, outcome(program, words, twice), words)


def made_by(tool, data, form):
    """The capture in another form."""
    with tempfile.TemporaryDirectory() as folder:
        one, other = f"{folder}/one", f"{folder}/other"
        with open(one, "wb") as file:
            file.write(data)
        call = {"tcpdump": ["-r", one, "-w", other], "editcap": ["-F", form, one, other],
                "mergecap": ["-F", form, "-w", other, one, one]}[tool]
        subprocess.run([tool, *call], check=True, stdout=subprocess.DEVNULL, stderr=subprocess.DEVNULL)
        with open(other, "rb") as file:
            return file.read()
