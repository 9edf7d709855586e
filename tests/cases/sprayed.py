"""What the cores are delivered as a stream: written by `spray`, read by `replay`, and refused with the first cause."""
from captures import put
from model import Outcome, answer, fault
from running import compare, difference, outcome, shown
from traffic import capture as random_capture, dealt, link, settings

from .known import FOUR, whole

FIVE = ("ddos", "heavy", "bucket", "knock", "conn")
# Four frames on two cores, of which the second is lost, and each carries the packet before it.
LOSSY = "program=ddos threshold=2 cores=2 history=1 drop=2"
REPLAY = "replay program=ddos threshold=2"
ROW = bytes(8) + bytes.fromhex("000000000A000001") + bytes(16) + bytes.fromhex("0000000000000003") + bytes(16)
HEADER = b"SCRS" + bytes([1, 0, 2, 1])
END = bytes.fromhex("53430203 00000004 0000")


def frame(number, rows):
    """A frame's message, with the row of frame A so many times."""
    return bytes.fromhex("53430201") + number.to_bytes(4, "big") + rows.to_bytes(2, "big") + ROW * rows


STREAM = HEADER + frame(1, 1) + frame(3, 2) + frame(4, 2) + END
FIRST, THIRD, FOURTH, LAST = 8, 74, 196, 318
LOSSY_REPORT = whole([(1, "PASS"), (3, "DROP"), (4, "DROP")], (4, 3, 4), [(2, 3, 1, 0), (1, 2, 2, 0)], 1)
assert (len(STREAM), STREAM[LAST:]) == (328, END)


def rows(program):
    """The stream of four frames, written and read; and its report."""
    yield "written", compare(program, f"spray {LOSSY}", FOUR, Outcome(0, STREAM, b""))
    yield "read", compare(program, REPLAY, STREAM, LOSSY_REPORT)
    yield "as run writes it", difference(outcome(program, f"run {LOSSY}".split(), FOUR), LOSSY_REPORT)
    yield "cut by a byte", compare(program, REPLAY, STREAM[:-1], fault(8, "entry 4: Cut"))
    yield "of another program", compare(program, "replay program=heavy", STREAM, fault(8, "stream: Program"))
    nothing = Outcome(0, HEADER[:6] + b"\x01\x00" + END[:4] + bytes(6), b"")
    yield "of no frames", compare(program, "spray program=ddos", FOUR[:24], nothing)
    late = "program=ddos threshold=2 cores=2 history=0 delay=1:3"
    again = outcome(program, f"spray {late}".split(), FOUR)
    report = whole([(2, "PASS"), (3, "PASS"), (4, "DROP")], (4, 3, 3), [(1, 1, 2, 1), (2, 2, 1, 1)], 1)
    yield "of a frame that comes too late", compare(program, REPLAY, again.out, report)
    for name, text in (("ring", "1"), ("ring", "4096"), ("threads", "no"), ("threads", "yes")):
        yield f"read with {name}={text}", compare(program, f"{REPLAY} {name}={text}", STREAM, LOSSY_REPORT)


# A stream with bytes changed from some place on, and the line that refuses it.
CHANGED = [
    (0, "54", "stream: Mark"), (3, "73", "stream: Mark"), (4, "02", "stream: Version"), (4, "00", "stream: Version"),
    (5, "01", "stream: Program"), (5, "05", "stream: Program"), (6, "00", "stream: Shape"), (6, "11", "stream: Shape"),
    (7, "41", "stream: Shape"), (7, "FF", "stream: Shape"), (0, "00 00 00 00 00 FF FF FF", "stream: Mark"),
    (4, "00 FF FF FF", "stream: Version"), (5, "FF 00 FF", "stream: Program"),
    (FIRST, "54", "entry 1: Message Mark"), (FIRST + 1, "44", "entry 1: Message Mark"),
    (FIRST + 2, "01", "entry 1: Message Version"), (FIRST + 3, "00", "entry 1: Message Kind"),
    (FIRST + 3, "04", "entry 1: Message Kind"), (FIRST + 8, "00 00", "entry 1: Message Count"),
    (FIRST + 8, "00 02", "entry 1: Message Count"), (THIRD + 4, "00 00 00 64 00 42", "entry 2: Message Count"),
    (FIRST + 4, "00 00 00 00", "entry 1: Message Count"), (LAST + 9, "01", "entry 4: Message Count"),
    (THIRD + 3, "02 00 00 00 03 00 01", "entry 2: Message Count"), (THIRD + 3, "02 00 00 00 03 00 00", "entry 2: Beacon"),
    (FIRST + 3, "02 00 00 00 00 00 00", "entry 1: Beacon"), (LAST + 3, "02", "entry 4: Beacon"),
    (THIRD + 4, "00 00 00 01 00 01", "entry 2: Number"), (FOURTH + 4, "00 00 00 03", "entry 3: Number"),
    (FOURTH + 4, "00 00 00 02", "entry 3: Number"), (FOURTH + 4, "00 0F 42 41", "entry 3: Number"),
    (FOURTH + 4, "FF FF FF FF", "entry 3: Number"), (LAST + 4, "00 00 00 03", "entry 4: Number"),
    (LAST + 4, "00 0F 42 41", "entry 4: Number"), (7, "00", "entry 2: Rows"), (7, "02", "entry 2: Rows"),
    (THIRD + 8, "00 01", "entry 2: Rows"), (THIRD + 8, "00 03", "entry 2: Rows"), (FOURTH + 8, "00 03", "entry 3: Rows"),
    (FOURTH + 10 + 55, "01", "entry 3: Differs"), (FOURTH + 10, "80", "entry 3: Differs"),
    (THIRD + 10 + 56, "01", "entry 3: Differs"),
]


def changed(program):
    """Streams with some bytes changed, one fault each or several, of which the first is told."""
    for at, text, cause in CHANGED:
        yield f"{text} at {at}", compare(program, REPLAY, put(STREAM, at, bytes.fromhex(text)), fault(8, cause))
    for more in (b"\0", STREAM):
        yield f"{len(more)} bytes behind", compare(program, REPLAY, STREAM + more, fault(8, "stream: Trailing"))
    yield "a capture", compare(program, REPLAY, FOUR, fault(8, "stream: Mark"))
    yield "a stream as a capture", compare(program, "run program=ddos", STREAM, fault(2, "header: Magic"))
    # An end above the last frame is taken, and the numbers between are missing.
    report = whole([(1, "PASS"), (3, "DROP"), (4, "DROP")], (9, 3, 4), [(2, 3, 1, 5), (1, 2, 2, 5)], 1)
    yield "an end above the last frame", compare(program, REPLAY, put(STREAM, LAST + 4, bytes.fromhex("00000009")), report)
    yield "a row of a packet that one frame carries", compare(program, REPLAY, put(STREAM, THIRD + 10, b"\x80"))
    # Of a row no field is tested: a kind that isn't known is looked at by no program.
    for kind in (0, 1, 2, 4, 255):
        other = STREAM.replace(ROW, put(ROW, 39, bytes([kind])))
        yield f"rows of kind {kind}", compare(program, REPLAY, other)


def prefixes(program):
    """Each prefix of a stream."""
    for length in range(len(STREAM)):
        at = sum(length >= start for start in (THIRD, FOURTH, LAST))
        cause = "stream: ShortHeader" if length < len(HEADER) else f"entry {at + 1}: Cut"
        yield f"{length} bytes", compare(program, REPLAY, STREAM[:length], fault(8, cause))


def over_links(program):
    """What is sprayed and replayed has the report of the run, for each program over all kinds of links."""
    for seed in range(600, 680):
        chosen = FIVE[seed % len(FIVE)]
        data, words = dealt(seed)
        words = [f"program={chosen}", *settings(seed, chosen).split(), *(word for word in words if not word.startswith("ring"))]
        sprayed = outcome(program, ["spray", *words], data)
        yield f"seed {seed}, written", difference(sprayed, answer(["spray", *words], data), words)
        own = [word for word in words if word.partition("=")[0] not in ("cores", "history", "drop", "repeat", "delay")]
        own += [f"ring={(1, 3, 1_024)[seed % 3]}", f"threads={('yes', 'no')[seed % 2]}"]
        ran = outcome(program, ["run", *words], data)
        yield f"seed {seed}, read", difference(outcome(program, ["replay", *own], sprayed.out), ran, ["replay", *own])


def long_streams(program):
    """Longer streams, with the longest history too."""
    data, lost = random_capture(700, 4_000), " ".join(link(700, 4_000))
    for more in ("cores=16 history=64", "cores=3", "cores=1 history=0"):
        words = f"program=conn {more} {lost}"
        sprayed = outcome(program, f"spray {words}".split(), data)
        ran = outcome(program, f"run {words}".split(), data)
        yield more, difference(outcome(program, "replay program=conn".split(), sprayed.out), ran, [shown(words.split())])


def damaged_streams(program):
    """Each byte of a stream turned in one bit, as the model says."""
    for at in range(0, len(STREAM), 3):
        other = put(STREAM, at, bytes([STREAM[at] ^ 1 << at % 8]))
        yield f"byte {at}", compare(program, REPLAY, other)
