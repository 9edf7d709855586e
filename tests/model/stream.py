"""A stream: what the cores are delivered, as `spray` writes it; and its reading, or the first test that fails."""
import collections
import itertools

from .frames import Fields
from .plan import Link, Plan
from .programs import PROGRAMS
from .reading import MOST_RECORDS, Malformed

MARK, VERSION = b"SCRS", 1
MESSAGE_MARK, MESSAGE_VERSION = b"SC", 2
FRAME, BEACON, END = 1, 2, 3
MOST_CORES, LONGEST_HISTORY = 16, 64
WORD, ROW, HEADER, MESSAGE = 8, 56, 8, 10
CODES = {name: code for code, name in enumerate(PROGRAMS)}
KINDS = ("Other", "Bare", "Tcp", "Udp")
# The fields in a program's row. Each has the family and the kind too.
FLOW = ("source", "destination", "source_port", "destination_port", "protocol")
ROW_FIELDS = {
    "ddos": ("source",), "heavy": (*FLOW, "length"), "bucket": (*FLOW, "time"), "knock": ("source", "destination_port"),
    "conn": (*FLOW, "flags", "time"),
}

Packet = collections.namedtuple("Packet", "time frame")


def row_of(program, packet):
    """The seven words of a packet's row; all zeros where the program doesn't look at its kind."""
    if packet.frame.kind not in PROGRAMS[program].kinds:
        return (0,) * 7
    fields = {**packet.frame._asdict(), "time": packet.time}
    has = {name: fields[name] if name in ROW_FIELDS[program] else 0 for name in (*FLOW, "flags", "time", "length")}
    small = has["source_port"] << 48 | has["destination_port"] << 32 | has["protocol"] << 24 | has["flags"] << 16
    small |= fields["family"] << 8 | KINDS.index(fields["kind"])
    return (*divmod(has["source"], 2**64), *divmod(has["destination"], 2**64), small, has["time"], has["length"])


def packet_of(row):
    """The packet that a row stands for. No field is tested; a kind that isn't known is looked at by no program."""
    source, destination, small = row[0] << 64 | row[1], row[2] << 64 | row[3], row[4]
    kind = KINDS[small % 256] if small % 256 < len(KINDS) else "Other"
    ports = (small >> 48, (small >> 32) % 2**16)
    fields = Fields(kind, (small >> 8) % 256, source, destination, *ports, (small >> 24) % 256, (small >> 16) % 256, row[6])
    return Packet(row[5], fields)


def message(kind, number, rows=()):
    head = MESSAGE_MARK + bytes([MESSAGE_VERSION, kind]) + number.to_bytes(4, "big") + len(rows).to_bytes(2, "big")
    return head + b"".join(word.to_bytes(WORD, "big") for word in itertools.chain.from_iterable(rows))


def streamed(program, planned, packets):
    """The stream of a run: a header, the message of each delivered frame in order, and the end."""
    rows = [row_of(program, packet) for packet in packets]
    pieces = [MARK, bytes([VERSION, CODES[program], planned.cores, planned.history])]
    for number in planned.delivered:
        pieces.append(message(FRAME, number, rows[max(0, number - 1 - planned.history):number]))
    return b"".join([*pieces, message(END, len(rows))])


def shape_of(program, data):
    """The cores and the history that stand in the header."""
    cores, history = data[6:8] if len(data) >= HEADER else (0, 0)
    for fails, cause in ((len(data) < HEADER, "ShortHeader"), (data[:4] != MARK, "Mark"), (data[4:5] != bytes([VERSION]), "Version"),
                         (data[5:6] != bytes([CODES[program]]), "Program"),
                         (not 1 <= cores <= MOST_CORES or history > LONGEST_HISTORY, "Shape")):
        if fails:
            raise Malformed(8, f"stream: {cause}")
    return cores, history


def why_no_message(head):
    """Why ten bytes are the beginning of no message."""
    kind, number, count = head[3], int.from_bytes(head[4:8], "big"), int.from_bytes(head[8:10], "big")
    if head[:2] != MESSAGE_MARK:
        return "Mark"
    if head[2] != MESSAGE_VERSION:
        return "Version"
    if kind not in (FRAME, BEACON, END):
        return "Kind"
    if kind == FRAME:
        return None if 1 <= count <= min(number, LONGEST_HISTORY + 1) else "Count"
    return "Count" if count else None


def why_no_entry(head, last, history):
    """Why ten bytes begin no entry behind the frame with the last number."""
    cause = why_no_message(head)
    if cause:
        return f"Message {cause}"
    kind, number, count = head[3], int.from_bytes(head[4:8], "big"), int.from_bytes(head[8:10], "big")
    if kind == BEACON:
        return "Beacon"
    if number > MOST_RECORDS or number < last or kind == FRAME and number == last:
        return "Number"
    return "Rows" if kind == FRAME and count != min(number, history + 1) else None


def rows_in(data):
    """The rows in the bytes behind a message's header."""
    words = [int.from_bytes(data[at:at + WORD], "big") for at in range(0, len(data), WORD)]
    return [tuple(words[at:at + ROW // WORD]) for at in range(0, len(words), ROW // WORD)]


def read(program, data):
    """The plan that a stream stands for, and the packet of each number that some frame carries."""
    cores, history = shape_of(program, data)
    rows, frames, at = {}, [], HEADER
    while True:
        entry, head, last = len(frames) + 1, data[at:at + MESSAGE], frames[-1] if frames else 0
        cause = "Cut" if len(head) < MESSAGE else why_no_entry(head, last, history)
        if cause:
            raise Malformed(8, f"entry {entry}: {cause}")
        number, size = int.from_bytes(head[4:8], "big"), MESSAGE + ROW * int.from_bytes(head[8:10], "big")
        if head[3] == END:
            break
        if len(data) < at + size:
            raise Malformed(8, f"entry {entry}: Cut")
        carried = rows_in(data[at + MESSAGE:at + size])
        for packet, row in enumerate(carried, number + 1 - len(carried)):
            if rows.setdefault(packet, row) != row:
                raise Malformed(8, f"entry {entry}: Differs")
        frames.append(number)
        at += size
    if len(data) > at + MESSAGE:
        raise Malformed(8, "stream: Trailing")
    missing = [(each, each, 1) for each in sorted(set(range(1, number + 1)) - set(frames))]
    return Plan(number, cores, history, Link(missing)), {packet: packet_of(row) for packet, row in rows.items()}
