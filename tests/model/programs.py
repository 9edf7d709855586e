"""The five programs, each as a step on a table: a packet that is looked at, the verdict, and the table behind it."""
import collections

IP = ("Bare", "Tcp", "Udp")
MILLION = 1_000_000
LARGEST = 2**64 - 1


class Table:
    """At most so many entries, the most recently used last."""

    def __init__(self, most):
        self.most, self.entries = most, collections.OrderedDict()

    def get(self, key, absent=None):
        return self.entries.get(key, absent)

    def set(self, key, entry):
        self.entries.pop(key, None)
        if len(self.entries) == self.most:
            self.entries.popitem(last=False)
        self.entries[key] = entry


def source(packet):
    return packet.frame.family, packet.frame.source


def five_tuple(packet):
    frame = packet.frame
    return frame.family, frame.source, frame.destination, frame.source_port, frame.destination_port, frame.protocol


def ddos(table, packet, given):
    """The first packets of a source pass."""
    count = min(table.get(source(packet), 0) + 1, LARGEST)
    table.set(source(packet), count)
    return "DROP" if count > given["threshold"] else "PASS"


def heavy(table, packet, given):
    """A flow is heavy from the packet on that brings its bytes to the limit."""
    total = min(table.get(five_tuple(packet), 0) + packet.frame.length, LARGEST)
    table.set(five_tuple(packet), total)
    return "HEAVY" if total >= given["bytes"] else "PASS"


def bucket(table, packet, given):
    """A flow has a bucket of tokens, full at first, and each packet that passes takes one. Held are millionths of a token."""
    full = given["burst"] * MILLION
    held, last = table.get(five_tuple(packet), (full, packet.time))
    elapsed = max(0, packet.time - last)
    held = min(full, held + elapsed * given["rate"])
    passes = held >= MILLION
    table.set(five_tuple(packet), (held - MILLION if passes else held, max(last, packet.time)))
    return "PASS" if passes else "DROP"


def knock(table, packet, given):
    """A source that knocks at three ports in order may pass from then on."""
    place, port = table.get(source(packet), 0), packet.frame.destination_port
    if place == "open":
        after = "open"
    elif port == given["ports"][place]:
        after = (1, 2, "open")[place]
    else:
        after = 1 if port == given["ports"][0] else 0
    table.set(source(packet), after)
    return "PASS" if place == "open" else "DROP"


# For a state and the end that sends: the verdicts at R (a reset), SA, S, F and A. A star makes the sender the entry's side.
CONNECTIONS = {
    ("absent", "near"): "INVALID INVALID SYN_SENT* INVALID INVALID",
    ("absent", "far"): "INVALID INVALID SYN_SENT* INVALID INVALID",
    ("SYN_SENT", "near"): "CLOSED INVALID SYN_SENT INVALID INVALID",
    ("SYN_SENT", "far"): "CLOSED SYN_RECV INVALID INVALID INVALID",
    ("SYN_RECV", "near"): "CLOSED INVALID SYN_RECV FIN_WAIT* ESTABLISHED",
    ("SYN_RECV", "far"): "CLOSED SYN_RECV INVALID FIN_WAIT* SYN_RECV",
    ("ESTABLISHED", "near"): "CLOSED INVALID INVALID FIN_WAIT* ESTABLISHED",
    ("ESTABLISHED", "far"): "CLOSED ESTABLISHED INVALID FIN_WAIT* ESTABLISHED",
    ("FIN_WAIT", "near"): "CLOSED INVALID INVALID FIN_WAIT FIN_WAIT",
    ("FIN_WAIT", "far"): "CLOSED INVALID INVALID LAST_ACK FIN_WAIT",
    ("LAST_ACK", "near"): "CLOSED INVALID INVALID LAST_ACK TIME_WAIT",
    ("LAST_ACK", "far"): "CLOSED INVALID INVALID LAST_ACK LAST_ACK",
    ("TIME_WAIT", "near"): "CLOSED INVALID SYN_SENT* TIME_WAIT TIME_WAIT",
    ("TIME_WAIT", "far"): "CLOSED INVALID SYN_SENT* TIME_WAIT TIME_WAIT",
    ("CLOSED", "near"): "CLOSED INVALID SYN_SENT* INVALID INVALID",
    ("CLOSED", "far"): "CLOSED INVALID SYN_SENT* INVALID INVALID",
}
CLASSES = ("R", "SA", "S", "F", "A")
FIN, SYN, RST, ACK = 1, 2, 4, 16
Connection = collections.namedtuple("Connection", "state side time")


def flag_class(flags):
    """The class of a segment's flags, or None for those that are never valid."""
    if flags & RST:
        return "R"
    if flags & SYN:
        return None if flags & FIN else "SA" if flags & ACK else "S"
    return "F" if flags & FIN else "A" if flags & ACK else None


def conn(table, packet, given):
    """A connection's state after the packet; what doesn't fit its state is INVALID and changes nothing."""
    frame = packet.frame
    ends = [(frame.family, frame.source, frame.source_port), (frame.family, frame.destination, frame.destination_port)]
    key, sender = tuple(sorted(ends)), "low" if ends[0] <= ends[1] else "high"
    entry = table.get(key)
    if entry and packet.time - entry.time > given["idle"]:
        entry = None
    entry = entry or Connection("absent", sender, 0)
    answers = CONNECTIONS[entry.state, "near" if sender == entry.side else "far"].split()
    answer = dict(zip(CLASSES, answers)).get(flag_class(frame.flags), "INVALID")
    if answer == "INVALID":
        return answer
    side = sender if answer.endswith("*") else entry.side
    table.set(key, Connection(answer.rstrip("*"), side, max(entry.time, packet.time)))
    return answer.rstrip("*")


Program = collections.namedtuple("Program", "names kinds step")
PASSING = ("PASS", "DROP", "OTHER")
STATES = ("SYN_SENT", "SYN_RECV", "ESTABLISHED", "FIN_WAIT", "LAST_ACK", "TIME_WAIT", "CLOSED", "INVALID", "OTHER")
PROGRAMS = {
    "ddos": Program(PASSING, IP, ddos),
    "heavy": Program(("PASS", "HEAVY", "OTHER"), IP, heavy),
    "bucket": Program(PASSING, IP, bucket),
    "knock": Program(PASSING, ("Tcp", "Udp"), knock),
    "conn": Program(STATES, ("Tcp",), conn),
}
