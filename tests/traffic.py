"""Random captures, the same for the same seed: frames of all kinds from a few ends, in all forms of a capture."""
import random

from captures import (IPV4, MICROSECONDS, NANOSECONDS, TCP, arp, ethernet, header, ipv4, ipv6, put, record, tagged, tcp, udp,
                      udp6)

ENDS = ["10.0.0.1", "10.0.0.2", "10.0.0.3", "192.0.2.1", "255.255.255.255"]
ENDS6 = ["2001:db8::1", "2001:db8::2", "::10.0.0.1", "::10.0.0.2", "ffff:ffff:ffff:ffff:ffff:ffff:ffff:ffff"]
PORTS = [7_000, 8_000, 9_000, 22, 80]
FLAGS = [0x02, 0x12, 0x10, 0x10, 0x18, 0x11, 0x11, 0x04, 0x14, 0x03, 0x00, 0xC2]


def tcp6(source, destination, ports, flags):
    return ipv6(source, destination, TCP, tcp("0.0.0.0", "0.0.0.0", ports, flags)[34:])


# A connection's usual course: whether its opener sends, and the flags.
COURSE = [(True, 0x02), (False, 0x12), (True, 0x10), (False, 0x18), (True, 0x11), (False, 0x10), (False, 0x11), (True, 0x10)]


def datagram(dice):
    """A datagram, often of one of few flows."""
    ends, make = dice.choice([(ENDS, udp), (ENDS[:2], udp), (ENDS6, udp6)])
    ports = (40_000, 53) if dice.random() < 0.5 else (dice.choice([40_000, 40_001]), dice.choice(PORTS))
    destination = ends[1] if dice.random() < 0.5 else dice.choice(ends)
    return make(dice.choice(ends), destination, ports, bytes(dice.choice([0, 0, 1, 30, 500])))


def segment(dice):
    """A segment with any flags, of one of few connections, either way."""
    ends, make = dice.choice([(ENDS, tcp), (ENDS[:2], tcp), (ENDS6[:3], tcp6)])
    one, other = (dice.choice(ends[:2]), 40_000), (dice.choice(ends), 80)
    (source, port), (destination, other_port) = (one, other) if dice.random() < 0.5 else (other, one)
    return make(source, destination, (port, other_port), dice.choice(FLAGS))


class Connections:
    """A few connections that go their usual course, but for what `segment` puts between, and often end otherwise."""

    def __init__(self, dice):
        self.dice, self.steps = dice, [0] * 4

    def next(self):
        which = self.dice.randrange(len(self.steps))
        step = self.steps[which]
        self.steps[which] = self.dice.choice([step + 1] * 8 + [step, step, 0, 4, step + 2]) % len(COURSE)
        from_opener, flags = COURSE[step]
        ends = (ENDS6[:2], tcp6) if which == 3 else ((ENDS[which % 2], ENDS[3]), tcp)
        (one, other), make = ends
        opener, answers = ((one, 40_000), (other, 80)) if which != 2 else ((other, 40_000), (one, 80))
        (source, port), (destination, other_port) = (opener, answers) if from_opener else (answers, opener)
        return make(source, destination, (port, other_port), flags)


def fragment(dice):
    return put(datagram(dice), 20, dice.choice([b"\0\1", b"\x20\0", b"\x20\x10", b"\x1f\xff"]))


def with_options(dice):
    words = dice.randrange(0, 16)
    frame = segment(dice)
    return put(frame[:34] + bytes(dice.choice([0, 4, 40])) + frame[34:], 14, bytes([0x40 + words]))


def with_length(dice):
    """A frame whose IP header says another length."""
    frame = dice.choice([datagram, segment])(dice)
    return put(frame, 18 if frame[12:14] == b"\x86\xdd" else 16,
               dice.choice([0, 7, 8, 19, 20, 27, 28, 39, 40, 1_500, 65_535]).to_bytes(2, "big"))


def cut(dice):
    frame = dice.choice([datagram, segment])(dice)
    return frame[:dice.randrange(len(frame))]


def damaged(dice):
    frame = dice.choice([datagram, segment])(dice)
    return put(frame, dice.randrange(12, min(len(frame), 54)), bytes([dice.randrange(256)]))


def other_protocol(dice):
    payload = bytes(dice.choice([0, 8, 64]))
    if dice.random() < 0.5:
        return ipv4(*dice.choices(ENDS, k=2), dice.choice([0, 1, 47, 255]), payload)
    return ipv6(*dice.choices(ENDS6, k=2), dice.choice([0, 43, 44, 58, 59]), payload)


def no_packet(dice):
    noise = bytes(dice.randrange(256) for _ in range(60))
    return dice.choice([b"", bytes(13), arp(), ethernet(IPV4, b""), noise, tagged(tagged(udp("10.0.0.1")))])


FORMS = [datagram] * 8 + [segment] * 3 + [fragment, with_options, with_length, cut, damaged, damaged, other_protocol, no_packet]


def frame(dice, connections):
    made = connections.next() if dice.random() < 0.4 else dice.choice(FORMS)(dice)
    if dice.random() < 0.1:
        made = tagged(made, dice.choice([0, 5, 0xFFFF]))
    return made + bytes(dice.choice([0, 0, 0, 0, 6]))


def times(dice, unit):
    """Seconds and fractions that mostly grow, sometimes stand still or go back, and sometimes leap."""
    now = dice.choice([0, 1_000_000, 1_700_000_000 * 1_000_000])
    while True:
        leap = dice.choice([0, 0, 0, 1, 10, 10, 999, 1_000, 1_001, 250_000, 1_000_000, -1, -5_000])
        leap = dice.choice([60_000_000, 60_000_001, -2_000_000]) if dice.random() < 0.04 else leap
        now = max(0, now + leap)
        seconds, fraction = divmod(now, 1_000_000)
        if dice.random() < 0.01:
            seconds, fraction = dice.choice([(2**32 - 1, 2**32 - 1), (seconds, 2**32 - 1), (0, 1_000_000)])
        if unit == NANOSECONDS:
            fraction = fraction * 1_000 + dice.randrange(1_000)
        yield seconds, min(fraction, 2**32 - 1)


def capture(seed, frames, different=None):
    """A capture of so many frames; where different is given, each of them is one of so many."""
    dice = random.Random(seed)
    order, unit = dice.choice("<>"), dice.choice([MICROSECONDS, NANOSECONDS])
    connections = Connections(dice)
    few = [frame(dice, connections) for _ in range(different)] if different else None
    clock = times(dice, unit)
    parts = [header(unit, order=order)]
    for _ in range(frames):
        made = dice.choice(few) if few else frame(dice, connections)
        parts.append(record(made, *next(clock), original=len(made) + dice.choice([0, 0, 1_000]), order=order))
    return b"".join(parts)


def own_settings(choose, program):
    """Operands of one of the five programs."""
    return {
        "ddos": [f"threshold={choose(0, 1, 2, 5, 20)}"],
        "heavy": [f"bytes={choose(1, 29, 56, 100, 500, 2_000)}"],
        "bucket": [f"rate={choose(0, 0, 1, 3, 1_000, 10**9)}", f"burst={choose(1, 1, 2, 2, 5, 10**9)}"],
        "knock": [choose("ports=7000,8000,9000", "ports=80,80,80", "ports=7000,7000,8000", "ports=8000,80,7000", "")],
        "conn": [choose("idle=1", "idle=1000", "idle=1000000", "idle=10000000000000", "", "")],
    }[program]


PROGRAMS = ("ddos", "heavy", "bucket", "knock", "conn")
PAIRS = [(first, second) for first in PROGRAMS[:4] for second in PROGRAMS if first != second]
# What a call can run.
RUN = (*PROGRAMS, "chain", "table")


def settings(seed, program, pair=None):
    """Operands of a program that give mixed verdicts over such captures. A chain is one of this pair, or of any."""
    dice = random.Random(seed)
    choose = lambda *values: dice.choice(values)
    if program == "chain":
        first, second = pair or dice.choice(PAIRS)
        words = [f"first={first}", f"second={second}", *own_settings(choose, first), *own_settings(choose, second)]
    else:
        words = [f"table={table(dice)}"] if program == "table" else own_settings(choose, program)
    return " ".join(filter(None, [*words, choose("", "", "flows=1", "flows=2", "flows=3", "flows=7", "flows=65536")]))


def match(dice):
    return dice.choice(["t", "u", f"d{dice.choice([*PORTS, 53, 80, 0, 40_000])}", f"f{dice.choice([*FLAGS, 2, 16, 255])}"])


def table(dice):
    """A table whose states all can be reached, most of them, with rules that hold of some packets; in any order."""
    states = dice.sample(range(1, 16), dice.randrange(6)) + [0]
    rules = [f"{state}:*>{dice.choice(states)}/{dice.choice('PD')}" for state in states]
    rules += [f"{dice.choice(states)}:{match(dice)}>{dice.choice(states)}/{dice.choice('PD')}"
              for _ in range(dice.choice([0, 3, 10, 20]))]
    rules += [f"{dice.randrange(16)}:{match(dice)}>0/D"] * dice.randrange(2)
    dice.shuffle(rules)
    # Most of the rules for any packet come last, where they leave the others something.
    return ",".join(sorted(rules, key=lambda rule: "*" in rule and dice.random() < 0.8))


def drop_list(seed, frames):
    """A drop list of a few pieces, in any order, some over each other, some behind the last frame."""
    dice, pieces = random.Random(seed), []
    for _ in range(dice.randrange(1, 8)):
        first = dice.randrange(1, frames + 5)
        last = first + dice.choice([0, 1, 5, 40, frames])
        pieces.append(dice.choice([f"{first}", f"{first}-{last}", f"{first}-{last}/{dice.choice([1, 2, 3, 7, 64, 10**9])}"]))
    return ",".join(pieces)


def delay_list(seed, frames):
    """Delays of some frames, in any order: of a few steps or many, about the beacons, at the end, and behind it."""
    dice = random.Random(seed)
    about = [256, 257, 512, frames, frames + 3]
    some = [dice.choice(about) - dice.randrange(20) if dice.random() < 0.4 else dice.randrange(1, frames + 5)
            for _ in range(dice.choice([1, 4, 15, 60]))]
    chosen = list(dict.fromkeys(frame for frame in some if frame > 0))
    return ",".join(f"{frame}:{dice.choice([1, 1, 1, 2, 3, 5, 9, 16, 17, 40, 256, 1_000])}" for frame in chosen)


def link(seed, frames):
    """Operands of a link that loses, repeats and delays, sometimes without one of these."""
    dice = random.Random(seed)
    lists = {"drop": drop_list(seed, frames), "repeat": drop_list(seed + 1, frames), "delay": delay_list(seed, frames)}
    return [f"{name}={text}" for name, text in lists.items() if dice.random() < 0.85]


def dealt(seed):
    """A capture, and operands that deal it over some cores and a link, with a history and a ring or their defaults."""
    frames = 60 + seed * 37 % 200
    words = [f"cores={1 + seed * 5 % 16}", *link(seed, frames)]
    words += [f"history={(0, 1, 64)[seed % 4]}"] if seed % 4 < 3 else []
    words += ["ring=1"] if seed % 5 == 0 else []
    return capture(seed, frames), words
