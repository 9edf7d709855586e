"""The rules of the five programs: defaults, bounds, times, and full tables."""
from captures import arp, capture, header, put, record, tcp, udp, udp6
from running import compare
from traffic import tcp6

from .known import (ACK, FIN_ACK, HEAVY, PUSH, RST, SOURCE, STATES, SYN, SYN_ACK, one_core, plain, timed)

SECOND = 1_000_000


def thresholds(program):
    four = capture([SOURCE] * 4)
    for text, verdicts in (("0", "DROP DROP DROP DROP"), ("1", "PASS DROP DROP DROP"), ("3", "PASS PASS PASS DROP"),
                           ("4", "PASS PASS PASS PASS"), ("4294967295", "PASS PASS PASS PASS"),
                           ("00000000002", "PASS PASS DROP DROP"), ("0" * 100 + "2", "PASS PASS DROP DROP"),
                           ("0" * 40, "DROP DROP DROP DROP"), ("004294967295", "PASS PASS PASS PASS")):
        yield f"threshold {text}", compare(program, f"run program=ddos threshold={text}", four, one_core(verdicts, 1))
    known = one_core("PASS " * 1_000 + "DROP DROP", 1)
    yield "the default threshold", compare(program, "run program=ddos", capture([SOURCE] * 1_002), known)


def heavy(program):
    thousand = udp("10.0.0.1", data=bytes(972))
    known = one_core("PASS " * 999 + "HEAVY HEAVY", 1, HEAVY)
    yield "the default bytes", compare(program, "run program=heavy", capture([thousand] * 1_001), known)
    for limit, verdicts in ((1, "HEAVY HEAVY HEAVY"), (28, "HEAVY HEAVY HEAVY"), (29, "PASS HEAVY HEAVY"),
                            (56, "PASS HEAVY HEAVY"),
                            (57, "PASS PASS HEAVY"), (84, "PASS PASS HEAVY"), (85, "PASS PASS PASS"), (10**12, "PASS PASS PASS")):
        yield f"bytes={limit}", compare(program, f"run program=heavy bytes={limit}", capture([SOURCE] * 3),
                                        one_core(verdicts, 1, HEAVY))


def bucket(program):
    """Tokens: full at first, refilled by the time that went by, never by time that goes back."""
    known = one_core("PASS " * 100 + "DROP DROP", 1)
    yield "the default burst", compare(program, "run program=bucket rate=0", timed([SOURCE] * 102, [5] * 102), known)
    times = [0] * 100 + [999, 1_000, 1_999, 2_000, 4_000]
    known = one_core("PASS " * 100 + "DROP PASS DROP PASS PASS", 1)
    yield "the default rate", compare(program, "run program=bucket", timed([SOURCE] * len(times), times), known)
    for name, words, times, verdicts in (
            ("part of a token isn't one", "rate=1 burst=1", [0, 999_999, SECOND, 1_999_999, 2 * SECOND],
             "PASS DROP PASS DROP PASS"),
            ("parts add up", "rate=1 burst=1", [0, 400_000, 800_000, 1_200_000, 1_200_001], "PASS DROP DROP PASS DROP"),
            ("no more than the burst", "rate=10 burst=2", [0, 0, 0, 9 * SECOND, 9 * SECOND, 9 * SECOND],
             "PASS PASS DROP PASS PASS DROP"),
            ("time goes back", "rate=1 burst=1", [5 * SECOND, 3 * SECOND, 4 * SECOND, 5 * SECOND, 6 * SECOND],
             "PASS DROP DROP DROP PASS"),
            ("no rate", "rate=0 burst=1", [0, 2**31 * SECOND], "PASS DROP"),
            ("the greatest rate", "rate=1000000000 burst=1", [7, 7, 8, 8], "PASS DROP PASS DROP"),
            ("what comes in is 2^32 parts", "rate=65536 burst=1", [0, 2**16], "PASS PASS"),
            ("what comes in is 2^63 parts", "rate=536870912 burst=1", [0, 2**34], "PASS PASS"),
            ("what comes in is 2^64 parts", "rate=536870912 burst=1", [0, 2**35], "PASS PASS"),
            ("the greatest rate and burst", "rate=1000000000 burst=1000000000", [0, 2**32 * SECOND - 1], "PASS PASS")):
        known = one_core(verdicts, 1)
        yield name, compare(program, f"run program=bucket {words}", timed([SOURCE] * len(times), times), known)
    last = 2**32 - 1
    data = header() + record(SOURCE, 0, 0) + record(SOURCE, last, last) * 2 + record(SOURCE, last, last - 1)
    yield "the greatest time", compare(program, "run program=bucket rate=1000000000 burst=1", data,
                                       one_core("PASS PASS DROP DROP", 1))
    nano = header(0xA1B23C4D) + b"".join(record(SOURCE, 1, fraction) for fraction in (999, 1_999, 2_000, 2_999, 3_000))
    yield "nanoseconds are rounded down", compare(
        program, "run program=bucket rate=1000000 burst=1", nano, one_core("PASS PASS PASS DROP PASS", 1))


def knocks(*ports, make=udp, source="10.0.0.1"):
    return [make(source, ports=(40_000, port)) for port in ports]


def knock(program):
    for ports, knocked, verdicts in (
            ("", "7000 8000 9000 1", "DROP DROP DROP PASS"),
            ("", "8000 9000 7000 9000 7000 8000 7000 8000 9000 9000", "DROP " * 9 + "PASS"),
            ("", "7000 8000 8000 9000 9000", "DROP " * 5),
            ("", "7000 8000 22 9000 22 7000 8000 9000 22 7000 1", "DROP " * 8 + "PASS PASS PASS"),
            ("ports=1,1,1", "1 1 1 1 2", "DROP DROP DROP PASS PASS"),
            ("ports=1,1,2", "1 1 1 2 9", "DROP " * 5),
            ("ports=1,1,2", "1 1 2 9", "DROP DROP DROP PASS"),
            ("ports=5,6,5", "5 5 6 5 5", "DROP DROP DROP DROP PASS"),
            ("ports=65535,1,00065535", "65535 1 65535 3", "DROP DROP DROP PASS"),
            ("ports=7000,8000,9000", "7000 8000 9000 7000", "DROP DROP DROP PASS")):
        frames = knocks(*map(int, knocked.split()))
        yield f"{ports} at {knocked}", compare(program, f"run program=knock {ports}".split(), capture(frames),
                                               one_core(verdicts, 1))
    ways = [udp("10.0.0.1", ports=(1, 7000)), tcp("10.0.0.1", "10.0.0.9", (2, 8000)), udp("10.0.0.1", ports=(3, 9000)),
            tcp("10.0.0.1")]
    yield "by any protocol, port and destination", compare(program, "run program=knock", capture(ways),
                                                           one_core("DROP DROP DROP PASS", 1))
    turns = [frame for pair in zip(knocks(7000, 8000, 9000, 1), knocks(7000, 9000, 9000, 1, source="10.0.0.2")) for frame in pair]
    yield "two sources in turns", compare(program, "run program=knock", capture(turns), one_core("DROP " * 6 + "PASS DROP", 2))
    families = knocks(7000, 8000) + knocks(9000, 1, make=udp6, source="::10.0.0.1") + knocks(9000, 1)
    yield "one number in two families", compare(program, "run program=knock", capture(families),
                                                one_core("DROP " * 5 + "PASS", 2))
    between = [*knocks(7000), arp(), *knocks(8000), put(SOURCE, 23, b"\1"), *knocks(9000, 1)]
    known = one_core("DROP OTHER DROP OTHER DROP PASS", 1)
    yield "other kinds between", compare(program, "run program=knock", capture(between), known)
    back = knocks(9000, 8000, 7000)
    yield "a source port is no knock", compare(
        program, "run program=knock", capture([udp("10.0.0.1", ports=(port, 1)) for port in (7000, 8000, 9000, 1)] + back),
        one_core("DROP " * 7, 1))


LEFT, RIGHT = ("10.0.0.1", 40_000), ("10.0.0.2", 80)


def segments(steps, low_opens=True):
    """The segments of a connection, '>' from its opener and '<' from the other end."""
    flags = {"S": SYN, "SA": SYN_ACK, "A": ACK, "P": PUSH, "F": FIN_ACK, "f": 0x01, "R": RST, "RA": 0x14, "X": 0x03, "SF": 0x13,
             "N": 0x00, "PU": 0x28, "SR": 0x06, "SE": 0xC2, "FR": 0x05, "ALL": 0xFF, "SAE": 0xFA}
    one, other = (LEFT, RIGHT) if low_opens else (RIGHT, LEFT)
    for step in steps.split():
        source, destination = (one, other) if step[0] == ">" else (other, one)
        yield tcp(source[0], destination[0], (source[1], destination[1]), flags[step[1:]])


# What leads to each state, and its entry's side first in the directions that follow.
TO = {"absent": "", "SYN_SENT": ">S", "SYN_RECV": ">S <SA", "ESTABLISHED": ">S <SA >A", "FIN_WAIT": ">S <SA >A >F",
      "LAST_ACK": ">S <SA >A >F <F", "TIME_WAIT": ">S <SA >A >F <F >A", "CLOSED": ">S <SA >R"}
COURSES = [
    (">S <SA >A >P <A <F >A >F <A", "SYN_SENT SYN_RECV ESTABLISHED ESTABLISHED ESTABLISHED FIN_WAIT FIN_WAIT LAST_ACK TIME_WAIT"),
    (">S >S <SA <SA <A >A <SA", "SYN_SENT SYN_SENT SYN_RECV SYN_RECV SYN_RECV ESTABLISHED ESTABLISHED"),
    (">S <S >SA >A <A <F >f", "SYN_SENT INVALID INVALID INVALID INVALID INVALID INVALID"),
    (">S <SA >S >SA <S >A", "SYN_SENT SYN_RECV SYN_RECV INVALID INVALID ESTABLISHED"),
    (">S <SA <F >F >A <A", "SYN_SENT SYN_RECV FIN_WAIT LAST_ACK LAST_ACK TIME_WAIT"),
    (">S <SA >F >F <A <F <A >A", "SYN_SENT SYN_RECV FIN_WAIT FIN_WAIT FIN_WAIT LAST_ACK LAST_ACK TIME_WAIT"),
    (">S <R <R >A >S", "SYN_SENT CLOSED CLOSED INVALID SYN_SENT"),
    (">S <SA >A >F <F >A <S >S <SA", "SYN_SENT SYN_RECV ESTABLISHED FIN_WAIT LAST_ACK TIME_WAIT SYN_SENT INVALID INVALID"),
    (">S <SA >A >F <F >A <S >SA", "SYN_SENT SYN_RECV ESTABLISHED FIN_WAIT LAST_ACK TIME_WAIT SYN_SENT SYN_RECV"),
    (">A >SA >F >R >N >X >S", "INVALID INVALID INVALID INVALID INVALID INVALID SYN_SENT"),
    (">S >X >SF >N >PU >ALL", "SYN_SENT INVALID INVALID INVALID INVALID CLOSED"),
    (">SE <SAE >PU >A >FR", "SYN_SENT SYN_RECV INVALID ESTABLISHED CLOSED"),
    (">SR >S >RA", "INVALID SYN_SENT CLOSED"),
]


def connections(program):
    for steps, verdicts in COURSES:
        flows = 0 if set(verdicts.split()) <= {"INVALID"} else 1
        for low_opens in (True, False):
            data = capture(segments(steps, low_opens))
            name = f"{steps}, {'low' if low_opens else 'high'} end opens"
            yield name, compare(program, "run program=conn", data, one_core(verdicts, flows, STATES))
    for state, steps in TO.items():
        for low_opens in (True, False):
            data = capture(segments(" ".join(f"{steps} {way}{flag}" for flag in ("R", "SA", "S", "F", "A", "X",
                                                                                 "N") for way in "><"), low_opens))
            yield f"from {state}", compare(program, "run program=conn", data)
        for flag in ("R", "SA", "S", "F", "A", "X", "N"):
            data = capture(segments(f"{steps} <{flag} >A <A >F")) + record(b"")
            yield f"from {state} by <{flag}", compare(program, "plain program=conn", data)
            data = capture(segments(f"{steps} >{flag} >A <A <F", False)) + record(b"")
            yield f"from {state} by >{flag}", compare(program, "plain program=conn", data)


def endpoints(program):
    """What is one connection: the two ends in either order, by family, address and port."""
    itself = [tcp("10.0.0.1", "10.0.0.1", (80, 80), flags) for flags in (SYN, SYN_ACK, ACK, FIN_ACK, FIN_ACK, ACK)]
    known = one_core("SYN_SENT INVALID INVALID INVALID INVALID INVALID", 1, STATES)
    yield "an end to itself", compare(program, "run program=conn", capture(itself), known)
    by_port = [tcp("10.0.0.1", "10.0.0.1", (80, 81), SYN), tcp("10.0.0.1", "10.0.0.1", (81, 80), SYN_ACK),
               tcp("10.0.0.1", "10.0.0.1", (80, 81), ACK)]
    yield "ends that differ in the port", compare(
        program, "run program=conn", capture(by_port), one_core("SYN_SENT SYN_RECV ESTABLISHED", 1, STATES))
    crossed = [tcp("10.0.0.1", "10.0.0.2", (1, 2), SYN), tcp("10.0.0.2", "10.0.0.1", (1, 2), SYN_ACK)]
    yield "ports crossed", compare(program, "run program=conn", capture(crossed), one_core("SYN_SENT INVALID", 1, STATES))
    families = [tcp("10.0.0.1", "10.0.0.2", (1, 2), SYN), tcp6("::10.0.0.2", "::10.0.0.1", (2, 1), SYN_ACK),
                tcp6("::10.0.0.1", "::10.0.0.2", (1, 2), SYN), tcp6("::10.0.0.2", "::10.0.0.1", (2, 1), SYN_ACK)]
    yield "one number in two families", compare(
        program, "run program=conn", capture(families), one_core("SYN_SENT INVALID SYN_SENT SYN_RECV", 2, STATES))
    order = [tcp("9.0.0.1", "10.0.0.1", (2, 1), SYN), tcp("10.0.0.1", "9.0.0.1", (1, 2), SYN_ACK),
             tcp("9.0.0.1", "10.0.0.1", (2, 1), ACK)]
    yield "the address comes before the port", compare(
        program, "run program=conn", capture(order), one_core("SYN_SENT SYN_RECV ESTABLISHED", 1, STATES))


def idleness(program):
    """Idle connections, and times that go back."""
    opened = [*segments(">S <SA >A")]
    for idle, gap, verdict in (("", 60 * SECOND, "ESTABLISHED"), ("", 60 * SECOND + 1, "INVALID"), ("idle=1", 1, "ESTABLISHED"),
                               ("idle=1", 2, "INVALID"), ("idle=10000000000000", 4_000_000 * SECOND, "ESTABLISHED"),
                               ("idle=10000000000000", 10_000_000 * SECOND + 1, "INVALID")):
        data = timed([*opened, *segments("<A")], [SECOND, SECOND, SECOND, SECOND + gap])
        known = one_core(f"SYN_SENT SYN_RECV ESTABLISHED {verdict}", 1, STATES)
        yield f"{idle or 'the default'} after {gap}", compare(program, f"run program=conn {idle}".split(), data, known)
    back = timed([*opened, *segments("<A >A <A")], [9 * SECOND, 9 * SECOND, 9 * SECOND, SECOND, 10 * SECOND, 11 * SECOND + 1])
    known = one_core("SYN_SENT SYN_RECV ESTABLISHED ESTABLISHED ESTABLISHED INVALID", 1, STATES)
    yield "time goes back", compare(program, "run program=conn idle=1000000", back, known)
    kept = timed([*opened, *segments(">N >A")], [SECOND, SECOND, SECOND, 2 * SECOND, 2 * SECOND + 1])
    known = one_core("SYN_SENT SYN_RECV ESTABLISHED INVALID INVALID", 1, STATES)
    yield "an invalid packet keeps nothing alive", compare(program, "run program=conn idle=1000000", kept, known)


def numbered(numbers):
    """A frame for each number, from a source of its own."""
    return [put(SOURCE, 26, (0x0A000000 + number).to_bytes(4, "big")) for number in numbers]


def full_tables(program):
    """More keys than the table holds: the least recently used is dropped, and begins anew."""
    most = 4_096
    full, many = range(1, most + 1), "PASS " * most
    for name, numbers, verdicts in (
            ("as many sources as fit, again", [*full, *full], many + "DROP " * most),
            ("one source more, then all again", [*full, most + 1, *full], many + "PASS " + many),
            ("the first is used again and stays", [*full, 1, most + 1, 1, 3, 2], many + "DROP PASS DROP DROP PASS"),
            ("two new ones drop the first two", [*full, 5_000, 5_001, 5_000, 3, 4, 1, 2],
             many + "PASS PASS DROP DROP DROP PASS PASS")):
        data = capture(numbered(numbers))
        yield name, compare(program, "run program=ddos threshold=1", data, one_core(verdicts, most))
        yield f"{name}, bucket", compare(program, "plain program=bucket burst=1 rate=0", data, plain(verdicts, most))
    for chosen in ("heavy bytes=29", "knock", "conn"):
        opening = tcp("10.0.0.0", ports=(7, 7_000), flags=SYN)
        frames = [put(opening, 26, (0x0A000000 + number).to_bytes(4, "big")) for number in range(1, most + 5)]
        yield f"the default of {chosen}", compare(program, f"run program={chosen}", capture(frames + frames[:3] + frames[5:9]))
    state, numbers = 1, []
    for _ in range(20_000):
        state = (state * 1_103_515_245 + 12_345) % 2**31
        numbers.append((state >> 16) % 5_000)
    yield "20,000 frames of 5,000 sources", compare(program, "run program=ddos threshold=2", capture(numbered(numbers)))
    wide = [*range(1, 65_538), 1, 3, 2]
    known = one_core("PASS " * 65_537 + "PASS DROP PASS", 65_536)
    yield "the largest table", compare(program, "run program=ddos threshold=1 flows=65536", capture(numbered(wide)), known)
    ends = [("10.0.0.1", "10.0.0.2"), ("10.0.0.3", "10.0.0.4"), ("10.0.0.5", "10.0.0.6")]
    opened = [tcp(*pair, flags=SYN) for pair in ends]
    frames = [opened[0], opened[1], tcp(*ends[0], flags=FIN_ACK), opened[2], tcp(*reversed(ends[0]), (80, 40_000), SYN_ACK)]
    known = one_core("SYN_SENT SYN_SENT INVALID SYN_SENT INVALID", 2, STATES)
    yield "an invalid packet leaves the order as it is", compare(program, "run program=conn flows=2", capture(frames), known)
    opened_again = [opened[0], opened[1], opened[0], opened[2], tcp(*reversed(ends[0]), (80, 40_000), SYN_ACK)]
    known = one_core("SYN_SENT SYN_SENT SYN_SENT SYN_SENT SYN_RECV", 2, STATES)
    yield "a valid one comes to the front", compare(program, "run program=conn flows=2", capture(opened_again), known)
    expired = timed([opened[0], opened[1], opened[2], tcp(*ends[1], flags=ACK)], [0, 0, 61 * SECOND, 61 * SECOND])
    known = one_core("SYN_SENT SYN_SENT SYN_SENT INVALID", 2, STATES)
    yield "an expired entry stays in the table", compare(program, "run program=conn flows=2", expired, known)
