"""Whole reports whose texts are written down."""
import os

from captures import MICROSECONDS, NANOSECONDS, arp, capture, header, put, record, tagged, tcp, udp, udp6
from model import Outcome
from running import compare, good

from .known import (ACK, FIN_ACK, FOUR, FOUR_REPORT, HEAVY, OTHER_SOURCE, PUSH, SOURCE, STATES, SYN, SYN_ACK, one_core, plain,
                    timed, whole)

TOP = os.path.dirname(os.path.dirname(os.path.dirname(os.path.realpath(__file__))))
FOUR_OUTCOME = Outcome(0, FOUR_REPORT, b"")
ONE_LOST = """
    1 PASS
    3 PASS
    4 DROP
    frames 4 delivered 3 kept 3
    core 0 delivered 2 carried 2 recovered 1 skipped 1
    core 1 delivered 1 carried 1 recovered 2 skipped 1
    flows 1
    verdict PASS 2
    verdict DROP 1
    verdict OTHER 0
"""
ONE_CARRIED = """
    1 PASS
    3 DROP
    4 DROP
    frames 4 delivered 3 kept 4
    core 0 delivered 2 carried 3 recovered 1 skipped 0
    core 1 delivered 1 carried 2 recovered 2 skipped 0
    flows 1
    verdict PASS 1
    verdict DROP 2
    verdict OTHER 0
"""
WITHOUT_CORES = """
    1 PASS
    2 PASS
    3 DROP
    4 DROP
    frames 4 delivered 4 kept 4
    flows 1
    verdict PASS 2
    verdict DROP 2
    verdict OTHER 0
"""
NONE_DELIVERED = """
    frames 4 delivered 0 kept 0
    core 0 delivered 0 carried 0 recovered 0 skipped 4
    core 1 delivered 0 carried 0 recovered 0 skipped 4
    flows 0
    verdict PASS 0
    verdict DROP 0
    verdict OTHER 0
"""


def reports(program):
    run = "run program=ddos threshold=2"
    yield "four frames of one source", compare(program, run, FOUR, FOUR_OUTCOME)
    for order, name in (("<", "little-endian"), (">", "big-endian")):
        for magic, unit in ((MICROSECONDS, "microseconds"), (NANOSECONDS, "nanoseconds")):
            yield f"the same, {name} in {unit}", compare(program, run, capture([SOURCE] * 4, magic, order), FOUR_OUTCOME)
    ignored = header(snap=0, zone=-3600, figures=9) + record(SOURCE, 7, 4_294_967_295, original=1_514) * 4
    yield "fields that are ignored", compare(program, run, ignored, FOUR_OUTCOME)
    yield "four IPv6 frames of one source", compare(program, run, capture([udp6("2001:db8::1")] * 4), FOUR_OUTCOME)
    yield "other order of words, an empty drop list", compare(program, "run threshold=2 program=ddos drop=", FOUR, FOUR_OUTCOME)
    yield "a drop behind the capture", compare(program, f"{run} drop=9999", FOUR, FOUR_OUTCOME)
    yield "by the plain program", compare(program, "plain program=ddos threshold=2", FOUR, good(WITHOUT_CORES))
    yield "no frames, sixteen cores", compare(program, "run program=ddos cores=16", header(),
                                              whole("", (0, 0, 0), [(0, 0, 0, 0)] * 16, 0))
    yield "no frames, plain", compare(program, "plain program=conn", header(), whole("", (0, 0, 0), [], 0, STATES))
    with open(f"{TOP}/examples/flood.pcap", "rb") as file:
        verdicts = "OTHER" + " PASS" * 8 + " DROP PASS DROP DROP OTHER DROP DROP PASS DROP DROP PASS DROP DROP"
        yield "the example", compare(program, "run program=ddos threshold=5", file.read(), one_core(verdicts, 4))
    families = capture([SOURCE, udp6("::10.0.0.1")] * 2)
    yield "one number in two families", compare(program, "run program=ddos threshold=1", families,
                                                one_core("PASS PASS DROP DROP", 2))


def cores(program):
    """Several cores, with their histories and drop lists."""
    run = "run program=ddos threshold=2"
    for threads in ("", " threads=no", " threads=yes", " ring=1", " ring=1 threads=no"):
        lost = f"{run} cores=2 history=0 drop=2{threads}"
        yield f"one packet is lost{threads}", compare(program, lost, FOUR, good(ONE_LOST))
        carried = f"{run} cores=2 history=1 drop=2{threads}"
        yield f"one packet is carried by a later frame{threads}", compare(program, carried, FOUR, good(ONE_CARRIED))
    yield "the default history", compare(program, f"{run} cores=2 drop=2", FOUR, good(ONE_CARRIED))
    yield "no frame is delivered", compare(program, f"{run} cores=2 drop=1-4", FOUR, good(NONE_DELIVERED))
    few = whole("PASS PASS DROP", (3, 3, 3), [(1, 1, 2, 0), (1, 2, 1, 0), (1, 3, 0, 0)] + [(0, 0, 3, 0)] * 13, 1)
    yield "more cores than frames", compare(program, f"{run} cores=16", capture([SOURCE] * 3), few)
    long = whole("PASS PASS DROP DROP DROP", (5, 5, 5), [(3, 5, 0, 0), (2, 4, 1, 0)], 1)
    yield "more history than frames", compare(program, f"{run} cores=2 history=64", capture([SOURCE] * 5), long)
    half = [(number, "PASS" if number < 200 else "DROP") for number in range(1, 601, 2)]
    one_core_alone = whole(half, (600, 300, 300), [(300, 300, 0, 300), (0, 0, 300, 300)], 1)
    yield "a core that gets no frame", compare(
        program, "run program=ddos threshold=100 cores=2 history=0 drop=2-600/2", capture([SOURCE] * 600), one_core_alone)
    full_lane = whole("PASS " * 256, (256, 256, 256), [(256, 256, 0, 0)], 1)
    yield "256 frames without a history", compare(program, "run program=ddos history=0", capture([SOURCE] * 256), full_lane)
    third = [(number, "PASS" if number <= 500 else "DROP") for number in range(1, 1_001) if number % 3]
    counts = [(167, 665, 335, 0), (167, 666, 334, 0), (166, 664, 336, 0), (167, 668, 332, 0)]
    for more in ("ring=1", "ring=1024", "ring=1 threads=no", "threads=no"):
        words = f"run program=ddos threshold=500 cores=4 {more} drop=3-1000/3"
        known = whole(third, (1_000, 667, 1_000), counts, 1)
        yield f"a thousand frames, {more}", compare(program, words, capture([SOURCE] * 1_000), known)


CLIENT, SERVER = ("10.0.0.1", 40_000), ("10.0.0.2", 80)


def sent(flags):
    return tcp(CLIENT[0], SERVER[0], (CLIENT[1], SERVER[1]), flags)


def answered(flags):
    return tcp(SERVER[0], CLIENT[0], (SERVER[1], CLIENT[1]), flags)


def conversation():
    """A connection from its opening to its end, with a tag, padding, a cut frame, a fragment and ARP among its ten frames."""
    frames = [
        tagged(sent(SYN)), arp(), tagged(answered(SYN_ACK)), sent(ACK) + bytes(6), put(sent(PUSH), 16, b"\x05\xdc") + bytes(10),
        put(sent(ACK), 20, b"\x00\xb9"), put(sent(FIN_ACK), 16, b"\0\0"), answered(ACK), answered(FIN_ACK), sent(ACK)]
    records = (record(frame, number, original=1_514 if number == 5 else None) for number, frame in enumerate(frames, 1))
    return header() + b"".join(records)


COURSE = "SYN_SENT OTHER SYN_RECV ESTABLISHED ESTABLISHED OTHER FIN_WAIT FIN_WAIT LAST_ACK TIME_WAIT"


def knocks(*ports):
    return capture([udp("10.0.0.1", ports=(40_000, port)) for port in ports])


def programs(program):
    """Each program at its task."""
    three = whole(COURSE, (10, 10, 10), [(4, 10, 0, 0), (3, 8, 2, 0), (3, 9, 1, 0)], 1, STATES)
    yield "a connection, three cores", compare(program, "run program=conn cores=3", conversation(), three)
    yield "a connection, plain", compare(program, "plain program=conn", conversation(), plain(COURSE, 1, STATES))
    times = [10_000_000, 10_000_000, 9_000_000, 10_500_000] + [4_294_977_796_000] * 3 + [4_004_294_977_796_000]
    tokens = one_core("PASS PASS DROP DROP PASS PASS DROP PASS", 1)
    yield "tokens and time", compare(program, "run program=bucket rate=1 burst=2", timed([SOURCE] * 8, times), tokens)
    turns = capture([SOURCE, OTHER_SOURCE] * 2)
    for flows, verdicts in ((1, "PASS PASS PASS PASS"), (2, "PASS PASS DROP DROP")):
        words = f"run program=ddos threshold=1 flows={flows}"
        yield f"two sources in turns, flows={flows}", compare(program, words, turns, one_core(verdicts, flows))
    right, wrong = knocks(7000, 7000, 8000, 9000, 22), knocks(7000, 9000, 8000, 9000, 22)
    yield "knocking right", compare(program, "run program=knock", right, one_core("DROP DROP DROP DROP PASS", 1))
    yield "knocking wrong", compare(program, "run program=knock", wrong, one_core("DROP " * 5, 1))
    yield "bytes of a flow", compare(program, "run program=heavy bytes=60", capture([SOURCE] * 3),
                                     one_core("PASS PASS HEAVY", 1, HEAVY))
    for name, last, verdict in (("at its limit of idleness", answered(SYN_ACK), "SYN_RECV"),
                                ("idle too long", sent(ACK), "INVALID"), ("idle too long, opened anew", sent(SYN), "SYN_SENT"),
                                ("idle too long, opened from the other end", answered(SYN), "SYN_SENT")):
        at = 3_000_000 if verdict == "SYN_RECV" else 3_000_001
        data = timed([sent(SYN), answered(SYN_ACK), last], [1_000_000, 2_000_000, at])
        known = one_core(f"SYN_SENT SYN_RECV {verdict}", 1, STATES)
        yield f"a connection {name}", compare(program, "run program=conn idle=1000000", data, known)


def loads(program):
    """Captures that the program makes."""
    words = "load program=ddos start=7 frames=100000 hosts=50 cores=8 flows=1 threshold=100000"
    lines = [f"frames 100000 delivered 100000 kept 100000"]
    lines += [f"core {core} delivered 12500 carried {99_993 + core} recovered {7 - core} skipped 0" for core in range(8)]
    lines += ["flows 1", "verdict PASS 100000", "verdict DROP 0", "verdict OTHER 0"]
    yield "a hundred thousand frames", compare(program, words, known=good("\n".join(lines)))
    lines = ["frames 1 delivered 1 kept 1", "core 0 delivered 1 carried 1 recovered 0 skipped 0", "flows 1"]
    lines += [f"verdict {state} {int(state == 'SYN_SENT')}" for state in STATES]
    yield "one frame", compare(program, "load program=conn frames=1 hosts=1", known=good("\n".join(lines)))
    lines = ["frames 0 delivered 0 kept 0", "core 0 delivered 0 carried 0 recovered 0 skipped 0", "flows 0"]
    lines += [f"verdict {state} 0" for state in STATES]
    yield "no frames", compare(program, "load program=conn frames=0", known=good("\n".join(lines)))
