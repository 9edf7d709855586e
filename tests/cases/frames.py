"""Frames of each form, and which of them the programs look at."""
from captures import TCP, UDP, arp, capture, ethernet, ipv4, ipv6, put, tagged, tcp, udp, udp6
from running import compare

from .known import HEAVY, STATES, one_core

V4, SEGMENT, V6 = udp("10.0.0.1"), tcp("10.0.0.1"), udp6("2001:db8::1")
SEGMENT6 = ipv6("2001:db8::1", "2001:db8::2", TCP, SEGMENT[34:])
# Where the IP header of an untagged frame has its fields.
IP, LENGTH4, FRAGMENT4, PROTOCOL4, LENGTH6, NEXT6 = 14, 16, 20, 23, 18, 20
# Frames that are packets: their kind and their length.
PACKETS = [
    ("UDP", V4, "Udp", 28), ("TCP", SEGMENT, "Tcp", 40), ("UDP with data", udp("10.0.0.1", data=b"question"), "Udp", 36),
    ("TCP with data", tcp("10.0.0.1", data=bytes(1_000)), "Tcp", 1_040), ("a tagged UDP frame", tagged(V4), "Udp", 28),
    ("a tagged TCP frame", tagged(SEGMENT, 0xEFFF), "Tcp", 40), ("a padded TCP frame", SEGMENT + bytes(6), "Tcp", 40),
    ("an IPv4 header alone", V4[:34], "Bare", 28), ("a UDP header less a byte", V4[:41], "Bare", 28),
    ("a TCP header less a byte", SEGMENT[:53], "Bare", 40),
    ("IPv4 options", put(V4 + bytes(40), IP, b"\x4f\0\0\x44"), "Udp", 68),
    ("IPv4 options up to the length", put(V4 + bytes(40), IP, b"\x4f\0\0\x3c"), "Bare", 60),
    ("IPv4 options, a UDP header less a byte", put(V4 + bytes(40), IP, b"\x4f\0\0\x43"), "Bare", 67),
    ("total length 0", put(V4, LENGTH4, b"\0\0"), "Udp", 28),
    ("total length 0, padded", put(V4, LENGTH4, b"\0\0") + bytes(9), "Udp", 37),
    ("total length 20", put(V4, LENGTH4, b"\0\x14"), "Bare", 20), ("total length 27", put(V4, LENGTH4, b"\0\x1b"), "Bare", 27),
    ("total length 39", put(SEGMENT, LENGTH4, b"\0\x27"), "Bare", 39),
    ("total length 65535", put(V4, LENGTH4, b"\xff\xff"), "Udp", 65_535),
    ("a later fragment", put(V4, FRAGMENT4, b"\0\1"), "Bare", 28),
    ("the last fragment place", put(V4, FRAGMENT4, b"\x1f\xff"), "Bare", 28),
    ("a first fragment", put(V4, FRAGMENT4, b"\x20\0"), "Udp", 28),
    ("all flags of a fragment", put(V4, FRAGMENT4, b"\xe0\0"), "Udp", 28),
    ("ICMP", put(V4, PROTOCOL4, b"\1"), "Bare", 28), ("protocol 255", put(V4, PROTOCOL4, b"\xff"), "Bare", 28),
    ("a TCP data offset of 4", put(SEGMENT, 46, b"\x40"), "Bare", 40),
    ("a TCP data offset of 15", put(SEGMENT, 46, b"\xf0"), "Tcp", 40),
    ("IPv6", V6, "Udp", 48), ("IPv6 with TCP", SEGMENT6, "Tcp", 60), ("a tagged IPv6 frame", tagged(V6), "Udp", 48),
    ("an IPv6 header alone", V6[:54], "Bare", 48), ("an IPv6 frame less a byte", V6[:-1], "Bare", 48),
    ("payload length 0", put(V6, LENGTH6, b"\0\0"), "Udp", 48),
    ("payload length 0, padded", put(V6, LENGTH6, b"\0\0") + bytes(5), "Udp", 53),
    ("payload length 7", put(V6, LENGTH6, b"\0\7"), "Bare", 47),
    ("payload length 65535", put(V6, LENGTH6, b"\xff\xff"), "Udp", 65_575),
    ("a hop-by-hop header", put(V6, NEXT6, b"\0"), "Bare", 48), ("a fragment header", put(V6, NEXT6, b"\x2c"), "Bare", 48),
    ("ICMPv6", put(V6, NEXT6, b"\x3a"), "Bare", 48), ("IPv6 flow labels", put(V6, IP, b"\x6f\xff\xff\xff"), "Udp", 48),
    ("an IPv6 TCP data offset of 4", put(SEGMENT6, 66, b"\x40"), "Bare", 60),
]
NO_PACKETS = [
    ("no bytes", b""), ("13 bytes", V4[:13]), ("an Ethernet header alone", V4[:14]), ("an IPv4 header less a byte", V4[:33]),
    ("an IPv4 header of 4 words", put(V4, IP, b"\x44")), ("an IPv4 header of no words", put(V4, IP, b"\x40")),
    ("an IPv4 header of 15 words, cut", put(V4, IP, b"\x4f\0\0\x44")),
    ("an IPv4 header of 15 words, past its length", put(V4, IP, b"\x4f")),
    ("IPv4 that says version 6", put(V4, IP, b"\x65")), ("IPv4 that says version 5", put(V4, IP, b"\x55")),
    ("total length 19", put(V4, LENGTH4, b"\0\x13")), ("total length 0 and 19 bytes", put(V4, LENGTH4, b"\0\0")[:33]),
    ("options beyond the total length", put(V4 + bytes(40), IP, b"\x4f\0\0\x3b")), ("ARP", arp()),
    ("a length in the place of a type", ethernet(0x0026, V4[14:])), ("two tags", tagged(tagged(V4))),
    ("a tag of the other kind", put(tagged(V4), 12, b"\x88\xa8")), ("a tag cut before the type", tagged(V4)[:17]),
    ("a tag cut within itself", tagged(V4)[:15]), ("a tagged ARP frame", tagged(arp())), ("an IPv6 header less a byte", V6[:53]),
    ("IPv6 that says version 4", put(V6, IP, b"\x40")), ("IPv6 that says version 7", put(V6, IP, b"\x70")),
    ("IPv4 under the type of IPv6", put(V4 + bytes(40), 12, b"\x86\xdd")),
    ("IPv6 under the type of IPv4", put(V6, 12, b"\x08\0")),
]


def frames(program):
    """A frame of each form, and then twice a plain one of the same source, by which it shows whether the form counts."""
    for name, frame, _, _ in PACKETS:
        plain_frame = V6 if b"\x20\x01\x0d\xb8" in frame else V4
        data = capture([frame, plain_frame, plain_frame])
        yield f"counted: {name}", compare(program, "run program=ddos threshold=2", data, one_core("PASS PASS DROP", 1))
    for name, frame in NO_PACKETS:
        data = capture([V4, V6, frame, V4, V6])
        yield f"not counted: {name}", compare(program, "run program=ddos threshold=1", data,
                                              one_core("PASS PASS OTHER DROP DROP", 2))


def lengths_of_frames(program):
    """The length of each form: the flow is heavy at just so many bytes and at no more."""
    for name, frame, _, length in PACKETS:
        for limit, verdict in ((length, "HEAVY"), (length + 1, "PASS")):
            words = f"run program=heavy bytes={limit}"
            yield f"{name}, bytes={limit}", compare(program, words, capture([frame]), one_core(verdict, 1, HEAVY))


def kinds(program):
    """Which kinds each program looks at."""
    for name, frame, kind, _ in PACKETS:
        verdict, flows = ("OTHER", 0) if kind == "Bare" else ("DROP", 1)
        yield f"knock: {name}", compare(program, "run program=knock", capture([frame]), one_core(verdict, flows))
        verdict, flows = ("INVALID" if kind == "Tcp" else "OTHER", 0)
        yield f"conn: {name}", compare(program, "run program=conn", capture([frame]), one_core(verdict, flows, STATES))
        yield f"bucket: {name}", compare(program, "plain program=bucket burst=1 rate=0", capture([frame, frame]))
    for name, frame in NO_PACKETS:
        for chosen, names in (("heavy", HEAVY), ("bucket", ("PASS", "DROP", "OTHER")), ("knock", ("PASS", "DROP", "OTHER")),
                              ("conn", STATES)):
            yield f"{chosen}: {name}", compare(program, f"run program={chosen}", capture([frame]), one_core("OTHER", 0, names))


def sources(program):
    """Which packets are of one source."""
    for name, near in (("IPv4", "10.0.0.1 10.0.0.0 10.0.1.1 10.1.0.1 11.0.0.1 138.0.0.1"),
                       ("IPv6", "2001:db8::1 2001:db9::1 2001:db8:0:1::1 2001:db8::1:0:0:1 2001:db8::2 a001:db8::1")):
        data = capture([(udp if name == "IPv4" else udp6)(text) for text in near.split()] * 2)
        count = len(near.split())
        known = one_core("PASS " * count + "DROP " * count, count)
        yield f"{name} sources that differ in a bit or two", compare(program, "run program=ddos threshold=1", data, known)
    ways = [udp("10.0.0.1", "10.9.9.9", (1, 2)), tcp("10.0.0.1", "10.8.8.8", (3, 4), 2), put(V4, PROTOCOL4, b"\1")]
    yield "one source, other ends", compare(program, "run program=ddos threshold=2", capture(ways), one_core("PASS PASS DROP", 1))


def flows(program):
    """Packets that differ in one part of the five-tuple, or in the family, are of different flows."""
    first = udp("10.0.0.1", "10.0.0.2", (1, 2))
    others = [
        ("another source", udp("10.0.0.9", "10.0.0.2", (1, 2))), ("another destination", udp("10.0.0.1", "10.0.0.9", (1, 2))),
        ("another source port", udp("10.0.0.1", "10.0.0.2", (257, 2))),
        ("another destination port", udp("10.0.0.1", "10.0.0.2", (1, 258))),
        ("the way back", udp("10.0.0.2", "10.0.0.1", (2, 1))), ("ports exchanged", udp("10.0.0.1", "10.0.0.2", (2, 1))),
        ("another protocol", tcp("10.0.0.1", "10.0.0.2", (1, 2))), ("no ports", ipv4("10.0.0.1", "10.0.0.2", UDP, b"")),
        ("the other family", udp6("::10.0.0.1", "::10.0.0.2", (1, 2))),
    ]
    for name, other in others:
        data = capture([first, other, first, other])
        yield f"bucket: {name}", compare(program, "run program=bucket burst=1 rate=0", data, one_core("PASS PASS DROP DROP", 2))
        yield f"heavy: {name}", compare(program, "run program=heavy bytes=41", data)
        yield f"heavy: {name}, a million bytes", compare(program, "plain program=heavy", data)
    ends6 = ["2001:db8::1", "2001:db8::2", "2001:db8::3", "2001:db8:0:1::2", "a001:db8::1"]
    pairs6 = [udp6(source, destination, (1, 2)) for source in ends6 for destination in ends6]
    known = one_core("PASS " * 25 + "DROP " * 25, 25)
    yield "bucket: IPv6 ends that differ in a bit or two", compare(
        program, "run program=bucket burst=1 rate=0", capture(pairs6 * 2), known)
    same = [first, tagged(first), first + bytes(18), udp("10.0.0.1", "10.0.0.2", (1, 2), b"data")]
    yield "bucket: one flow in four forms", compare(
        program, "run program=bucket burst=3 rate=0", capture(same), one_core("PASS PASS PASS DROP", 1))
    bare = [ipv4("10.0.0.1", "10.0.0.2", UDP, b""), put(first, FRAGMENT4, b"\0\7"), ipv4("10.0.0.1", "10.0.0.2", UDP, b"1234567")]
    yield "bucket: packets without ports are of one flow", compare(
        program, "run program=bucket burst=2 rate=0", capture(bare), one_core("PASS PASS DROP", 1))
    zero = [udp("10.0.0.1", "10.0.0.2", (0, 0)), ipv4("10.0.0.1", "10.0.0.2", UDP, b"")]
    yield "bucket: ports 0 and no ports are of one flow", compare(
        program, "run program=bucket burst=1 rate=0", capture(zero), one_core("PASS DROP", 1))
