"""The captures that are measured: always the same, for source and frame are drawn by a fixed rule.

A mix is a hundred frames of a source, of about 42 to 1,500 bytes and mostly about 60, as a port of a busy server sees
them. A talk is the mixes that a source's frames are of, in turn.
"""
import functools
import struct

import blocks
from captures import header, tcp, udp

SOURCES = 50
SERVER = "10.128.0.1"
KNOCKS, WRONG_KNOCKS = (7_000, 8_000, 9_000), (7_000, 8_000, 80)
SYN, FIN, ACK = 2, 1, 16
# A connection from its opening to its end: whether its opener sends, and the flags.
COURSE = [(True, SYN), (False, SYN | ACK), (True, ACK), (False, ACK), (True, FIN | ACK), (False, FIN | ACK), (True, ACK)]


def mix_of(segment, datagram):
    return ([segment() + bytes(6)] * 62 + [datagram(data=bytes(size % 19)) for size in range(27)]
            + [segment(data=bytes(146))] * 10 + [datagram(data=bytes(1_458))])


def mixed(source, segment_port, datagram_port):
    return mix_of(functools.partial(tcp, source, ports=(40_000, segment_port)),
                  functools.partial(udp, source, ports=(40_000, datagram_port)))


def usual(source, _):
    return [mixed(source, 80, 53)]


def knocking(source, host):
    """Every second source knocks as it must, and stays at an open door; the others begin anew and anew."""
    return [mixed(source, port, port) for port in (KNOCKS if host % 2 else WRONG_KNOCKS)]


def datagrams(source, host):
    """UDP alone: the same knocks, right and wrong."""
    to = [functools.partial(udp, source, ports=(40_000, port)) for port in (KNOCKS if host % 2 else WRONG_KNOCKS)]
    return [mix_of(datagram, datagram) for datagram in to]


def connected(source, _):
    """TCP alone: one connection after the other from the same port, with the server's segments between."""
    def segments(from_opener, flags):
        ends = (source, SERVER, (40_000, 80)) if from_opener else (SERVER, source, (80, 40_000))
        return functools.partial(tcp, *ends, flags)
    return [mix_of(segments(*step), segments(*step)) for step in COURSE]


def records_of(mix):
    return [struct.pack("<II", len(frame), len(frame)) + frame for frame in mix]


def drawn(frames, talks):
    """What is drawn for each of so many frames, with its time in microseconds: they are 100 apart."""
    turns, state = [0] * SOURCES, 1
    for number in range(frames):
        state = (state * 6_364_136_223_846_793_005 + 1_442_695_040_888_963_407) % 2**64
        source = (state >> 33) % SOURCES
        talk = talks[source]
        yield 100 * number, talk[turns[source]][(state >> 45) % 100]
        turns[source] = (turns[source] + 1) % len(talk)


def write_capture(path, frames, talk_of=usual):
    """A capture of so many frames."""
    talks = [[records_of(mix) for mix in talk_of(f"10.0.0.{host}", host)] for host in range(1, SOURCES + 1)]
    with open(path, "wb") as file:
        file.write(header())
        for time, record in drawn(frames, talks):
            file.write(struct.pack("<II", *divmod(time, 1_000_000)) + record)


def write_blocks(path, frames, talk_of=usual):
    """The same frames in blocks (pcapng)."""
    talks = [talk_of(f"10.0.0.{host}", host) for host in range(1, SOURCES + 1)]
    with open(path, "wb") as file:
        file.write(blocks.section() + blocks.interface())
        for time, frame in drawn(frames, talks):
            file.write(blocks.enhanced(frame, time))
