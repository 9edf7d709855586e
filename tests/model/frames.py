"""The fields of a frame.

Ethernet with at most one IEEE 802.1Q tag, IPv4 (RFC 791), IPv6 (RFC 8200), TCP (RFC 9293), UDP (RFC 768).
"""
import collections

VLAN, IPV4, IPV6 = b"\x81\x00", b"\x08\x00", b"\x86\xdd"
TCP, UDP = 6, 17
TRANSPORT_HEADER = {TCP: 20, UDP: 8}

Fields = collections.namedtuple("Fields", "kind family source destination source_port destination_port protocol flags length")
OTHER = Fields("Other", 0, 0, 0, 0, 0, 0, 0, 0)


def number(data, at, size):
    return int.from_bytes(data[at:at + size], "big")


def fields(frame):
    """The kind and the fields of a frame. What can't be read is Other, or Bare behind its IP header."""
    kind, packet = frame[12:14], frame[14:]
    if kind == VLAN:
        kind, packet = frame[16:18], frame[18:]
    if kind == IPV4:
        return of_ipv4(packet)
    if kind == IPV6:
        return of_ipv6(packet)
    return OTHER


def of_ipv4(packet):
    if len(packet) < 20 or packet[0] >> 4 != 4:
        return OTHER
    size = packet[0] % 16 * 4
    length = number(packet, 2, 2) or len(packet)
    if size < 20 or size > len(packet) or size > length:
        return OTHER
    offset = number(packet, 6, 2) % 2**13
    ends = (0, number(packet, 12, 4), number(packet, 16, 4))
    return of_transport(ends, packet[9], length, packet, size, offset > 0)


def of_ipv6(packet):
    if len(packet) < 40 or packet[0] >> 4 != 6:
        return OTHER
    payload = number(packet, 4, 2)
    length = 40 + payload if payload else len(packet)
    ends = (1, number(packet, 8, 16), number(packet, 24, 16))
    return of_transport(ends, packet[6], length, packet, 40, False)


def of_transport(ends, protocol, length, packet, size, is_later_fragment):
    """The fields behind an IP header of this size."""
    bare = Fields("Bare", *ends, 0, 0, protocol, 0, length)
    if is_later_fragment or protocol not in TRANSPORT_HEADER:
        return bare
    if size + TRANSPORT_HEADER[protocol] > min(len(packet), length):
        return bare
    header = packet[size:]
    ports = (number(header, 0, 2), number(header, 2, 2))
    if protocol == UDP:
        return Fields("Udp", *ends, *ports, protocol, 0, length)
    if header[12] >> 4 < 5:
        return bare
    return Fields("Tcp", *ends, *ports, protocol, header[13], length)
