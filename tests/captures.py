"""Frames and captures as bytes, for the cases, the measurements and the example.

A capture is a header of 24 bytes, then for each record a header of 16 bytes and the frame. A frame is Ethernet around IP.
"""
import ipaddress
import struct

ADDRESSES = bytes.fromhex("020000000002" "020000000001")
IPV4, IPV6, ARP, VLAN = 0x0800, 0x86DD, 0x0806, 0x8100
TCP, UDP = 6, 17
MICROSECONDS, NANOSECONDS = 0xA1B2C3D4, 0xA1B23C4D


def address(text):
    return ipaddress.ip_address(text).packed


def ethernet(kind, payload):
    return ADDRESSES + struct.pack(">H", kind) + payload


def tagged(frame, tag=5):
    """The frame with a VLAN tag in front of its type."""
    return frame[:12] + struct.pack(">HH", VLAN, tag) + frame[12:]


def ipv4(source, destination, protocol, payload):
    header = struct.pack(">BBHHHBBH", 0x45, 0, 20 + len(payload), 0, 0, 64, protocol, 0)
    return ethernet(IPV4, header + address(source) + address(destination) + payload)


def ipv6(source, destination, next_header, payload):
    header = struct.pack(">IHBB", 6 << 28, len(payload), next_header, 64)
    return ethernet(IPV6, header + address(source) + address(destination) + payload)


def udp_datagram(ports, data):
    return struct.pack(">HHHH", *ports, 8 + len(data), 0) + data


def udp(source, destination="10.0.0.2", ports=(40000, 53), data=b""):
    return ipv4(source, destination, UDP, udp_datagram(ports, data))


def tcp(source, destination="10.0.0.2", ports=(40000, 80), flags=0x10, data=b""):
    segment = struct.pack(">HHIIBBHHH", *ports, 0, 0, 5 << 4, flags, 0xFFFF, 0, 0)
    return ipv4(source, destination, TCP, segment + data)


def udp6(source, destination="2001:db8::2", ports=(40000, 53), data=b""):
    return ipv6(source, destination, UDP, udp_datagram(ports, data))


def arp():
    """An ARP frame, which is no IP packet."""
    return ethernet(ARP, bytes(28))


def header(magic=MICROSECONDS, version=(2, 4), link=1, order="<", snap=262_144, zone=0, figures=0):
    return struct.pack(order + "IHHiIII", magic, *version, zone, figures, snap, link)


def record(frame, seconds=0, fraction=0, captured=None, original=None, order="<"):
    """A record of the frame; captured and original are its length where they aren't given."""
    captured = len(frame) if captured is None else captured
    original = len(frame) if original is None else original
    return struct.pack(order + "IIII", seconds, fraction, captured, original) + frame


def capture(frames, magic=MICROSECONDS, order="<"):
    """A capture of the frames, a second apart."""
    records = (record(frame, seconds, order=order) for seconds, frame in enumerate(frames, 1))
    return header(magic, order=order) + b"".join(records)


def put(data, at, piece):
    """The data with the piece in the place of what stands there."""
    return data[:at] + piece + data[at + len(piece):]
