#!/usr/bin/env python3
"""The capture that the program makes up, computed anew: for the cases, and for a test of the crate that makes it.

    tests/generated.py START FRAMES HOSTS

prints its length and its checksum, which is 31 times the checksum of what stands before a byte, plus this byte.
"""
import sys

sys.dont_write_bytecode = True
from captures import header, record, tcp, udp

SERVER, FIRST_SECOND, STEP = "10.128.0.1", 1_700_000_000, 100

# Who sends which frame: the flags of TCP, or none for UDP.
TABLE = [("client", 0x02), ("server", 0x12), ("client", 0x10), ("client", 0x10), ("server", 0x10), ("client", 0x18),
         ("server", 0x18), ("client", 0x11), ("server", 0x11), ("client", 0x10), ("server", 0x04), ("client", None),
         ("server", None), ("client", None), ("client", 0x02), ("server", 0x10)]


def frame_of(client, sender, flags):
    port = 53 if flags is None else 80
    ends = (client, SERVER, (40000, port)) if sender == "client" else (SERVER, client, (port, 40000))
    return udp(*ends) if flags is None else tcp(*ends, flags=flags)


def generated(start, frames, hosts):
    pieces, x = [header()], start
    for i in range(1, frames + 1):
        x = (x * 6364136223846793005 + 1442695040888963407) % 2**64
        rest, host = divmod(x >> 32, hosts)
        client = ".".join(str(byte) for byte in (0x0A000001 + host).to_bytes(4, "big"))
        seconds, fraction = divmod(STEP * i, 1_000_000)
        pieces.append(record(frame_of(client, *TABLE[rest % 16]), FIRST_SECOND + seconds, fraction))
    return b"".join(pieces)


def checksum(data):
    total = 0
    for byte in data:
        total = (31 * total + byte) % 2**64
    return total


if __name__ == "__main__":
    made = generated(*map(int, sys.argv[1:]))
    print(len(made), checksum(made))
